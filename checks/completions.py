"""What the shells that are there complete of the words of bsonraw-dump, with the files that a script makes.

    python3 -m checks.completions SCRIPT
"""

import re
import shutil
import subprocess
import sys
import tempfile
from pathlib import Path
from typing import Callable, Dict, List, Set, Tuple

from checks.programs import skip

# The words before the cursor, and what is completed.
WANTED: List[Tuple[str, Set[str]]] = [
    ("", {"check", "list", "show", "count", "sizes", "largest", "split", "fields", "diff", "canon", "sound", "unique", "json", "pick", "bson", "help"}),
    ("c", {"check", "count", "canon"}),
    ("sou", {"sound"}),
    ("largest --mo", {"--most"}),
    ("diff --b", {"--by"}),
    ("json --c", {"--canonical", "--color"}),
    ("pick --pr", {"--pretty"}),
    ("pick --cs", {"--csv"}),
    ("check --c", {"--color"}),
    ("list --color ", {"auto", "always", "never"}),
    ("check --max", {"--max-bytes", "--max-depth"}),
    ("list --findings", set()),
    ("sound --findings ", {"words", "json"}),
    ("sound --rep", {"--replace-bad-text"}),
    ("unique --repeats --a", {"--alone", "--as-is", "--at"}),
    ("bson --k", {"--keep-going"}),
    ("bson --max", {"--max-bytes", "--max-depth"}),
    ("check --q", {"--quiet"}),
    ("list --at ", set()),
    ("help pi", {"pick"}),
    ("sound -o one.bson tw", {"two.bson"}),
]
# Those of them where it is a file: zsh looks for these itself.
FILES = {"sound -o one.bson tw"}


def by_bash(folder: Path, words: str) -> Set[str]:
    """What bash completes, in a folder."""
    script = (
        'source "$1"; COMP_WORDS=("${@:2}"); COMP_CWORD=$(($# - 2)); _bsonraw_dump; '
        '[ ${#COMPREPLY[@]} = 0 ] || printf "%s\\n" "${COMPREPLY[@]}"'
    )
    given = ["bsonraw-dump", *words.split(" ")]
    ran = subprocess.run(["bash", "-c", script, "bash", str(folder / "bash"), *given], cwd=folder / "there", capture_output=True, text=True, check=True)
    return {it for it in ran.stdout.split("\n") if it and not (it.startswith("-") and not given[-1])}


def by_fish(folder: Path, words: str) -> Set[str]:
    script = f"source {folder / 'fish'}; complete -C 'bsonraw-dump {words}'"
    ran = subprocess.run(["fish", "--no-config", "-c", script], cwd=folder / "there", capture_output=True, text=True, check=True)
    return {it.split("\t")[0] for it in ran.stdout.split("\n") if it}


def by_zsh(folder: Path, words: str) -> Set[str]:
    """What zsh is told that it may complete: its own functions, which need a terminal, are replaced by ones that print what they are given."""
    script = (
        "_describe() { print -l -- ${(P)2%%:*} }; _arguments() { print -l -- $@ }; "
        'words=(bsonraw-dump "${@:2}"); CURRENT=$#; source $1'
    )
    given = words.split(" ")
    ran = subprocess.run(["zsh", "-f", "-c", script, "zsh", str(folder / "zsh"), *given], capture_output=True, text=True, check=True)
    last = given[-1]
    found = set()
    for line in ran.stdout.split("\n"):
        option = re.fullmatch(r"(?:\(.*?\))?(--?[\w-]+)=?\[.*\](?::\w+:(.*))?", line)
        name, value = (option[1], option[2] or "") if option else (line, "")
        if given[-2:-1] == [name] and value.startswith("("):
            return set(value.strip("()").split())
        if name.startswith(last) and (last or not name.startswith("-")) and re.fullmatch(r"[\w-]+", name):
            found.add(name)
    return found


SHELLS: Dict[str, Callable[[Path, str], Set[str]]] = {"bash": by_bash, "fish": by_fish, "zsh": by_zsh}


def main(script: str) -> int:
    wrong = 0
    there = [it for it in SHELLS if shutil.which(it)]
    for shell in SHELLS.keys() - there:
        skip(f"{shell} ({shell})")
    with tempfile.TemporaryDirectory() as made:
        folder = Path(made)
        (folder / "there").mkdir()
        for name in ("one.bson", "two.bson"):
            (folder / "there" / name).touch()
        for shell in there:
            text = subprocess.run([sys.executable, "-B", script, shell], capture_output=True, text=True, check=True).stdout
            (folder / shell).write_text(text)
            for words, wanted in WANTED:
                if shell == "zsh" and words in FILES:
                    continue
                found = SHELLS[shell](folder, words)
                if found != wanted:
                    print(f"completions: {shell} completes 'bsonraw-dump {words}' by {sorted(found)}, not by {sorted(wanted)}", file=sys.stderr)
                    wrong += 1
    print(f"{len(WANTED)} lines are completed by each of {', '.join(there)}")
    return 1 if wrong else 0


if __name__ == "__main__":
    sys.exit(main(sys.argv[1]))
