"""Whether bin/words/CRATE.txt has what a program prints of words that it needn't be built for, and bin/words.py answers as the program does.

    words.py [--write] PROGRAM CRATE   with --write the file is written
"""

import os
import subprocess
import sys
import tempfile
from pathlib import Path
from typing import Dict, Iterator, List

TOP = Path(__file__).resolve().parent.parent
sys.path.insert(0, str(TOP / "bin"))
sys.dont_write_bytecode = True

from words import RUN, STAND_IN, Program, Text, alike  # noqa: E402

# Words that bin/words.py has to answer as the program does, in a folder with a folder `folder` and in that a file `file`.
ANSWERED = {
    "bsonraw": ["", "zzz", "--help", "list canon", "list list", "check -"],
    "bsonraw_dump": [
        *["", "-h", "--help", "help", "-V", "--version", "help check", "help zzz", "help help", "--bogus", "-x", "zzz", "zzz --help"],
        *["chek", "chec", "lst", "conut", "cano", "jsn", "uniqe", "pikc", "bsn", "fielsd", "checks"],
        *["check --help", "json -h", "check --bogus", "check -x", "check -o x", "check --quet", "check --max-byte 7", "json --outptu=x"],
        *["json --canonicla", "bson --take 3", "bson --max-depth 7 --help", "pick", "check --quiet --help", "check --max-bytes 7 --help", "list -q"],
    ],
}
# Words that name a FILE that isn't there: of what the program prints the lines on that.
LOST = {"bsonraw": [], "bsonraw_dump": ["count nofile", "check folder/none", "json nofile folder/file other", "pick a.b no\"file", "list --take 3 nofile"]}
# Words that bin/words.py has to leave to the program.
LEFT = {
    "bsonraw": ["list", "canon", "check"],
    "bsonraw_dump": [
        *["check", "check -", "check folder", "check folder/file", "json -q --max-bytes 7 folder/file", "json -o x folder/file", "json -ox"],
        *["count --at=3 -- folder/file", "pick a.b folder/file", "pick a.b", "check --limit 3 -q", "json --pretty folder/file", "fields --paths 4", "json -qox folder"],
    ],
}


def run(*command: str) -> "subprocess.CompletedProcess[str]":
    return subprocess.run(command, stdin=subprocess.DEVNULL, stdout=subprocess.PIPE, stderr=subprocess.PIPE, encoding="utf-8")


def taken(program: str) -> Dict[str, Text]:
    """What the file has to have: what the program prints of these words."""
    found: Dict[str, Text] = {}

    def take(words: str) -> None:
        ran = run(program, *words.split())
        found[words] = Text(ran.returncode, "stderr" if ran.stderr else "stdout", ran.stderr or ran.stdout)

    take(STAND_IN)
    if run(program, "--help").returncode:
        return found
    for words in ("", "--help", "help help", "--version", f"--{STAND_IN}"):
        take(words)
    asked = Program(found)
    commands = [it for it in asked.commands() if it != "help"]
    typos = [it + it[-1] for it in commands]
    for typo in (next((it for it in typos if (len(alike(it, asked.commands())) > 1) is many), "") for many in (False, True)):
        if typo:
            take(typo)
    for command in commands:
        take(f"{command} --help")
        take(f"{command} --{STAND_IN}")
        option = next(it for it in asked.options(command) if it.startswith("--"))
        take(f"{command} {option}{option[-1]}")
        if asked.required(command):
            take(command)
    take(f"{commands[0]} {STAND_IN}")
    return found


def in_a_file(texts: Dict[str, Text]) -> str:
    return "".join(f"== {text.status} {text.stream} | {words}".rstrip() + f"\n{text.text}" for words, text in texts.items())


def wrongs(program: str, crate: str) -> Iterator[str]:
    """How bin/words.py answers otherwise than the program."""
    by_words = ["python3", "-I", str(TOP / "bin" / "words.py"), crate]
    for words in ANSWERED[crate]:
        wanted, given = run(program, *words.split()), run(*by_words, *words.split())
        if (given.returncode, given.stdout, given.stderr) != (wanted.returncode, wanted.stdout, wanted.stderr):
            yield f"`{words}` is answered with status {given.returncode}, {given.stdout}{given.stderr}, and not {wanted.returncode}, {wanted.stdout}{wanted.stderr}"
    for words in LOST[crate]:
        wanted, given = run(program, *words.split()), run(*by_words, *words.split())
        if given.returncode != wanted.returncode or given.stdout or not given.stderr or not set(given.stderr.split("\n")) <= set(wanted.stderr.split("\n")):
            yield f"`{words}` is answered with status {given.returncode}, {given.stdout}{given.stderr}, and not {wanted.returncode}, {wanted.stderr}"
    for words in LEFT[crate]:
        given = run(*by_words, *words.split())
        if (given.returncode, given.stdout, given.stderr) != (RUN, "", ""):
            yield f"`{words}` is answered before the program is built: {given.returncode}, {given.stdout}{given.stderr}"


def main(program: str, crate: str, is_written: bool) -> int:
    file = TOP / "bin" / "words" / f"{crate}.txt"
    text = in_a_file(taken(program))
    if is_written:
        file.write_text(text, encoding="utf-8")
    elif not file.exists() or file.read_text(encoding="utf-8") != text:
        print(f"words: bin/words/{crate}.txt hasn't what {crate} prints now: checks/words.py --write {program} {crate} writes it", file=sys.stderr)
        return 1
    with tempfile.TemporaryDirectory() as folder:
        (Path(folder) / "folder").mkdir()
        (Path(folder) / "folder" / "file").write_bytes(b"")
        os.chdir(folder)
        found = list(wrongs(program, crate))
    for wrong in found:
        print(f"words: {wrong}", file=sys.stderr)
    return 1 if found else 0


if __name__ == "__main__":
    given: List[str] = [it for it in sys.argv[1:] if it != "--write"]
    if len(given) != 2:
        sys.exit(__doc__)
    sys.exit(main(os.path.realpath(given[0]), given[1], "--write" in sys.argv))
