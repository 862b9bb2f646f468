"""What the pages of this repository show: their blocks of code, and their links.

    pages.py blocks KIND FOLDER PAGE..   writes each block of this kind into a file, such as FOLDER/docs_calling_1.rt
    pages.py shown PAGE..                says each block that nothing looks at, and each link that leads nowhere
    pages.py run [--as-typed] PAGE..     runs the commands of each page, and compares their output with what it shows
    pages.py script [--as-typed] TEXTS PAGE..
                                         prints the commands without an output as a script: those of the first page, then those of each
                                         other one in a shell of its own; without the lines that have one of these texts, with commas
    pages.py tests FOLDER FILE..         writes the examples in doc comments of each file of Rust as tests, such as
                                         FOLDER/raw_view_array.rt with a test line_25, and says how many they are

A block in fences is Rattle (`rust`), which compiles.sh compiles; Rust (`rust,edition2021`, what is to
be compiled alone `rust,no_run`, and what needs serde `rust,ignore`), which checks/rust.txt runs; C, which c.sh compiles; Python, which is compiled here; or commands,
which are run. `text` is a picture, or the output of the commands right before it. An indented block is so in the
sources of a crate, except for comments and for how far it is indented, and a record is shown whole.
"""

import difflib
import re
import subprocess
import sys
from pathlib import Path
from typing import Iterator, List, NamedTuple, Optional

KINDS = ("rust", "rust,edition2021", "rust,no_run", "rust,ignore", "c", "python", "sh", "text")
SUFFIXES = {"rust": "rt", "rust,no_run": "rs", "rust,ignore": "rs"}
MUST_RUN = ("README.md", "docs/USING.md")  # pages that show the program, so that a page without an example is wrong


class Block(NamedTuple):
    """A block of code of a page. An indented one has no kind, and one in fences is open where its fence isn't closed."""

    kind: Optional[str]
    text: str
    follows: bool  # nothing but blank lines is between the block before and this one
    is_open: bool = False


def blocks(page: str) -> List[Block]:
    """The blocks of a page, in order."""
    found: List[Block] = []
    kind: Optional[str] = None  # of the fence that is open
    inside: List[str] = []
    is_fence = is_after_blank = follows = False

    def close(is_open: bool = False) -> None:
        nonlocal inside, follows
        found.append(Block(kind if is_fence else None, "".join(line + "\n" for line in inside), follows, is_open))
        inside, follows = [], True

    for line in page.splitlines():
        if line.startswith("```"):
            if is_fence or inside:
                close()
            is_fence, kind = not is_fence, line[3:]
        elif is_fence:
            inside.append(line)
        elif line.startswith("    ") and (is_after_blank or inside):
            inside.append(line)
        else:
            if inside:
                close()
            follows = follows and not line.strip()
            is_after_blank = not line.strip()
    if is_fence or inside:
        close(is_fence)
    return found


def words(text: str, comments: str = r"\s*(//|--)") -> str:
    """The text without the lines that are comments, its words one blank apart."""
    return " ".join(" ".join(line for line in text.splitlines() if not re.match(comments, line)).split())


def records(text: str) -> "dict[str, str]":
    """The records of a text by their names, each to where its lines end."""
    found = {}
    lines = text.splitlines()
    for number, line in enumerate(lines):
        match = re.match(r"( *)pub record (\w+) ", line)
        if match:
            after = [i for i in range(number + 1, len(lines)) if not re.match(match[1] + r" |\s*--", lines[i])]
            found[match[2]] = words("\n".join(lines[number : after[0] if after else None]))
    return found


def sources() -> List[str]:
    """The texts of the sources of all crates."""
    listed = subprocess.run(["git", "ls-files", "crates"], check=True, stdout=subprocess.PIPE, universal_newlines=True).stdout
    names = (name for name in listed.splitlines() if re.search(r"/(src|specs|proofs)/.*\.(rt|antt)$", name))
    return [Path(name).read_text(encoding="utf-8") for name in names]


def strange_blocks(page: str, texts: List[str]) -> Iterator[str]:
    """What is wrong with the blocks of a page, given the texts of the sources."""
    standing = [words(text) for text in texts]
    for block in blocks(page):
        if block.is_open:
            yield f"a fence isn't closed: {block.text[:60]!r}"
        elif block.kind is None:
            shown = words(block.text)
            if not any(shown in text for text in standing):
                yield f"this isn't in the sources: {shown}"
            for name, record in records(block.text).items():
                if record not in [records(text).get(name) for text in texts]:
                    yield f"the record {name} isn't shown as it is in the sources"
        elif block.kind not in KINDS:
            yield f"nothing looks at a block of ```{block.kind}"
        elif block.kind == "python":
            try:
                compile(block.text, "block", "exec")
            except SyntaxError as error:
                yield f"a block of Python has {error.msg}: {error.text}"


def without_blocks(page: str) -> str:
    """The text of a page without its blocks in fences and its code in lines."""
    return re.sub(r"`[^`\n]*`", "", re.sub(r"^```.*?^```$", "", page, flags=re.M | re.S))


def places(page: str) -> "set[str]":
    """The places of a page that a link may name: its headings, as they are named by what shows pages, and its anchors."""
    headings = re.findall(r"^#+ (.*)$", re.sub(r"^```.*?^```$", "", page, flags=re.M | re.S), re.M)
    return set(re.findall(r'<a id="([^"]*)">', page)) | {
        re.sub(r"[^\w\- ]", "", heading).strip().lower().replace(" ", "-") for heading in headings
    }


def lost_links(page: str, folder: Path) -> Iterator[str]:
    """The links of a page in this folder that lead nowhere: no file, no line of it, or no place."""
    for link in re.findall(r"\]\(([^)\s]*)\)", without_blocks(page)):
        if re.match(r"https?:", link):
            continue
        name, _, place = link.partition("#")
        target = folder / name
        if name and not target.exists():
            yield f"this link leads nowhere: {link}"
        elif place:
            text = page if not name else target.read_text(encoding="utf-8")
            line = re.fullmatch(r"L(\d+)", place)
            if not (int(line[1]) <= text.count("\n") if line and name else place in places(text)):
                yield f"this link leads to no place of its page: {link}"


class Example(NamedTuple):
    """Commands, and the output that the page shows right after them."""

    commands: str
    output: Optional[str]


def examples(page: str, as_typed: bool = False) -> List[Example]:
    """The commands that a page shows. `--unproved` is left away unless they are to be as they are typed."""
    found = []
    shown = blocks(page)
    for block, after in zip(shown, [*shown[1:], None]):
        if block.kind == "sh":
            output = after.text if after and after.kind == "text" and after.follows else None
            commands = block.text if as_typed else re.sub(r"^(.*?) --unproved", r"\1", block.text, flags=re.M)
            found.append(Example(commands, output))
    return found


def script(pages: "List[tuple[str, str]]", without: List[str], as_typed: bool = False) -> str:
    """The commands of these pages, each with its name, that show no output: see above."""
    parts = ["set -e\n"]
    for number, (name, page) in enumerate(pages):
        texts = [example.commands for example in examples(page, as_typed) if example.output is None]
        lines = [line for text in texts for line in text.splitlines() if not any(word in line for word in without)]
        if lines:
            body = f"echo '{name}: {len(lines)} lines are typed'\n" + "".join(line + "\n" for line in lines)
            parts.append(body if number == 0 else f"(\n{body})\n")
    return "".join(parts)


def run(page: str, as_typed: bool = False) -> "tuple[int, list[str]]":
    """How many examples of a page were run, and what is wrong with them."""
    wrong = []
    count = 0
    for example in examples(page, as_typed):
        if example.output is None:
            if "bin/bsonraw" in example.commands:
                wrong.append(f"it doesn't show what comes of: {example.commands}")
            continue
        count += 1
        done = subprocess.run(
            ["sh", "-c", example.commands],
            stdin=subprocess.DEVNULL,
            stdout=subprocess.PIPE,
            stderr=subprocess.PIPE,
            universal_newlines=True,
        )
        if done.stdout != example.output:
            differences = difflib.unified_diff(example.output.splitlines(), done.stdout.splitlines(), "shown", "printed", lineterm="")
            wrong.append("\n".join([f"it shows another output of: {example.commands}", *differences, done.stderr]))
    return count, wrong


TEST = """#[test]
fn line_{number}(rt: HostRuntime) -> std::result::Result<(), Fail> {{
    let alloc = rt.alloc();
{body}    Ok(())
}}
"""


def doc_examples(source: str) -> "Iterator[tuple[int, str]]":
    """The examples in doc comments of a source, each with the number of its first line."""
    lines: Optional[List[str]] = None
    for number, line in enumerate(source.splitlines(), 1):
        match = re.match(r"\s*///(?: (.*)|$)", line)
        text = (match[1] or "") if match else None
        if text == "```":
            if lines is not None:
                yield number - len(lines), "".join(line + "\n" for line in lines)
            lines = [] if lines is None else None
        elif text is not None and text.startswith("```"):
            raise SystemExit(f"pages: nothing looks at an example that begins with {text}")
        elif lines is not None:
            if text is None:
                raise SystemExit(f"pages: an example isn't closed: {''.join(lines)}")
            lines.append(text)


def write_tests(folder: Path, names: List[str]) -> int:
    """Writes the examples of these files as tests of a crate that lists what a user names; returns their number."""
    count = 0
    for name in names:
        _, crate, *_, file = Path(name).parts
        tests = [
            TEST.format(number=number, body="".join(f"    {line}\n" for line in text.splitlines()))
            for number, text in doc_examples(Path(name).read_text(encoding="utf-8"))
        ]
        if tests:
            uses = "".join(f"use {used};\n" for used in ("raw_bson::*", "raw_form::*", "raw_shelf::*", "bson_to_json::*", "bson_from_json::*", "json_round_trip::*", "bson_uses::*", "std::test::Fail"))
            (folder / f"{crate}_{file}").write_text(uses + "\n" + "\n".join(tests), encoding="utf-8")
            count += len(tests)
    return count


def write_blocks(kind: str, folder: Path, names: List[str]) -> None:
    for name in names:
        stem = re.sub(r"\W", "_", name[: -len(".md")]).strip("_").lower()
        texts = [block.text for block in blocks(Path(name).read_text(encoding="utf-8")) if block.kind == kind]
        for number, text in enumerate(texts, 1):
            (folder / f"{stem}_{number}.{SUFFIXES.get(kind, kind)}").write_text(text, encoding="utf-8")


def main(command: str, *arguments: str) -> int:
    if command == "blocks":
        write_blocks(arguments[0], Path(arguments[1]), list(arguments[2:]))
        return 0
    if command == "tests":
        print(write_tests(Path(arguments[0]), list(arguments[1:])))
        return 0
    names = list(arguments)
    as_typed = names[:1] == ["--as-typed"]
    del names[:as_typed]
    if command == "script":
        texts, *names = names
        read = [(name, Path(name).read_text(encoding="utf-8")) for name in names]
        print(script(read, [text for text in texts.split(",") if text], as_typed), end="")
        return 0
    failed = False
    standing = sources() if command == "shown" else []
    for name in names:
        page = Path(name).read_text(encoding="utf-8")
        if command == "shown":
            wrong = [*strange_blocks(page, standing), *lost_links(page, Path(name).parent)]
        else:
            count, wrong = run(page, as_typed)
            if count == 0 and name in MUST_RUN:
                wrong.append("it shows no output")
            elif count > 0:
                print(f"{name}: {count} examples were run")
        for line in wrong:
            print(f"{name}: {line}", file=sys.stderr)
            failed = True
    return int(failed)


if __name__ == "__main__":
    sys.exit(main(*sys.argv[1:]))
