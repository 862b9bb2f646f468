#!/usr/bin/env python3
"""rows.py FOLDER: prints the name of each worked example of FOLDER/checks/rows.txt, with the files and lines that run it.

It fails if an example is there twice, has no place, or has one that isn't there; if crates/calls/stdin has a heading that is no
example's name, one twice, or one without a call; and if the headings of its stdout are others.
"""

import re
import sys
from pathlib import Path
from typing import Callable, Dict, List, Tuple

PROGRAM = "crates/calls"


class Lost(Exception):
    """What isn't there."""


def squeezed(text: str) -> str:
    return re.sub(r" ", "", text).lower()


def headings(lines: List[str]) -> List[Tuple[str, int, int]]:
    """The name of each heading, the number of its line, and how many lines are below it that aren't empty."""
    found: List[Tuple[str, int, int]] = []
    for number, line in enumerate(lines, 1):
        if line.startswith("# "):
            found.append((line[2:], number, 0))
        elif line and found:
            name, first, below = found[-1]
            found[-1] = (name, first, below + 1)
    return found


class Places:
    """The places that run something, below a folder."""

    def __init__(self, root: Path) -> None:
        self.root = root
        self.called = headings(self.lines(f"{PROGRAM}/stdin"))
        self.answered = headings(self.lines(f"{PROGRAM}/stdout"))

    def lines(self, file: str) -> List[str]:
        path = self.root / file
        if not path.is_file():
            raise Lost(f"no file {file}")
        return path.read_text(encoding="utf-8").splitlines()

    def first(self, file: str, holds: Callable[[str], bool], what: str) -> str:
        for number, line in enumerate(self.lines(file), 1):
            if holds(line):
                return f"{file}:{number}"
        raise Lost(f"{file} has no {what}")

    def calls(self, row: str, _: str) -> str:
        for name, number, below in self.called:
            if name == row:
                return f"{PROGRAM}/stdin:{number + 1}-{number + below}"
        raise Lost(f"{PROGRAM}/stdin has no heading '{row}'")

    def answers(self, _: str, wanted: str) -> str:
        command, _, text = wanted.partition(" ")

        def is_row(line: str) -> bool:
            found = re.match(r"(\w+) \d (.*)", line)
            return bool(found) and found[1] == command and squeezed(found[2]) == squeezed(text)

        return self.first("checks/answers.txt", is_row, f"row {wanted}")

    def test(self, _: str, wanted: str) -> str:
        crate, _, path = wanted.partition(" ")
        *modules, name = path.split("::")
        file = f"crates/{crate}/src/{'/'.join(modules) or 'lib'}.rt"
        lines = self.lines(file)
        for number, line in enumerate(lines, 1):
            if line.strip().startswith(f"fn {name}(") and lines[number - 2].strip() == "#[test]":
                return f"{file}:{number}"
        raise Lost(f"{file} has no #[test] {name}")

    def line(self, _: str, wanted: str) -> str:
        file, _, text = wanted.partition(" ")
        return self.first(file, lambda line: text in line, f"line with {text}")


def rows_of(lines: List[str]) -> List[Tuple[str, List[str]]]:
    """The name of each example, and its places."""
    rows = [line.split(" | ") for line in lines if line and not line.startswith("#")]
    return [(row[0], row[1:]) for row in rows]


def main(root: Path) -> int:
    places = Places(root)
    wrong: List[str] = []
    rows: Dict[str, List[str]] = {}
    for name, wanted in rows_of(places.lines("checks/rows.txt")):
        if name in rows:
            wrong.append(f"'{name}' is there twice")
        if not wanted:
            wrong.append(f"nothing runs '{name}'")
        rows[name] = []
        for place in wanted:
            kind, _, rest = place.partition(" ")
            try:
                if kind not in ("calls", "answers", "test", "line"):
                    raise Lost(f"no kind of place is '{kind}'")
                rows[name].append(getattr(places, kind)(name, rest))
            except Lost as lost:
                wrong.append(f"'{name}': {lost}")
    names = [name for name, _, _ in places.called]
    wrong += [f"{PROGRAM}/stdin has '{name}', which rows.txt lacks" for name in names if name not in rows]
    wrong += [f"{PROGRAM}/stdin has '{name}' twice" for name in {*names} if names.count(name) > 1]
    wrong += [f"{PROGRAM}/stdin has no call below '{name}'" for name, _, below in places.called if not below]
    if names != [name for name, _, _ in places.answered]:
        wrong.append(f"{PROGRAM}/stdout has other headings than stdin")
    for name, found in rows.items():
        print(f"{name}: {', '.join(found)}")
    for text in wrong:
        print(f"rows: {text}", file=sys.stderr)
    return int(bool(wrong))


if __name__ == "__main__":
    sys.exit(main(Path(sys.argv[1])))
