"""Runs of commands as a table has them, in the form of cram (https://bitheap.org/cram/), which has one stream for output and errors, and no
bytes. A line without blanks before it is the name of what follows; below it are

      $ COMMAND           a line of the shell, run in the folder of the runs before it
      > COMMAND           more of it, right after it
      TEXT                a line of standard output; with ` (esc)` at its end it is written as Python escapes it, with ` (re)` as a
                          regular expression
      ! TEXT              a line of standard error, written as these are
      = FILE..            in place of lines: standard output has the bytes of these files
      [STATUS]            the status, if it isn't 0

A run that ends with 77, as by `skip_all` of checks/skips.sh, leaves out what else is below its name.

    python3 -B -m checks.cram TABLE [FOLDER]     tries a table there, or in a new folder, and says what goes wrong. TOP is the repository,
                                                 CRAMTMP the folder, and what a table puts into bin/ there is in PATH
"""

import codecs
import os
import re
import subprocess
import sys
import tempfile
from pathlib import Path
from typing import Iterator, List, NamedTuple

SKIPS = Path(__file__).resolve().parent / "skips.sh"
SKIPPED = 77


class Skipped(Exception):
    """What is below this name can't be tried here."""


class Run(NamedTuple):
    name: str
    command: str
    wanted: List[str]

    def status(self) -> int:
        return next((int(it[1:-1]) for it in self.wanted if re.fullmatch(r"\[\d+\]", it)), 0)

    def lines(self, start: str) -> "List[str]":
        """What is wanted of a stream: of standard error the lines that begin so, of standard output the others."""
        errors = [it[2:] for it in self.wanted if it.startswith("! ")]
        others = [it for it in self.wanted if not re.match(r"! |= |\[\d+\]$", it)]
        return errors if start == "! " else others

    def files(self) -> "List[str] | None":
        return next((it[2:].split() for it in self.wanted if it.startswith("= ")), None)

    def wrong(self, folder: Path, path: str) -> Iterator[str]:
        """What goes wrong; nothing where all is as it is wanted."""
        how = {"cwd": folder, "stdin": subprocess.DEVNULL, "stdout": subprocess.PIPE, "stderr": subprocess.PIPE}
        done = subprocess.run(["sh", "-c", f". {SKIPS}\n{self.command}", "cram"], env={**os.environ, "PATH": path}, timeout=3600, **how)
        if done.returncode == SKIPPED and done.stderr.startswith(b"cram: skipped: "):
            raise Skipped
        files = self.files()
        if done.returncode != self.status():
            last = (done.stdout + done.stderr).decode(errors="replace").splitlines()[-20:]
            yield "\n    ".join([f"status {done.returncode}, not {self.status()}; the last lines are", *last])
        if files is not None and done.stdout != b"".join((folder / it).read_bytes() for it in files):
            yield f"standard output hasn't the bytes of {' '.join(files)}, but {len(done.stdout)} others"
        if files is None:
            yield from differing(self.lines(""), done.stdout, "standard output")
        yield from differing(self.lines("! "), done.stderr, "standard error")


def differing(wanted: List[str], found: bytes, stream: str) -> Iterator[str]:
    """The first line in which a stream differs from what is wanted."""
    ended = found.decode(errors="surrogateescape").split("\n")
    lines = ended[:-1] if ended[-1] == "" else [*ended[:-1], ended[-1] + " (no-eol)"]
    for number in range(max(len(wanted), len(lines))):
        line, want = (it[number] if number < len(it) else "no line" for it in (lines, wanted))
        if not is_as(line, want):
            yield f"{stream}, line {number + 1}: {line[:500]!r}, not {want[:500]!r}"
            return


def is_as(line: str, wanted: str) -> bool:
    if wanted.endswith(" (re)"):
        return re.fullmatch(wanted[:-5], line) is not None
    if wanted.endswith(" (esc)"):
        return line.encode(errors="surrogateescape") == codecs.escape_decode(wanted[:-6].encode())[0]
    return line == wanted


def read(table: Path) -> List[Run]:
    """The runs of a table."""
    found: List[Run] = []
    name = ""
    for line in table.read_text(encoding="utf-8").splitlines():
        if line.startswith("  $ "):
            found.append(Run(name, line[4:], []))
        elif (line.startswith("  > ") or line == "  >") and not found[-1].wanted:
            found[-1] = found[-1]._replace(command=f"{found[-1].command}\n{line[4:]}")
        elif line.startswith("  "):
            found[-1].wanted.append(line[2:])
        elif line and not line.startswith("#"):
            name = line
    return found


def failures(runs: List[Run], folder: Path, path: str) -> Iterator[str]:
    """What goes wrong where these runs are tried in a folder."""
    skipped = ""
    for it in runs:
        try:
            if it.name != skipped:
                yield from (f"{it.name}: {it.command}: {why}" for why in it.wrong(folder, path))
        except Skipped:
            skipped = it.name


def main(table: str, *folders: str) -> int:
    with tempfile.TemporaryDirectory() as new:
        folder = Path(*(folders or [new])).resolve()
        os.environ.update(TOP=str(SKIPS.parent.parent), CRAMTMP=str(folder))
        found = list(failures(read(Path(table)), folder, f"{folder}/bin:{os.environ['PATH']}"))
    print("".join(f"{table}: {it}\n" for it in found), end="")
    return int(bool(found))


if __name__ == "__main__":
    sys.exit(main(*sys.argv[1:]))
