"""The checks of checks/list.txt, which says how a row is written, and the keys under which it is noted that one passed."""

import fnmatch
import hashlib
import os
import re
import subprocess
from functools import lru_cache
from pathlib import Path
from typing import Dict, List, NamedTuple, Set

ROOT = Path(__file__).resolve().parent.parent
BUILT = ("bsonraw", "bsonraw_dump", "library", "installed", "tests")
"""What is built, as rows name it."""
WHEN = ("first", "quick", "proofs", "prover", "release", "kept")


PROCESSORS = len(os.sched_getaffinity(0))


class Tool(NamedTuple):
    name: str
    package: str
    is_there: str


class Check(NamedTuple):
    name: str
    groups: Set[str]
    needs: List[str]
    rests_on: List[str]
    command: str

    def built(self) -> List[str]:
        """What has to be built for it."""
        return [it for it in self.needs if it in BUILT]

    def tools(self) -> List[str]:
        return [it for it in self.needs if it not in BUILT and it not in WHEN]

    def rests_on_file(self, path: str) -> bool:
        return any(fnmatch.fnmatch(path, it + "*" if it.endswith("/") else it) for it in self.rests_on)


def tracked() -> List[str]:
    """The files of the repository, also new ones, but for those that are ignored."""
    words = ["git", "ls-files", "-z", "--cached", "--others", "--exclude-standard"]
    names = subprocess.run(words, cwd=ROOT, stdout=subprocess.PIPE, check=True).stdout.decode().split("\0")
    return sorted({it for it in names if it and (ROOT / it).is_file()})


def libraries() -> Dict[str, List[str]]:
    """The crates of crates.txt, and of each the libraries that it names."""
    found = {}
    for line in (ROOT / "crates.txt").read_text().splitlines():
        head, colon, tail = line.partition("#")[0].partition(":")
        if colon:
            found[head.split()[0]] = tail.split()
    return found


def below(name: str) -> Set[str]:
    """The crates below this one."""
    direct = {it for it in libraries()[name] if it in libraries()}
    return direct.union(*map(below, direct))


def tested() -> List[str]:
    """The crates that have tests."""
    return [it for it in libraries() if any("#[test]" in file.read_text() for file in (ROOT / "crates" / it / "src").rglob("*.rt"))]


def with_output() -> List[str]:
    """The programs with a stored output."""
    return [it for it in libraries() if (ROOT / "crates" / it / "stdout").is_file()]


def each(check: Check) -> List[Check]:
    """The check, or where its name ends in a * one for each crate that it is for."""
    if not check.name.endswith("*"):
        return [check]
    head = check.name[:-1]
    crates = tested() if head == "tests-" else with_output()
    # (without a proof it reads of the crates below src/ and specs/)
    files = {it: [f"crates/{it}/", *(f"crates/{other}/s*" for other in sorted(below(it)))] for it in crates}
    return [Check(head + it, check.groups, check.needs, files[it], check.command.replace("*", it)) for it in crates]


@lru_cache(maxsize=None)
def read() -> "tuple[Dict[str, Tool], Dict[str, Check]]":
    """The tools and the checks of the list."""
    tools, checks = {}, {}
    for line in (ROOT / "checks" / "list.txt").read_text().splitlines():
        if not line or line.startswith("#"):
            continue
        fields = re.split(r" *\| *", line, maxsplit=3)
        if line.startswith("tool "):
            name, package, is_there = re.split(r" *\| *", line[5:], maxsplit=2)
            tools[name] = Tool(name, package, is_there)
        else:
            name, *groups = fields[0].split()
            for it in each(Check(name, set(groups), fields[1].split(), fields[2].split(), fields[3])):
                if it.name in checks and fields[0].endswith("*"):
                    continue
                if it.name in checks:
                    raise SystemExit(f"checks/list.txt: there are two checks {it.name}")
                checks[it.name] = it
    for it in checks.values():
        for tool in it.tools():
            if tool not in tools:
                raise SystemExit(f"checks/list.txt: {it.name} needs {tool}, which it doesn't say how to find")
    return tools, checks


def said(*words: str) -> str:
    """What a command prints, if it is there."""
    try:
        return subprocess.run(words, stdout=subprocess.PIPE, stderr=subprocess.STDOUT).stdout.decode(errors="replace")
    except OSError:
        return ""


def note_of(check: Check) -> Path:
    """Where it is noted that a check passed, by all that it rests on: its name and command, the names and contents of files, the kit, the
    machine's compilers and their flags."""
    files = [(it, hashlib.sha256((ROOT / it).read_bytes()).hexdigest()) for it in tracked() if check.rests_on_file(it)]
    flags = [(it, os.environ.get(it)) for it in ("CC", "CXX", "CFLAGS", "CXXFLAGS", "LDFLAGS")]
    whole = (check.name, check.command, files, said("rt", "version"), said("cc", "--version"), said("c++", "--version"), flags)
    return Path.home() / ".cache" / "foyeranise" / "passed" / hashlib.sha256(repr(whole).encode()).hexdigest()
