"""Memory that is refused, and documents of very many levels: each class is a check of checks/list.txt. The programs and the tests are those
that were built last."""

import os
import re
from concurrent.futures import ThreadPoolExecutor
from itertools import count, groupby
from pathlib import Path
from typing import Iterator, List, Tuple

from checks import test_answers as answers
from checks.checklist import ROOT
from checks.programs import BSONRAW, DUMP, Case, Ran, hexed, levels, preloaded, reported, run

TESTS = ROOT / "crates/bson_tests/out/bson_tests_tests"
USED_UP = 4
"""The status of a program where memory ran out; 5 is that where it did for what is read."""


def tests_of(crate: str) -> Path:
    return ROOT / "crates" / crate / "out" / f"{crate}_tests"


class Refusals(Case):
    """Each scenario of checks/refusals.txt, which says how they are written, with its first, second, third, .. request for memory refused, until
    a run meets no refusal. Whatever was refused, each block of memory is released at the end."""

    programs = (BSONRAW, DUMP, TESTS)
    shim: Path

    @classmethod
    def setUpClass(cls) -> None:
        super().setUpClass()
        cls.shim = preloaded("refuse.c", cls.work / "refuse.so")

    def refused(self, *words: "str | Path", **how: object) -> Iterator[Tuple[Ran, bool]]:
        """What comes of a command where its first request is refused, its second, and so on, and whether one was; at last none is."""
        for number in count(1):
            ran, told = reported(self.shim, *words, **{**how, "env": {"REFUSE": str(number)}})
            requests, held = (*told, -1, -1)[:2]
            self.assertEqual(held, 0, f"request {number} refused: blocks of memory aren't released")
            yield ran, requests >= number
            if requests < number:
                return

    def of_program(self, command: str, text: bytes, out: bytes, status: int) -> List[int]:
        """The statuses of the program bsonraw, which gives the result of ample memory, or nothing."""
        statuses = []
        for ran, is_refused in self.refused(BSONRAW, command, input=text):
            if ran[:2] != (status, out):
                self.assertTrue(is_refused)
                self.assertIn(ran[:2], ((USED_UP, b""), (5, b"")))
            if is_refused:
                statuses.append(ran.status)
        self.assertIn(USED_UP, statuses)
        return statuses

    def try_program(self, command: str, name: str, *wanted: str) -> None:
        *out, status = (ROOT / "examples" / f"{name}.{command}").read_bytes().splitlines(keepends=True)
        statuses = self.of_program(command, (ROOT / "examples" / f"{name}.hex").read_bytes(), b"".join(out), int(status.split()[1]))
        self.assertEqual(tuple(f"{it}x{len(list(same))}" for it, same in groupby(statuses)), wanted)

    def try_rows(self, command: str) -> None:
        for row in answers.table():
            if row.command == command:
                self.of_program(command, row.text, row.output, row.status)

    def try_dump(self, command: str, name: str, *others: str) -> None:
        data = hexed((ROOT / "examples" / f"{name}.hex").read_bytes())
        with open(self.put(f"{command}-{name}", data if command != "bson" else run(DUMP, "json", "-", input=data).out)) as given:
            ample = run(DUMP, command, given.name, *others)
            statuses = set()
            for ran, is_refused in self.refused(DUMP, command, given.name, *others):
                statuses.add(ran.status)
                if ran[:2] != ample[:2]:
                    self.assertTrue(is_refused)
                    self.assertTrue(ran.status == USED_UP or ran[:2] == (2, b""), ran)
                    self.assertTrue(ample.out.startswith(ran.out), "it prints no front of the output")
            self.assertIn(USED_UP, statuses)

    def try_test(self, crate: str, name: str, wanted: str = "") -> None:
        runs = [self.assertEqual(ran.status, 0, ran.out + ran.err) for ran, _ in self.refused(tests_of(crate), name)]
        requests = len(runs) - 1
        self.assertTrue(requests == int(wanted) if wanted else requests > 0, f"{requests} requests")

    def try_refused(self, crate: str, name: str) -> None:
        runs = list(self.refused(tests_of(crate), name))
        self.assertGreater(len(runs), 1)
        for ran, is_refused in runs:
            self.assertEqual((ran.status, b"out of memory" in ran.out.splitlines()), (0, is_refused), ran.out + ran.err)

    def test_scenarios(self) -> None:
        lines = [it for it in (ROOT / "checks/refusals.txt").read_text().splitlines() if it and not it.startswith("#")]

        def tried(line: str) -> str:
            kind, *words = line.split()
            try:
                getattr(self, f"try_{kind}")(*words)
            except AssertionError as error:
                return f"{line}: {error}"
            return ""

        with ThreadPoolExecutor(os.cpu_count()) as pool:
            self.none_of([it for it in pool.map(tried, lines) if it])

    def test_none_is_left_out(self) -> None:
        """Each test of a module `memory` has a line."""
        lines = (ROOT / "checks/refusals.txt").read_text()
        wrong = []
        for program in sorted((ROOT / "crates").glob("*/out/*_tests")):
            crate = program.parent.parent.name
            if any("#[cfg(test)]" in it.read_text() for it in (program.parent.parent / "src").rglob("*.rt")):
                listed = run(program, "--list")
                self.assertEqual(listed.status, 0)
                names = re.findall(r"(?m)^((?:.*::)?memory::.*): \w*$", listed.out.decode())
                wrong += [f"{crate} {it}" for it in names if not re.search(rf"(?m)^(test|refused) {crate} {it}( \d+)?$", lines)]
        self.none_of(wrong, "these have no line in checks/refusals.txt")


class Deep(Case):
    """Documents of very many levels, and trees, on a stack of 256 KiB, which is less than a byte for each of two million levels."""

    programs = (BSONRAW, DUMP, TESTS)
    shim: Path

    @classmethod
    def setUpClass(cls) -> None:
        super().setUpClass()
        cls.shim = preloaded("refuse.c", cls.work / "count.so")

    def prints(self, text: bytes, command: str, status: int, out: bytes) -> int:
        """The program's output and status; returns how often it asked for memory."""
        ran, (requests, _) = reported(self.shim, BSONRAW, command, input=text, stack=256)
        self.assertEqual(ran[:2], (status, out))
        return requests

    def test_bsonraw(self) -> None:
        """`canon` asks no more often for many levels than for few, beside what `list` asks for to read the text."""
        more = []
        for many, length in ((501, 3498), (2_000_000, 13_999_991)):
            text = levels(many).hex().encode()
            listed = self.prints(text, "list", 0, b"03 - %d\nend\n" % length)
            more.append(self.prints(text, "canon", 1, b"refused 7\n") - listed)
        self.assertLessEqual(more[1], more[0])
        self.prints(text, "check", 0, b"canonical\n")
        self.prints(levels(2_400_000).hex().encode(), "canon", 1, b"refused 6\n")

    def test_dump(self) -> None:
        data = levels(2_000_000)
        file = self.put("deep", data)
        for command, holds in (("check", None), ("canon", data), ("json", 9_999_998)):
            words = [DUMP, command, "--max-depth", "2000000", *(["-o", self.work / "output"] if holds else []), file]
            ran, _ = reported(self.shim, *words, stack=256)
            self.assertEqual(ran.status, 0, ran.err[:300])
            if holds:
                # of json a brace, two quotes, a colon and a brace for each level but the innermost, that one's braces and a line feed
                out = (self.work / "output").read_bytes()
                self.assertTrue(out == holds or len(out) == holds, f"{command}: {len(out)} bytes")
        # (what json wrote last is read back)
        words = [DUMP, "bson", "--max-depth", "2000000", "-o", self.work / "back", self.work / "output"]
        self.assertEqual(reported(self.shim, *words, stack=256)[0].status, 0)
        self.assertEqual((self.work / "back").read_bytes(), data)

    def tried(self, name: str, stack: int = 256) -> Tuple[int, int]:
        """A test passes; returns how often it asked for memory, and how many blocks it never released."""
        ran, (requests, held) = reported(self.shim, TESTS, name, stack=stack)
        self.assertEqual(ran.status, 0, (name, ran.out[:300], ran.err[:300]))
        return requests, held

    def test_trees(self) -> None:
        """All that they were given is released, and to drop a tree asks for nothing."""
        for name in (
            "trees::depth::a_million_levels_of_each_kind_come_back",
            "trees::depth::a_list_of_deep_documents_comes_back",
            "models::depth::a_deep_branch_among_others_is_let_go",
            "trees::depth::a_million_owned_levels_are_compared_and_printed",
            "trees::depth::a_million_levels_in_turn_come_back",
        ):
            requests, held = self.tried(name)
            self.assertEqual(held, 0, name)
        self.assertEqual(self.tried("trees::depth::a_million_levels_in_turn_are_forgotten")[0], requests)
        for name in ("models::depth::levels_are_compared", "models::depth::levels_are_printed"):
            self.tried(name, stack=8192)
