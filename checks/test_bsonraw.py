"""What the program bsonraw prints and takes: each class is a check of checks/list.txt."""

import os
import resource
import sys
from pathlib import Path

from checks.checklist import ROOT
from checks.programs import BSONRAW, GREETING, Case, compiled, document, preloaded, reported, run

COMMANDS = ("list", "canon", "check")
SPACED = b"13000000 02686900 06000000 792761 6C6C00 00"


def examples() -> "dict[str, tuple[str, bytes, bytes, int]]":
    """The runs of examples/ by their names: the command, the text, what it prints and its status. One more has blanks between bytes."""
    found = {}
    for file in sorted((ROOT / "examples").glob("*.hex")):
        for command in COMMANDS:
            *out, status = file.with_suffix(f".{command}").read_bytes().splitlines(keepends=True)
            found[f"{file.stem}-{command}"] = command, file.read_bytes(), b"".join(out), int(status.split()[1])
    found["with-blanks"] = "list", SPACED, *found["greeting-list"][2:]
    return found


class Examples(Case):
    programs = (BSONRAW,)

    def test_each(self) -> None:
        for name, (command, text, out, status) in examples().items():
            with self.subTest(name):
                self.assertEqual(run(BSONRAW, command, input=text), (status, out, b""))


class Unproved(Case):
    """Runs without a proof, as `bin/bsonraw --unproved` compiles them."""

    def test_examples(self) -> None:
        for name, (command, text, out, _) in examples().items():
            for end, content in (("", text), (".args", command.encode() + b"\n"), (".stdout", out)):
                self.put(name + end, content)
        ran = run("rt", "try", "--steps", "1", "--cases", self.work, cwd=ROOT / "crates/bsonraw")
        for name, (_, _, _, status) in examples().items():
            with self.subTest(name):
                self.assertRegex(ran.err.decode(), f"(?m)^case={name} run=ended status={status} .*output=expected")

    def test_a_pipe_and_a_file(self) -> None:
        """The pipe pauses for longer than `rt try` waits, and the file is named from where the run begins."""
        self.put("greeting.bson", GREETING)
        words = ["sh", "-c", '{ sleep 3; cat greeting.bson; } | "$0" --unproved json greeting.bson -', ROOT / "bin/bsonraw-dump"]
        ran = run(*words, cwd=self.work)
        self.assertEqual(ran[:2], (0, b'{"hi":"y\'all"}\n' * 2))
        self.assertIn(b"nothing is proved", ran.err)
        ran = run(ROOT / "bin/bsonraw-dump", "--unproved", "canon", "-o", "none", "greeting.bson", cwd=self.work)
        self.assertEqual((ran[:2], (self.work / "none").exists()), ((125, b""), False))


class Misuse(Case):
    """Words that are no command give the usage line on standard output, and nothing of standard input is read."""

    programs = (BSONRAW,)

    def test_each(self) -> None:
        for words in [], ["list", "list"], [b"\xff"], ["list", b"\xff"], ["LIST"], ["Canon"], ["list "], ["checks"], [""], ["show"], ["canon", "list"]:
            with self.subTest(words), open(self.put("text", SPACED), "rb") as text:
                self.assertEqual(run(BSONRAW, *words, stdin=text), (3, b"usage: bsonraw list|canon|check\n", b""))
                self.assertEqual(os.lseek(text.fileno(), 0, os.SEEK_CUR), 0)


class Keys(Case):
    """No key is compared with each other. Times are those of a processor, the least of three runs, each cut off after 20 seconds, some hundred
    times what it takes; by the clock other programs would count."""

    programs = (BSONRAW,)

    def spent(self, command: str, last: bytes, text: bytes) -> float:
        """How many seconds the program takes, whose last line this is."""

        def limit() -> None:
            resource.setrlimit(resource.RLIMIT_CPU, (20, 20))

        def used() -> float:
            now = resource.getrusage(resource.RUSAGE_CHILDREN)
            return now.ru_utime + now.ru_stime

        took = []
        for _ in range(3):
            before = used()
            ran = run(BSONRAW, command, input=text, preexec_fn=limit)
            took.append(used() - before)
            self.assertEqual((ran.status, ran.out.splitlines()[-1:]), (0, [last]))
        return min(took)

    def test_many_keys(self) -> None:
        def nulls(factor: int) -> bytes:
            """200,000 nulls, whose keys are in order where the factor is 1."""
            return document(*(b"\x0a%06d\0" % (at * factor % 200_000) for at in range(200_000))).hex().encode()

        # 174,000 nulls under keys that are chosen for their hashes
        chosen = run(compiled("chosen_keys.c", self.work / "chosen", "-O2", "-ffreestanding", "-static")).out.hex().encode()
        listed, ordered = self.spent("list", b"end", nulls(1)), self.spent("check", b"canonical", nulls(1))
        mixed, hostile = self.spent("check", b"canonical", nulls(76543)), self.spent("check", b"canonical", chosen)
        print(f"keys: listed in {listed:.3f} s; checked in order in {ordered:.3f}, in no order in {mixed:.3f}, chosen in {hostile:.3f}")
        self.assertLess(ordered, 10 * listed)
        self.assertLess(mixed, 10 * ordered)
        self.assertLess(hostile, 20 * ordered)


class Passes(Case):
    """How often a document of over a megabyte is gone through: `list` comes to its bytes three times, as `hex::decode` fills its block with
    zeros first; `canon` once more."""

    programs = (BSONRAW,)

    def test_ways(self) -> None:
        text = document(*(b"\x10%06d\0%c%c\0\0" % (at, at % 256, at // 256 % 256) for at in range(100_000))).hex().encode()
        size = len(text) // 2
        shim = preloaded("passes.c", self.work / "passes.so")

        def ways(*words: "str | Path") -> float:
            """How often the command goes through its first block of this size or little more, in tenths."""
            ran, blocks = reported(shim, *words, input=text)
            self.assertEqual(ran.status, 0, ran.err)
            return next((round(10 * 4096 * pages / at) for at, pages in zip(blocks[::2], blocks[1::2]) if size <= at < size + 100), -1)

        for count in (1, 2):
            # (that each way is counted)
            self.assertEqual(ways(sys.executable, "-c", f"b = bytearray({size}); [b.count(1) for _ in range({count})]"), 10 * (1 + count))
        self.assertEqual((ways(BSONRAW, "list"), ways(BSONRAW, "canon")), (30, 40))
