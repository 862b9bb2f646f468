"""What bsonraw-dump takes of memory and of work, where its pages say how much: one document in memory at a time, with --resync three; 100 bytes a
form of `unique`, with --repeats 170; 280 bytes a document of `diff`; 400 bytes a path of `fields`, of as many as --paths says; and of places
that are checked no more than eight times the bytes of the input."""

import os
import subprocess
import sys

from checks.checklist import ROOT
from checks.programs import DUMP, Case, preloaded, reported

MIB = 1 << 20
MOST = 16_793_600
# Runs a command, and prints its status and its peak in KiB. It is apart, for a process begins with the peak of the one that starts it.
PEAK = "import os, subprocess, sys\nchild = subprocess.Popen(sys.argv[1:], stdout=subprocess.DEVNULL, stderr=subprocess.DEVNULL)\n"
PEAK += "_, status, usage = os.wait4(child.pid, 0)\nprint(os.waitstatus_to_exitcode(status), usage.ru_maxrss)"


def document(size: int, number: int = 0) -> bytes:
    """A document of this size, with a number and a string."""
    head = b"\x10a\0" + number.to_bytes(4, "little") + b"\x02b\0" + (size - 19).to_bytes(4, "little")
    return size.to_bytes(4, "little") + head + b"x" * (size - 20) + b"\0\0"


class Memory(Case):
    programs = (DUMP,)

    @classmethod
    def setUpClass(cls) -> None:
        super().setUpClass()
        words = [sys.executable, "-B", "-c", "from checks.test_memory import write_inputs; write_inputs()", str(cls.work)]
        subprocess.run(words, cwd=ROOT, check=True)
        cls.least = cls.peak("--version")[1]

    @classmethod
    def peak(cls, *words: str) -> "tuple[int, int]":
        """The status of a run, and its peak memory in bytes."""
        said = subprocess.run([sys.executable, "-c", PEAK, DUMP, *words], cwd=cls.work, stdout=subprocess.PIPE, check=True).stdout.split()
        return int(said[0]), int(said[1]) * 1024

    def within(self, most: int, status: int, *words: str) -> None:
        """A run ends with this status and takes at most this many MiB more than one that reads nothing."""
        found, peak = self.peak(*words)
        with self.subTest(" ".join(words)):
            self.assertEqual(found, status)
            self.assertLessEqual((peak - self.least) / MIB, most)

    def test_one_document_at_a_time(self) -> None:
        """Of 32 MiB of small ones, and of five of the greatest, 80 MiB. Of json a text has a block of its own, of diff a form."""
        for command in "check", "list", "count", "sizes", "fields", "canon", "sound", "unique", "json":
            self.within(8, 0, command, "small")
        for command in "check", "list", "count", "sizes", "canon", "sound":
            self.within(24, 0, command, "great")
        self.within(48, 0, "json", "great")
        self.within(56, 1, "diff", "great", "/dev/null")
        # of fields 28 bytes for each 8 of a document beside it
        self.within(24 + 56 + 4, 0, "fields", "great")

    def test_three_with_resync(self) -> None:
        """One, a place inside, and the document that has to follow there. What is passed over is let go."""
        self.within(8, 3, "check", "--resync", "gaps")
        self.within(8, 3, "check", "--resync", "noise")
        self.within(8, 3, "check", "noise")
        self.within(64, 3, "check", "--resync", "inside")

    def more(self, count: int, few: "list[str]", many: "list[str]") -> float:
        """How many bytes each of those takes of which the second command has this many more than the first."""
        return (self.peak(*many)[1] - self.peak(*few)[1]) / count

    def test_forms_and_paths(self) -> None:
        """A form takes at most 100 bytes, whatever it has, and 170 with the place of the first document that has it; a document of `diff` 280, most
        where NEW alone has it; a path its bytes and up to 400 more; of those over --paths none is kept."""
        for words, least, most in (["unique"], 32, 100), (["unique", "--repeats"], 56, 170), (["diff", "-q", "/dev/null"], 160, 280):
            form = self.more(600_000, [*words, "distinct"], [*words, "more"])
            self.assertTrue(least <= form <= most, (words, form))
        path = self.more(600_000, ["fields", "--paths", "400000", "paths"], ["fields", "--paths", "1000000", "paths"])
        self.assertTrue(200 <= path <= 400, path)
        self.within(8 + 4, 0, "fields", "paths")

    def test_places(self) -> None:
        """How often the pages of what was read are come to: at most eight times for the places, and some five as room is made, filled and
        moved."""
        shim = preloaded("passes.c", self.work / "passes.so")
        _, blocks = reported(shim, DUMP, "check", "--resync", "costly", cwd=self.work, timeout=60)
        ways = sum(blocks[1::2]) * 4096 / os.path.getsize(self.work / "costly")
        self.assertTrue(1 < ways <= 17, ways)


def write_inputs() -> None:
    """What is read, in the folder that the command line names."""
    os.chdir(sys.argv[1])

    def write(name: str, parts: "list[bytes]") -> None:
        with open(name, "wb") as file:
            file.writelines(parts)

    gap = (4).to_bytes(4, "little")
    great = document(MOST)
    write("small", [document(1024) * 1024] * 32)
    write("great", [great] * 5)
    write("gaps", [gap + document(1024) * 512] * 64)
    write("noise", [document(1024), b"\xff" * (32 * MIB)])
    forms = [document(60, number) for number in range(1_000_000)]
    write("distinct", forms[:400_000])
    write("more", forms)
    write("paths", [b"\x12\0\0\0\x10" + b"%07d" % number + b"\0" + bytes(5) for number in range(1_000_000)])
    # a damaged document of the greatest length, in whose last bytes one of that length begins, and two follow
    write("inside", [great[:-100], great, great, great, gap, great, great])
    # Every seven bytes begins a document of all that is left, whose numbers are the lengths of those after it, with a tag that no kind has
    # at the end.
    tail = bytes(4) + b"\x66a\0\0"
    left = range(7 * 300_000 + len(tail), len(tail), -7)
    write("costly", [gap, b"".join(size.to_bytes(4, "little") + b"\x10a\0" for size in left), tail])
