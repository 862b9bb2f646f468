"""bsonraw-dump with names and folders that it is given and files that it writes: the runs of checks/outputs.txt; and signals, pipes whose reader
is gone, a full disk, and terminals."""

import os
import pty
import re
import signal
import subprocess
from pathlib import Path
from typing import Any, Dict, Tuple

from checks import cram
from checks.checklist import ROOT
from checks.programs import DUMP, Case, Ran, run, skip

ONE = bytes.fromhex("0c0000001061000100000000")
TWICE = bytes.fromhex("13000000106100010000001061000200000000")
DAMAGED = bytes.fromhex("090000000861000200")


class Outputs(Case):
    programs = (DUMP,)
    dump: Path

    @classmethod
    def setUpClass(cls) -> None:
        super().setUpClass()
        cls.work.chmod(0o755)
        for it in ("bin", "table"):
            (cls.work / it).mkdir()
        # (a user who may read no clone of this runs it, too)
        cls.dump = cls.work / "bin/bsonraw-dump"
        cls.dump.write_bytes(DUMP.read_bytes())
        cls.dump.chmod(0o755)
        (cls.work / "one").write_bytes(ONE)

    def ran(self, *words: str, **how: Any) -> Ran:
        return run(self.dump, *words, cwd=self.work, **how)

    def left(self) -> "list[str]":
        return [it.name for it in self.work.glob("*.tmp")]

    def test_table(self) -> None:
        path, is_root = f"{self.dump.parent}:{os.environ['PATH']}", os.geteuid() == 0
        runs = [it for it in cram.read(ROOT / "checks/outputs.txt") if is_root or not it.name.startswith("as root: ")]
        if not is_root:
            skip("owners, since this isn't root")
        self.none_of(list(cram.failures(runs, self.work / "table", path)))

    def test_folder_that_cannot_be_read(self) -> None:
        """Root reads each, so another user is asked for."""
        locked = self.work / "locked/folder"
        locked.mkdir(parents=True)
        locked.chmod(0)
        user: Dict[str, Any] = {"user": 65534, "group": 65534, "extra_groups": []} if os.geteuid() == 0 else {}
        self.assertIn(b'bsonraw-dump: "locked/folder": Permission denied', self.ran("sound", "locked", **user).err)
        locked.chmod(0o755)

    def test_full_disk(self) -> None:
        disk = self.work / "disk"
        disk.mkdir()
        if os.geteuid() or run("mount", "-t", "tmpfs", "-o", "size=64k", "tmpfs", disk).status:
            skip("a disk that is full, since none can be mounted")
            return
        try:
            (disk / "old").write_bytes(b"old")
            ran = self.ran("sound", "-o", "disk/old", input=ONE * 100_000)
            self.assertEqual((ran.status, (disk / "old").read_bytes(), os.listdir(disk)), (5, b"old", ["old"]))
            self.assertIn(b"No space left on device", ran.err)
        finally:
            run("umount", disk)

    def test_signals(self) -> None:
        """Wherever a signal ends a run, an OUTPUT is the old or the new one, whole."""
        many = self.put("many", ONE * 300_000)
        for moment in range(10):
            output = self.put("output", b"old")
            child = subprocess.Popen([self.dump, "sound", "-o", "output", many], cwd=self.work, stderr=subprocess.DEVNULL)
            try:
                child.wait(moment * 0.004)
            except subprocess.TimeoutExpired:
                child.send_signal((signal.SIGINT, signal.SIGTERM, signal.SIGHUP)[moment % 3])
            child.wait()
            self.assertIn(output.read_bytes(), (b"old", many.read_bytes()) if child.returncode else (many.read_bytes(),))
            for name in self.left():
                os.remove(self.work / name)

    def test_a_finding_comes(self) -> None:
        """It is read from a pipe while the input goes on."""
        child = subprocess.Popen([self.dump, "check"], stdin=subprocess.PIPE, stdout=subprocess.PIPE)
        assert child.stdin is not None and child.stdout is not None
        child.stdin.write(TWICE)
        child.stdin.flush()
        signal.alarm(120)
        self.assertIn(b"repeated-key", child.stdout.readline())
        signal.alarm(0)
        child.kill()
        child.communicate()

    def test_findings_without_reader(self) -> None:
        """An OUTPUT isn't written, and the status says so; it does, too, where the documents have a reader, who has to know. A pipe for both is
        one whose reader wants no more."""
        self.put("damaged", DAMAGED * 1000, ONE)
        self.put("fault", b'{"a" 1}\n{"a":1}\n')
        for words in (("sound", "damaged"), ("json", "damaged"), ("canon", "one"), ("bson", "--keep-going", "fault")):
            ours, side = os.pipe()
            os.close(ours)
            output = self.put("output", b"old")
            if words[0] != "json":
                self.assertEqual((self.ran(*words, "-o", "output", stderr=side).status, output.read_bytes(), self.left()), (5, b"old", []), words)
            self.assertEqual(self.ran(*words, stdout=subprocess.DEVNULL, stderr=side).status, 5, words)
            if words[0] != "bson":
                self.assertEqual(self.ran(words[0], "one", stdout=side, stderr=side).status, 0, words)
            os.close(side)


class Terminals(Case):
    programs = (DUMP,)

    @classmethod
    def setUpClass(cls) -> None:
        super().setUpClass()
        for name, content in (("one", ONE), ("million", ONE * 1_000_000), ("late", ONE * 1_000_000 + b"\5\0\0\0\1")):
            (cls.work / name).write_bytes(content)

    def shown(self, streams: Tuple[str, ...], *words: str, kind: str = "xterm", no_color: str = "", status: int = 0) -> bytes:
        """What a run writes whose streams of these names are a terminal of this kind, and which ends so."""
        terminal, side = pty.openpty()
        given: Dict[str, Any] = {it: side if it in streams else subprocess.DEVNULL for it in ("stdout", "stderr")}
        around = {**os.environ, "TERM": kind, "NO_COLOR": no_color}
        child = subprocess.Popen([DUMP, *words], cwd=self.work, stdin=subprocess.DEVNULL, env=around, **given)
        os.close(side)
        shown = b""
        try:
            while part := os.read(terminal, 65536):
                shown += part
        except OSError:  # the other side is closed, and all was read
            pass
        os.close(terminal)
        self.assertEqual(child.wait(), status, words)
        return shown

    def test_documents(self) -> None:
        for command in ("sound", "canon", "unique"):
            self.assertEqual(self.shown(("stdout",), command, "one", status=2), b"")
        self.assertEqual(self.shown(("stdout",), "json", "one"), b'{"a":1}\r\n')
        shown = self.shown(("stdout", "stderr"), "json", "million")
        self.assertEqual((shown.count(b'{"a":1}\r\n'), shown.count(b"\x1b")), (1_000_000, 0))

    def test_progress(self) -> None:
        self.assertIn(b'\x1b[K"million": ', self.shown(("stderr",), "json", "million"))
        self.assertNotIn(b"\x1b", self.shown(("stderr",), "json", "million", kind="dumb"))
        # how much of both files was read: of the first one a half at most
        parts = [int(it) for it in re.findall(rb": (\d+) %", self.shown(("stderr",), "json", "million", "million"))]
        self.assertTrue(len(parts) == 2 and 34 <= parts[0] <= 50 < parts[1] <= 100, parts)
        # a finding is on a line without progress
        late = self.shown(("stdout", "stderr"), "check", "late", status=1)
        self.assertRegex(late, rb'\x1b\[K"late": [67]\d %[^\r\n]*\r\x1b\[K(\x1b\[K)?\x1b\[35m"late"\x1b\[m:\x1b\[32m12000000\x1b\[m: ')
        # a name that a terminal would obey
        (self.work / "mil\x1b[31m\nlion").symlink_to("million")
        obeyed = self.shown(("stderr",), "check", "mil\x1b[31m\nlion")
        self.assertIn(b'\x1b[K"mil\\u001b[31m\\nlion": ', obeyed)
        self.assertFalse(b"\x1b[31m" in obeyed or b"\n" in obeyed, obeyed)

    def test_colors(self) -> None:
        """Lines have colors on a terminal alone, unless they aren't asked for."""
        self.put("last", ONE, b"\5\0\0\0\1")
        plain = b'"last":12: 5 bytes: damaged: no final 0\r\n'
        colored = b'\x1b[35m"last"\x1b[m:\x1b[32m12\x1b[m: 5 bytes: \x1b[1;31mdamaged\x1b[m: no final 0\r\n'
        listed = ("list", "--at", "12", "last")
        self.assertEqual(self.shown(("stdout",), *listed, status=1), colored)
        self.assertEqual(self.shown(("stdout",), *listed, status=1, kind="dumb"), plain)
        self.assertEqual(self.shown(("stdout",), *listed, status=1, no_color="1"), plain)
        self.assertEqual(self.shown(("stdout",), *listed, "--color=never", status=1), plain)
        self.assertEqual(self.shown(("stdout",), *listed, "--color=always", status=1, no_color="1"), colored)
        found = self.shown(("stderr",), "json", "-o", "made", "last", status=1)
        self.assertIn(b'\x1b[35m"last"\x1b[m:\x1b[32m12\x1b[m: \x1b[1;31mdamaged\x1b[m: no final 0\r\n', found)
