"""bsonraw-dump on real files, pipes, devices and closed streams: the runs of checks/dumps.txt, in the order of the table; and terminals."""

import os
import pty
import re
import subprocess
import tty
from base64 import b64encode
from pathlib import Path
from typing import Dict

from checks import cram
from checks.checklist import ROOT
from checks.programs import DUMP, Case, Ran, document, hexed, run

MOST = 16_793_600
MILLION = 1_000_000


def nested(key: bytes, inner: bytes) -> bytes:
    return document(b"\x03" + key + b"\0" + inner)


def many_levels(count: int, inmost: bytes) -> bytes:
    """This many documents below one another, each under the key d, and this one below them."""
    made = inmost
    for _ in range(count):
        made = nested(b"d", made)
    return made


def of_bytes(size: int) -> bytes:
    """A document of this size, with a binary."""
    return size.to_bytes(4, "little") + b"\x05b\0" + (size - 13).to_bytes(4, "little") + bytes(size - 11)


def costly() -> bytes:
    """Each 11 bytes begin a document that goes on to the end, and is damaged there."""
    size = MILLION
    heads = b"".join((size - at).to_bytes(4, "little") + b"\x02\0" + (size - at - 11).to_bytes(4, "little") + b"x" for at in range(0, size - 12, 11))
    return heads.ljust(size - 3, b"x") + b"\xff\0\0"


def read_made() -> Dict[str, bytes]:
    """The files of checks/dumps_made.txt."""
    made = {}
    for line in (ROOT / "checks/dumps_made.txt").read_text().splitlines():
        name, _, content = line.partition(" ")
        if line.startswith("#"):
            continue
        made[name] = b"".join(made[it] for it in content[2:].split()) if content.startswith("= ") else hexed(content)
        if name == "empty":
            made.update(past=document(b"\x02a\0\x39\x10\0\0" + b"x" * 57), levels500=many_levels(499, made[name]), levels501=many_levels(500, made[name]))
        if name == "kinds":
            # (its length is left out in the table)
            made[name] = len(made[name]).to_bytes(4, "little") + made[name][4:]
    return made


def made_files() -> Dict[str, bytes]:
    """The files that the table names."""
    made = read_made()
    one, under, unit = made["one"], made["under"], made["repeated"]
    made["kinds.nan"] = made["kinds"].replace(b"\xff" * 7 + b"\x7f", b"\0" * 6 + b"\xf8\x7f")
    made.update(steps20=many_levels(19, unit), steps21=many_levels(20, unit), inmost=many_levels(500, unit))
    made["inmost.form"] = many_levels(500, made["repeated.form"])
    made.update({"most": of_bytes(MOST), "over.most": of_bytes(MOST + 1)})
    made["over.most.json"] = b'{"b":{"$binary":{"base64":"' + b64encode(bytes(MOST - 12)) + b'","subType":"00"}}}'
    made["named"] = document(b"\x0a" + b"k" * 4096 + b"\0", b"\x0a" + b"l" * 4097 + b"\0", b"\x03" + b"m" * 4095 + b"\0" + made["keyless"])
    made["deep"] = b"".join(it.to_bytes(4, "little") + b"\x03d\0" for it in range(5 + 8 * 2097151, 5, -8)) + made["empty"] + bytes(2097151)
    made["deep.json"] = b'{"d":' * 2097151 + b"{}" + b"}" * 2097151 + b"\n"
    made["levels500.json"] = b'{"d":' * 499 + b"{}" + b"}" * 499 + b"\n"
    made.update({"levels600": many_levels(599, made["empty"]), "levels600.json": b'{"d":' * 599 + b"{}" + b"}" * 599 + b"\n"})
    made["limit.json"] = b'{"a":1}\n' * 2
    made["long"] = document(b"\x02s\0\x41\0\0\0" + b"x" * 64 + b"\0", b"\x02t\0\x42\0\0\0" + b"x" * 65 + b"\0")
    made.update(passed=under + unit + one * 2, lost=one + under + one * 2, last=one + under + one, none=one + made["negative"])
    made["alone"] = one + under + one + made["stop"] + one * 2
    made["levels"] = b"\xff" * 4 + made["nested"][4:] + one
    made["stars"] = document(b"\x02s\0\x02\0\0\0\xe9\0", b"\x10n\0\x05\0\0\0") + one
    made["stars.replaced"] = document(b"\x02s\0\x04\0\0\0\xef\xbf\xbd\0", b"\x10n\0\x05\0\0\0") + one
    pointer, scope = b"123456789012", made["empty"]
    made["bad.texts"] = document(
        b"\x0eb\0\4\0\0\0\xe2\x82!\0", b"\x0cd\0\2\0\0\0\xc3\0" + pointer, b"\x0fe\0\x0f\0\0\0\2\0\0\0\xff\0" + scope, b"\x0dc\0\x42\0\0\0" + b"\xff" * 65 + b"\0"
    )
    bad = "\ufffd".encode()
    made["bad.texts.replaced"] = document(
        b"\x0eb\0\5\0\0\0" + bad + b"!\0", b"\x0cd\0\4\0\0\0" + bad + b"\0" + pointer, b"\x0fe\0\x11\0\0\0\4\0\0\0" + bad + b"\0" + scope, b"\x0dc\0\xc4\0\0\0" + bad * 65 + b"\0"
    )
    made["both"] = document(b"\x02s\0\x02\0\0\0\xe9\0", b"\x08b\0\x02") + made["stars"]
    made["claims"] = one + b"\x64\0\0\0" + one * 2
    made["gaps"] = b"".join(made[it] for it in ("under", "repeated", "one", "negative", "nested", "empty", "cut6"))
    made["costly"] = under + costly()
    made.update(million=one * MILLION, many=b'{"a":1}\n' * MILLION)
    made["distinct"] = b"".join(document(b"\x10a\0" + it.to_bytes(4, "little")) for it in range(200_000))
    made.update(wrong=one + b"\x20" + one[1:] + one * 3, spans=one + b"\x18" + one[1:] + one * 3)
    made["holds"] = document(b"\x05b\0\x18\0\0\0\0" + one * 2, b"\x08t\0\2") + one
    made["in_parts.sh"] = (ROOT / "examples/in_parts.sh").read_bytes()
    return made


class Dumps(Case):
    programs = (DUMP,)
    folder: Path

    @classmethod
    def setUpClass(cls) -> None:
        super().setUpClass()
        cls.folder = cls.work / "files"
        for it in ("bin", "files", "files/folder"):
            (cls.work / it).mkdir()
        (cls.work / "bin/bsonraw-dump").symlink_to(DUMP)
        for name, content in made_files().items():
            (cls.folder / name).write_bytes(content)

    def test_table(self) -> None:
        path = f"{self.work / 'bin'}:{os.environ['PATH']}"
        self.none_of(list(cram.failures(cram.read(ROOT / "checks/dumps.txt"), self.folder, path)))

    def from_terminal(self, files: "list[str]", *words: str) -> Ran:
        """A run on a terminal that gives the bytes of these files, and then an error."""
        terminal, side = pty.openpty()
        tty.setraw(side)
        for it in files:
            os.write(side, (self.folder / it).read_bytes())
        os.close(side)
        ran = run(DUMP, *words, stdin=terminal)
        os.close(terminal)
        return ran

    def test_an_error_after_bytes(self) -> None:
        counts = b"documents: 2, bytes: 31, not canonical: 1, damaged: 0, too deep: 0, bytes passed over: 0, bytes not read: 6, files not read to the end: 1\n"
        out = b'"-":12: repeated-key at /1:"a", byte 11\n"-": ' + counts + counts
        self.assertEqual(self.from_terminal(["one", "repeated", "cut6"], "check"), (3, out, b'bsonraw-dump: "-":37: Input/output error (os error 5)\n'))
        counts = b"documents: 0, bytes: 0, not canonical: 0, damaged: 0, too deep: 0, bytes passed over: 0, bytes not read: 17, files not read to the end: 1\n"
        out = b'"-":0: unsound length 4: 17 bytes not read, --resync goes on\n"-": ' + counts + counts
        self.assertEqual(self.from_terminal(["under", "one"], "check"), (3, out, b'bsonraw-dump: "-":17: Input/output error (os error 5)\n'))
        err = b'{"file":"-","offset":12,"finding":"unsound length","length":4,"passed over":5}\n{"file":"-","offset":29,"error":"Input/output error (os error 5)"}\n'
        err += b'{"documents":1,"kept":1,"damaged regions":1,"bytes lost":5,"bytes":12,"alone":0,"left out":0,"damaged":0,"too deep":0,'
        err += b'"bytes passed over":5,"bytes not read":12,"files not read to the end":1}\n'
        out = (self.folder / "one").read_bytes()
        self.assertEqual(self.from_terminal(["one", "under", "one"], "sound", "--resync", "--json"), (3, out, err))

    def test_progress(self) -> None:
        """A terminal on standard error shows how far the run has come."""
        terminal, side = pty.openpty()
        environment = {**os.environ, "TERM": "xterm"}
        child = subprocess.Popen([DUMP, "check", "million"], cwd=self.folder, stdout=subprocess.PIPE, stderr=side, env=environment)
        os.close(side)
        said, shown = child.communicate()[0], b""
        try:
            while part := os.read(terminal, 4096):
                shown += part
        except OSError:  # the other side is closed, and all was read
            pass
        counts = b"documents: 1000000, bytes: 12000000, not canonical: 0, damaged: 0, too deep: 0, bytes passed over: 0, bytes not read: 0, files not read to the end: 0\n"
        self.assertEqual(said, b'"million": ' + counts + counts)
        self.assertRegex(shown, re.compile(rb'\x1b\[K"million": (69|7[0-9]) %, [0-9]+ MB/s, [0-9]+:[0-9][0-9] left\r\x1b\[K\Z'))
