"""Tests of release/wheel.py, on what readelf says and on a wheel of one module; checks/packages.txt runs them."""

import os
import sys
import tempfile
import unittest
import zipfile
from pathlib import Path

sys.path.insert(0, str(Path(__file__).resolve().parents[1] / "release"))
import wheel

SAID = """  0x0000000000000001 (NEEDED)  Shared library: [libc.so.6]
    0x0010: Name: GLIBC_2.14  Flags: none  Version: 2
     1: 0000000000000000     0 FUNC    GLOBAL DEFAULT  UND PyLong_FromLong
     2: 0000000000000000     0 FUNC    GLOBAL DEFAULT  UND _Py_Dealloc
"""
INFO = "Wheel-Version: 1.0\nTag: cp311-abi3-linux_x86_64\n"


class Asked(unittest.TestCase):
    def test_what_may_be_asked_for(self) -> None:
        self.assertEqual(wheel.wrongs("a.so", SAID), [])

    def test_another_library(self) -> None:
        self.assertEqual(wheel.wrongs("a.so", SAID.replace("libc.so.6", "libm.so.6")), ["a.so needs libm.so.6"])

    def test_the_loader_of_arm(self) -> None:
        self.assertEqual(wheel.wrongs("a.so", SAID.replace("libc.so.6", "ld-linux-aarch64.so.1")), [])

    def test_a_private_symbol_of_python(self) -> None:
        (wrong,) = wheel.wrongs("a.so", SAID.replace("_Py_Dealloc", "_PyLong_AsInt"))
        self.assertIn("_PyLong_AsInt", wrong)

    def test_platforms(self) -> None:
        self.assertEqual(wheel.platforms([SAID], "x86_64"), ["manylinux_2_17_x86_64", "manylinux2014_x86_64"])
        self.assertEqual(wheel.platforms([SAID, SAID.replace("2.14", "2.34")], "aarch64"), ["manylinux_2_34_aarch64"])
        self.assertEqual(wheel.platforms([SAID.replace("2.14", "2.4")], "x86_64")[0], "manylinux_2_17_x86_64")


class Made(unittest.TestCase):
    def setUp(self) -> None:
        folder = tempfile.TemporaryDirectory()
        self.addCleanup(folder.cleanup)
        self.folder = Path(folder.name)
        os.environ["SOURCE_DATE_EPOCH"] = "1700000000"
        for name in ("programs", "pages", "made"):
            (self.folder / name).mkdir()
        (self.folder / "programs" / "bsonraw").write_text("#!/bin/sh\n")
        (self.folder / "pages" / "LICENCES").write_text("Of a part.\n")
        (self.folder / "PROVED").write_text("commit x\n")

    def made(self, order: "list[str]", mark: str, machine: str = "x86_64", programs: str = "programs") -> "dict[str, Path]":
        """The wheels that are made of one whose files are in this order, by the first words of their names."""
        content = {"a.py": "a = 1\n", "bsonraw-2.0.0.dist-info/METADATA": "Name: bsonraw\nVersion: 2.0.0\n\nText.\n"}
        content["bsonraw-2.0.0.dist-info/WHEEL"] = INFO.replace("x86_64", machine)
        source = self.folder / f"bsonraw-2.0.0-cp311-abi3-linux_{machine}.whl"
        with zipfile.ZipFile(source, "w") as built:
            for name in order:
                built.writestr(name, content[name])
        for old in (self.folder / "made").iterdir():
            old.unlink()
        words = [str(self.folder / it) for it in ("made", "PROVED", "pages")]
        wheel.main("none", machine, str(source), *words, programs and str(self.folder / programs), mark)
        return {it.name.partition("-")[0]: it for it in (self.folder / "made").iterdir()}

    ORDER = ["a.py", "bsonraw-2.0.0.dist-info/METADATA", "bsonraw-2.0.0.dist-info/WHEEL"]

    def test_names_and_marks(self) -> None:
        made = self.made(self.ORDER, "unproved")
        self.assertEqual(made["bsonraw"].name, "bsonraw-2.0.0+unproved-cp311-abi3-manylinux_2_17_x86_64.manylinux2014_x86_64.whl")
        with zipfile.ZipFile(made["bsonraw"]) as module:
            info = "bsonraw-2.0.0+unproved.dist-info/"
            self.assertIn(b"\nVersion: 2.0.0+unproved\n", module.read(info + "METADATA"))
            self.assertEqual(module.read(info + "WHEEL").count(b"Tag: cp311-abi3-manylinux"), 2)
            self.assertEqual(module.read(info + "licenses/LICENCES"), b"Of a part.\n")
            self.assertEqual(len(module.read(info + "RECORD").splitlines()), len(module.namelist()))

    def test_programs(self) -> None:
        made = self.made(self.ORDER, "")
        self.assertEqual(made["bsonraw_programs"].name, "bsonraw_programs-2.0.0-py3-none-manylinux_2_17_x86_64.manylinux2014_x86_64.whl")
        with zipfile.ZipFile(made["bsonraw_programs"]) as programs:
            self.assertEqual(programs.getinfo("bsonraw_programs-2.0.0.data/scripts/bsonraw").external_attr >> 16 & 0o777, 0o755)

    def test_arm_without_programs(self) -> None:
        made = self.made(self.ORDER, "", "aarch64", "")
        self.assertEqual([it.name for it in made.values()], ["bsonraw-2.0.0-cp311-abi3-manylinux_2_17_aarch64.manylinux2014_aarch64.whl"])
        with zipfile.ZipFile(made["bsonraw"]) as module:
            self.assertIn(b"Tag: cp311-abi3-manylinux2014_aarch64", module.read("bsonraw-2.0.0.dist-info/WHEEL"))

    def test_sums(self) -> None:
        with zipfile.ZipFile(self.made(self.ORDER, "")["bsonraw"]) as module:
            lines = module.read("bsonraw-2.0.0.dist-info/PROVED").decode().splitlines()
        self.assertEqual(lines[0], "commit x")
        # printf 'a = 1\n' | sha256sum
        self.assertIn("cb78bd8a17f7b751fe0d4663366dcbc257204033ef7ddd64b1f2969573b5b2e2  a.py", lines)

    def test_the_same_bytes(self) -> None:
        first = {name: path.read_bytes() for name, path in self.made(self.ORDER, "").items()}
        self.assertEqual({name: path.read_bytes() for name, path in self.made(self.ORDER[::-1], "").items()}, first)


if __name__ == "__main__":
    unittest.main()
