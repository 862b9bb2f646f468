"""Ten daily jobs by this package and by MongoDB's: both give the same, and this one's have at most as many lines."""

import ast
import importlib
import io
import tempfile
import unittest
from datetime import datetime, timezone
from decimal import Decimal
from pathlib import Path
from typing import Any, Dict, List

import bsonraw

EXAMPLES = Path(__file__).resolve().parents[2] / "examples"
if not EXAMPLES.is_dir():
    raise unittest.SkipTest("the examples aren't in a source archive")
JOBS = ["write", "read", "count", "look_up", "change", "print_json", "table", "sound", "unique", "store"]
DOCUMENTS: List[Dict[str, Any]] = [
    {"_id": number, "name": f"näme {number % 4}", "user": {"age": number % 3, "at": {"city": "東京"}}, "tags": ["a", number / 2], "on": None}
    for number in range(12)
]


def job_lines(name: str) -> Dict[str, int]:
    """How many lines each function and the imports of an example have, without its text."""
    tree = ast.parse((EXAMPLES / name).read_text())
    lines = {"": sum(isinstance(node, (ast.Import, ast.ImportFrom)) for node in tree.body)}
    for node in tree.body:
        if isinstance(node, ast.FunctionDef):
            text = node.body[0] if ast.get_docstring(node) else None
            lines[node.name] = sum(1 + (one.end_lineno or 0) - one.lineno for one in node.body if one is not text)
    return lines


class Lines(unittest.TestCase):
    def test_at_most_as_many(self) -> None:
        ours, theirs = job_lines("daily_bsonraw.py"), job_lines("daily_mongodb.py")
        self.assertEqual([name for name in ours if name], JOBS)
        self.assertEqual({name for name in theirs if name} - {"plain"}, set(JOBS))
        for name, count in ours.items():
            self.assertLessEqual(count, theirs[name], name)
        self.assertLess(sum(ours.values()), sum(theirs.values()))


class Jobs(unittest.TestCase):
    def setUp(self) -> None:
        try:
            import bson
            import pandas  # noqa: F401
        except ImportError as error:
            self.skipTest(f"{error.name} isn't there (Debian: python3-bson, python3-pandas)")
        if not hasattr(bson, "decode_file_iter"):
            self.skipTest("the module bson isn't that of MongoDB's package")
        self.ours, self.theirs = map(importlib.import_module, ("daily_bsonraw", "daily_mongodb"))
        folder = tempfile.TemporaryDirectory()
        self.addCleanup(folder.cleanup)
        self.path = str(Path(folder.name, "dump.bson"))
        self.ours.write(self.path, DOCUMENTS)

    def both(self, name: str, *arguments: Any) -> Any:
        ours, theirs = (getattr(module, name)(*arguments) for module in (self.ours, self.theirs))
        self.assertEqual(ours, theirs, name)
        return ours

    def test_dumps(self) -> None:
        written = Path(self.path).read_bytes()
        self.theirs.write(self.path, DOCUMENTS)
        self.assertEqual(Path(self.path).read_bytes(), written)
        self.assertEqual(self.both("read", self.path), DOCUMENTS)
        self.assertEqual(self.both("count", self.path, "name")["näme 1"], 3)
        self.assertEqual(len(self.both("unique", self.path)), 12)
        Path(self.path).write_bytes(written * 2)
        self.assertEqual(len(self.both("unique", self.path)), 12)
        damaged = bytes.fromhex("09000000 086100 02 00") + bytes.fromhex("0d000000 026100 02000000 ff 00")
        Path(self.path).write_bytes(damaged[:9] + written + damaged[:9])
        self.assertEqual(self.both("sound", self.path), (DOCUMENTS, 2))

    def test_documents(self) -> None:
        data = bsonraw.encode(DOCUMENTS[5])
        for path, value in (("user.at.city", "東京"), ("tags.1", 2.5), ("name", "näme 1"), ("no.such", None), ("tags.7", None), ("tags.a", None)):
            self.assertEqual(self.both("look_up", data, path), value)
        for path in ("name", "user.at.city", "user.at.street", "new.inner"):
            self.assertEqual(bsonraw.find(self.both("change", data, path, [5]), path).value, [5])
        orders = [module.Order(5, Decimal("9.90"), ["new"]) for module in (self.ours, self.theirs)]
        stored = [module.store(order) for module, order in zip((self.ours, self.theirs), orders)]
        self.assertEqual(stored[0], stored[1])
        self.assertEqual(bsonraw.find(stored[0], "order.price").value, bsonraw.Decimal128("9.90"))

    def test_tables(self) -> None:
        paths = ["_id", "name", "user.age", "user.at.city"]
        ours, theirs = (module.table(self.path, paths) for module in (self.ours, self.theirs))
        self.assertTrue(ours.equals(theirs))
        self.assertEqual([str(kind) for kind in ours.dtypes], ["int64", "object", "int64", "object"])

    def test_json(self) -> None:
        try:
            importlib.import_module("bson.json_util")
        except ImportError as error:
            self.skipTest(f"{error.name} isn't there (Debian: python3-bson, python3-pandas)")
        self.ours.write(self.path, [*DOCUMENTS, {"at": datetime(2009, 2, 13, 23, 31, 30, tzinfo=timezone.utc), "long": bsonraw.Int64(5)}])
        texts = []
        for module in (self.ours, self.theirs):
            out = io.StringIO()
            module.print_json(self.path, out)
            texts.append(out.getvalue())
        self.assertEqual(texts[0], texts[1])
        self.assertEqual(texts[0].count("\n"), 13)


if __name__ == "__main__":
    unittest.main()
