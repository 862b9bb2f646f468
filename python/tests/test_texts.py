"""Documents from Extended JSON: bytes that the published format gives, errors with their places as json has them, and what comes back."""

import io
import json
import os
import subprocess
import sys
import unittest
from typing import Any, List, Tuple

import bsonraw
from bsonraw import Code, DatetimeMS, Decimal128, Int64, MaxKey, MinKey, ObjectId, Regex, Timestamp
from made import all_made

WRITTEN: List[Tuple[str, str]] = [
    ("{}", "0500000000"),
    ('{"a": 1}', "0C0000001061000100000000"),
    ('{"a": 2147483648}', "10000000126100000000800000000000"),
    ('{"a": -0.0}', "10000000016100000000000000008000"),
    ('{"a": {"$oid": "56e1fc72e0c917e9c4714161"}}', "1400000007610056E1FC72E0C917E9C471416100"),
    ('{"a": {"$date": "2012-12-24T12:15:30.501Z"}}', "10000000096100C5D8D6CC3B01000000"),
    ('{"a": {"$numberLong": "1"}}', "10000000126100010000000000000000"),
    ('{"a": "\\u0041\\ud83d\\ude00"}', "1200000002610006000000" + "41F09F9880" + "0000"),
]

# A text, what is wrong in it, the line and the column.
REFUSED: List[Tuple[str, str, int, int]] = [
    ("", "the text ends too early", 1, 1),
    ("[]", "expected a document", 1, 1),
    ('{"a": 1,\n "é": tru}', "expected a value", 2, 7),
    ('{"a": 1,\n "é": "é", x}', "expected a key in quotes", 2, 12),
    ('{"a": {"$oid": "5f2b"}}', 'this is not {"$oid": 24 hex digits}', 1, 16),
    ('{"a": {"$maxKey": 2}}', 'this is not {"$maxKey": 1}', 1, 19),
    ('{"a": 1e400}', "a number beyond the greatest double", 1, 7),
    ("\ufeff{}", "a byte order mark in front of the text", 1, 1),
]


class FromJson(unittest.TestCase):
    def test_bytes(self) -> None:
        for text, wanted in WRITTEN:
            with self.subTest(text):
                self.assertEqual(bsonraw.from_json(text).hex().upper(), wanted)
                self.assertEqual(bsonraw.from_json(text.encode()), bytes.fromhex(wanted))
                self.assertEqual(bsonraw.from_json(bytearray(text.encode())), bytes.fromhex(wanted))

    def test_errors(self) -> None:
        for text, message, line, column in REFUSED:
            with self.subTest(text):
                for given in (text, text.encode()):
                    with self.assertRaises(json.JSONDecodeError) as raised:
                        bsonraw.from_json(given)
                    error = raised.exception
                    self.assertEqual((error.msg, error.lineno, error.colno, error.doc), (message, line, column, text))

    def test_places_are_those_of_json(self) -> None:
        for text in ('{"a": 1,\n "é": tru}', '{"a" 1}', '{"a": [1 2]}', '{"a": "\t"}', "{} x"):
            with self.assertRaises(json.JSONDecodeError) as theirs:
                json.loads(text)
            with self.assertRaises(json.JSONDecodeError) as ours:
                bsonraw.from_json(text)
            self.assertEqual(ours.exception.pos, theirs.exception.pos, text)

    def test_limits(self) -> None:
        with self.assertRaisesRegex(json.JSONDecodeError, "^more bytes than allowed: max_bytes is 11:"):
            bsonraw.from_json('{"a": 1}', max_bytes=11)
        with self.assertRaisesRegex(json.JSONDecodeError, "^deeper than allowed: max_depth is 1:"):
            bsonraw.from_json('{"a": {}}', max_depth=1)
        self.assertEqual(len(bsonraw.from_json('{"a": 1}', max_bytes=12, max_depth=1)), 12)
        items = ",".join("0" * 70_000)
        self.assertEqual(bsonraw.loads('{"a": [' + items + "]}"), {"a": [0] * 70_000})

    def test_no_text(self) -> None:
        with self.assertRaises(UnicodeDecodeError):
            bsonraw.from_json(b'{"a": "\xff"}')
        with self.assertRaises(UnicodeEncodeError):
            bsonraw.from_json('{"a": "\ud800"}')
        with self.assertRaises(TypeError):
            bsonraw.from_json(1)  # type: ignore[arg-type]

    def test_values(self) -> None:
        document = {
            "a": Int64(1), "b": [True, None, 1.5], "c": ObjectId("56e1fc72e0c917e9c4714161"), "d": Decimal128("1E+3"),
            "e": Regex("a", "im"), "f": Timestamp(1, 2), "g": MinKey(), "h": MaxKey(), "i": DatetimeMS(-1), "j": Code("f()", {"x": 1}),
        }
        data = bsonraw.encode(document)
        self.assertEqual(bsonraw.from_json(bsonraw.to_json(data, style="canonical")), data)
        self.assertEqual(bsonraw.loads(bsonraw.to_json(data, style="canonical")), bsonraw.decode(data))
        self.assertEqual(bsonraw.loads('{"a": 1, "a": 2}', pairs=True), [("a", 1), ("a", 2)])

    def test_arrays(self) -> None:
        """Arrays of documents, as mongoexport --jsonArray writes them."""
        values: List[Any] = [{"a": 1, "o": ObjectId(bytes(12))}, {}, {"b": [{"c": "é"}], "n": Int64(1 << 40)}]
        dump = b"".join(map(bsonraw.encode, values))
        text = bsonraw.to_json_array(dump)
        self.assertEqual(text, '[{"a":1,"o":{"$oid":"000000000000000000000000"}},\n{},\n{"b":[{"c":"é"}],"n":1099511627776}]')
        self.assertEqual((bsonraw.from_json_array(text), bsonraw.loads(text), bsonraw.to_json_array(b"")), (dump, values, "[]"))
        self.assertEqual((bsonraw.loads(f" \n{text}\t".encode(), pairs=True)[1], bsonraw.loads("[]"), bsonraw.from_json_array(" [ ] ")), ([], [], b""))
        self.assertEqual(bsonraw.from_json_array(bsonraw.to_json_array(io.BytesIO(dump), style="canonical")), dump)
        for text, place in (('[{"a": 1}, {"b": tru}]', 17), ('[{}] x', 5), ('[{}', 3), ('[{}], "b": [{}]', 4), ('[{}]}', 4), ("{}", 0), ('[{} {}]', 4), ("é", 0)):
            with self.assertRaises(json.JSONDecodeError) as caught:
                bsonraw.from_json_array(text)
            self.assertEqual((caught.exception.pos, caught.exception.doc), (place, text), text)
        for text in ("[1]", '[{}, {"$oid": "000000000000000000000000"}]', "[[]]"):
            self.assertRaisesRegex(ValueError, "of the array is no document", bsonraw.from_json_array, text)
        self.assertRaisesRegex(bsonraw.LimitError, "max_bytes is 11", bsonraw.from_json_array, '[{}, {"a": 1}]', max_bytes=11)
        self.assertRaisesRegex(json.JSONDecodeError, "max_depth is 1", bsonraw.from_json_array, '[{"a": {}}]', max_depth=1)
        with self.assertRaises(bsonraw.DamagedError) as damaged:
            bsonraw.to_json_array(dump + bytes.fromhex("09000000 086100 02 00"))
        self.assertEqual(damaged.exception.offset, len(dump) + 4)

    def test_the_module_as_a_program(self) -> None:
        good, bad = bsonraw.encode({"a": 1, "t": "é"}), bytes.fromhex("09000000 086100 02 00")

        def run(*arguments: str, data: bytes = b"") -> Any:
            done = subprocess.run([sys.executable, "-m", "bsonraw", *arguments], input=data, stdout=subprocess.PIPE, stderr=subprocess.PIPE, timeout=60)
            return done.returncode, done.stdout.decode(), done.stderr.decode()

        fault = "-:22: at offset 4: at key 'a': a boolean is neither 0 nor 1: 2\n"
        self.assertEqual(run("check", "-", data=good + bad), (1, fault, "2 documents, 1 faults\n"))
        self.assertEqual(run("check", "-", data=good * 2), (0, "", "2 documents, 0 faults\n"))
        self.assertEqual(run("json", "-", data=good + bad + good), (1, '{"a":1,"t":"é"}\n' * 2, fault))
        self.assertEqual(run("json", "--array", "-", data=good * 2), (0, '[{"a":1,"t":"é"},\n{"a":1,"t":"é"}]\n', ""))
        self.assertEqual(run("json", "--canonical", "-", data=good), (0, '{"a":{"$numberInt":"1"},"t":"é"}\n', ""))
        self.assertEqual(run("json", "--array", "-"), (0, "[]\n", ""))
        self.assertTrue(run("check", "-", data=good + b"\3")[1].startswith("-:22: at offset 22: "))
        self.assertEqual(run("check", "--max-bytes", "5", "-", data=good)[:2], (1, "-:0: at offset 0: more bytes than allowed: max_bytes is 5\n"))
        self.assertEqual((run("check", "/nowhere")[0], run()[0]), (2, 2))

    def test_its_output_cannot_be_written(self) -> None:
        """At once, or only as Python ends."""
        program, good = [sys.executable, "-m", "bsonraw", "json", "-"], bsonraw.encode({"a": 1})
        for unbuffered in ("", "1"):
            how: Any = {"input": good, "stderr": subprocess.PIPE, "timeout": 60, "env": {**os.environ, "PYTHONUNBUFFERED": unbuffered}}
            with open("/dev/full", "wb") as full:
                done = subprocess.run(program, stdout=full, **how)
            self.assertEqual((done.returncode, done.stderr), (2, b"standard output: No space left on device\n"))
            reader, writer = os.pipe()
            os.close(reader)
            done = subprocess.run(program, stdout=writer, **how)
            os.close(writer)
            self.assertEqual((done.returncode, done.stderr), (1, b""))

    def test_made_documents_come_back(self) -> None:
        count = 0
        for made in all_made(7, 2000):
            try:
                data = bsonraw.canonical(made)
            except bsonraw.BsonError:
                continue
            text = bsonraw.to_json(data, style="canonical")
            if "NaN" in text or "$numberDecimal" in text:
                continue
            try:
                again = bsonraw.from_json(text)
            except json.JSONDecodeError:
                self.assertIn('{"$', text)
                continue
            self.assertEqual(again, data)
            count += 1
        self.assertGreater(count, 100)


if __name__ == "__main__":
    unittest.main()
