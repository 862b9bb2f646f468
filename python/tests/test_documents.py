"""Worked documents, whose results are written out, and the documents of examples/ with the listings beside them."""

import random
import unittest
from pathlib import Path

import bsonraw
from bsonraw import BsonError, ElementType, ErrorKind, Reason
from lines import check_line, line, list_lines, without_key
from made import framed

EXAMPLES = Path(__file__).resolve().parents[2] / "examples"

# A document; the lines of list; the form in hex, or the line that says why there is none; the line of check.
# fmt: off
WORKED = [
    ("0500000000", ["end"], "0500000000", "canonical"),
    ("13000000 02686900 06000000 7927616c6c00 00", ["02 6869 10", "end"],
     "1300000002686900060000007927616c6c0000", "canonical"),
    ("06000000 0a00", ["0a - 0", "fault malformed none"], "fault malformed none", "breach stop 1"),
    ("06000000 0000", ["fault malformed -"], "fault malformed -", "breach stop 0"),
    ("11000000 0b2464617465 00 6f706500 0400", ["0b 2464617465 6", "fault malformed none"],
     "fault malformed none", "breach stop 1"),
    ("13000000 106100 01000000 106100 02000000 00", ["10 61 4", "10 61 4", "end"],
     "0c0000001061000200000000", "breach repeated-key 1"),
    ("0b000000 0f6100 03000000", ["0f 61 3", "end"], "fault malformed 61", "breach value 0"),
    ("0c000000 036100 ffffffff 00", ["fault malformed 61"], "fault malformed 61", "breach stop 0"),
    ("09000000 086100 02 00", ["08 61 1", "end"], "fault malformed 61", "breach value 0"),
    ("11000000 056200 04000000 02 ffffffff 00", ["05 62 9", "end"], "fault malformed none", "breach value 0"),
    ("0f000000 046100 07000000 0a00 00 00", ["04 61 7", "end"], "10000000046100080000000a30000000",
     "breach array-key 0.0"),
    ("13000000 046100 0b000000 0a7800 0a3100 00 00", ["04 61 11", "end"],
     "130000000461000b0000000a30000a31000000", "breach array-key 0.0"),
    ("0d000000 0b7200 6100 6d6900 00", ["0b 72 5", "end"], "0d0000000b72006100696d0000", "breach options 0"),
    ("0d000000 0b7200 6100 696d00 00", ["0b 72 5", "end"], "0d0000000b72006100696d0000", "canonical"),
    ("16000000 0f6300 0e000000 0100000000 0500000000 00", ["0f 63 14", "end"],
     "160000000f63000e0000000100000000050000000000", "canonical"),
    ("17000000 0f6300 0f000000 0100000000 050000000000 00", ["0f 63 15", "end"], "fault malformed none",
     "breach value 0"),
    ("", ["refused 1"], "refused 1", "refused 1"),
    ("05000000", ["refused 1"], "refused 1", "refused 1"),
    ("0600000001", ["refused 2"], "refused 2", "refused 2"),
    ("0500000001", ["refused 3"], "refused 3", "refused 3"),
    ("0d000000 086100 02 086100 01 00", ["08 61 1", "08 61 1", "end"], "fault malformed 61", "breach value 0"),
    ("07000000 0aff00", ["fault utf8 none"], "fault utf8 none", "breach stop 0"),
    ("0a000000 0b6100 ff00 00", ["fault utf8 61"], "fault utf8 61", "breach stop 0"),
    ("0c000000 026100 06000000 00", ["fault malformed 61"], "fault malformed 61", "breach stop 0"),
]

# fmt: on

# Documents that aren't canonical: the cause, and the path to the first breach.
BREACHES = [
    ("0b0000000a6e0000620000", "stop 1"),
    ("0c0000000a6e000862000200", "value 1"),
    ("0b0000000a6e000a6e0000", "repeated-key 1"),
    ("100000000a6e000b620061006d690000", "options 1"),
    ("160000000a6e00046c000b0000000a30000078000000", "stop 1.1"),
    ("170000000a6e00046c000c0000000a3000083100020000", "value 1.1"),
    ("210000000a6e00046c00160000000a30000331000b0000000a61000a6100000000", "repeated-key 1.1.1"),
    ("160000000a6e00046c000b0000000a30000a32000000", "array-key 1.1"),
    ("1b0000000a6e00046c00100000000a30000b310061006d69000000", "options 1.1"),
    ("1f0000000a6e000f63001400000001000000000b0000000a61000062000000", "stop 1.1"),
    ("200000000a6e000f63001500000001000000000c0000000a6100086200020000", "value 1.1"),
    ("1f0000000a6e000f63001400000001000000000b0000000a61000a61000000", "repeated-key 1.1"),
    ("270000000a6e000f63001c0000000100000000130000000a6100046c00080000000a3100000000", "array-key 1.1.0"),
    ("240000000a6e000f6300190000000100000000100000000a61000b620061006d69000000", "options 1.1"),
    ("1e000000036400160000000a6e000365000b0000000a6100006200000000", "stop 0.1.1"),
    ("1f000000036400170000000a6e000365000c0000000a610008620002000000", "value 0.1.1"),
    ("1e000000036400160000000a6e000365000b0000000a61000a6100000000", "repeated-key 0.1.1"),
    ("1e000000036400160000000a6e000465000b0000000a30000a3000000000", "array-key 0.1.1"),
    ("230000000364001b0000000a6e00036500100000000a61000b620061006d6900000000", "options 0.1.1"),
    ("110000000a6100036100060000000a0000", "repeated-key 1"),
    ("170000000361000b0000000a62000a6200000863000200", "repeated-key 0.1"),
    ("29000000036100050000000004620005000000000f63000e000000010000000005000000000a610000", "repeated-key 3"),
    ("11000000046100090000000a3030000000", "array-key 0.0"),
    ("140000000461000c0000000a30000a3031000000", "array-key 0.1"),
]

# Documents that stop at their first element, whose key is k: the reason, and its text.
STOPS = [
    ("07000000146b00", "INVALID_TAG", "no kind has this tag: 20"),
    (
        "07000000026b00",
        "STRING_HEAD_SHORT",
        "a string\'s length is cut off: 0 are left",
    ),
    (
        "0a0000000d6b00010000",
        "STRING_HEAD_SHORT",
        "a string\'s length is cut off: 3 are left",
    ),
    ("0c000000026b00ffffffff00", "NEGATIVE_LENGTH", "a length is negative"),
    (
        "0b0000000e6b0000000000",
        "STRING_TOO_SMALL",
        "a string's length is 0",
    ),
    ("0b000000026b0001000000", "STRING_PAST_END", "a string is longer than what is left: 5 where 4 are left"),
    ("0d000000026b00010000000100", "STRING_NOT_TERMINATED", "a string has no final 0"),
    ("0c0000000c6b000100000000", "PAST_END", "a value is longer than what is left: 17 where 5 are left"),
    ("0b000000046b0005000000", "PAST_END", "a value is longer than what is left: 5 where 4 are left"),
    ("0c000000046b00ffffffff00", "NEGATIVE_LENGTH", "a length is negative"),
    ("0c000000036b000400000000", "DOCUMENT_TOO_SMALL", "a nested document\'s length is under 5: 4"),
    ("0c000000036b000600000000", "PAST_END", "a value is longer than what is left: 6 where 5 are left"),
    ("0d000000036b00050000000100", "NESTED_NOT_TERMINATED", "a nested document has no final 0"),
    ("07000000056b00", "LENGTH_HEAD_SHORT", "a value\'s length is cut off: 0 are left"),
    ("0a0000000f6b00010000", "LENGTH_HEAD_SHORT", "a value\'s length is cut off: 3 are left"),
    ("0c000000056b00ffffffff00", "NEGATIVE_LENGTH", "a length is negative"),
    ("0c0000000f6b00ffffffff00", "NEGATIVE_LENGTH", "a length is negative"),
    ("0b000000056b0000000000", "PAST_END", "a value is longer than what is left: 5 where 4 are left"),
    ("0b0000000f6b0005000000", "PAST_END", "a value is longer than what is left: 5 where 4 are left"),
    ("07000000086b00", "PAST_END", "a value is longer than what is left: 1 where 0 are left"),
    ("0a000000106b00000000", "PAST_END", "a value is longer than what is left: 4 where 3 are left"),
    ("07000000016b00", "PAST_END", "a value is longer than what is left: 8 where 0 are left"),
    ("07000000076b00", "PAST_END", "a value is longer than what is left: 12 where 0 are left"),
    ("07000000136b00", "PAST_END", "a value is longer than what is left: 16 where 0 are left"),
    ("070000000b6b00", "NO_TERMINATOR", "a text has no final 0"),
    ("080000000b6b0000", "NO_TERMINATOR", "a text has no final 0"),
]

# Documents whose element k has a payload that is no value: the reason, the key that the program names, and the text.
FAULTS = [
    ("09000000086b00ff00", "BAD_BOOLEAN", "k", "a boolean is neither 0 nor 1: 255"),
    ("0d000000056b00000000000200", "OLD_NO_INNER", "k", "an old binary has no inner length"),
    ("11000000056b000400000002fcffffff00", "ADD_OVERFLOW", None, "an old binary's inner length is negative"),
    (
        "11000000056b000400000002fbffffff00",
        "OLD_WRONG_INNER",
        "k",
        "an old binary's inner length is wrong",
    ),
    (
        "11000000056b0004000000020100000000",
        "OLD_WRONG_INNER",
        "k",
        "an old binary's inner length is wrong",
    ),
    ("0e0000000d6b0002000000ff0000", None, None, "a text isn't UTF-8"),
    ("0f0000000e6b000300000061c30000", None, None, "a text isn't UTF-8"),
    ("150000000f6b000d00000001000000000400000000", "CODE_TOO_SMALL", "k", "a code with scope is too short"),
    ("160000000f6b000e000000ffffffff00000000000000", "NEGATIVE_LENGTH", None, "a length is negative"),
    (
        "160000000f6b000e0000000000000000050000000000",
        "STRING_TOO_SMALL",
        None,
        "a string's length is 0",
    ),
    (
        "160000000f6b000e0000000700000000050000000000",
        "STRING_PAST_END",
        None,
        "a string is longer than what is left: 11 where 10 are left",
    ),
    (
        "160000000f6b000e0000000100000063050000000000",
        "STRING_NOT_TERMINATED",
        None,
        "a string has no final 0",
    ),
    ("170000000f6b000f00000002000000ff00050000000000", None, None, "a text isn't UTF-8"),
    ("160000000f6b000e0000000200000063000400000000", "TOO_SHORT", None, "a document of under five bytes"),
    ("160000000f6b000e0000000100000000050000000100", "NOT_TERMINATED", None, "no final 0"),
]


def canon(data: bytes) -> str:
    try:
        return bsonraw.canonical(data).hex()
    except BsonError as error:
        return line(error)


def of_levels(count: int) -> bytes:
    """This many documents, each but the innermost holding the next under the empty key."""
    data = bytes.fromhex("0500000000")
    for _ in range(count - 1):
        data = (len(data) + 7).to_bytes(4, "little") + b"\x03\0" + data + b"\0"
    return data


class Worked(unittest.TestCase):
    def test_each_answer_is_the_one_written_here(self) -> None:
        for text, lines, form, verdict in WORKED:
            data = bytes.fromhex(text)
            with self.subTest(text):
                self.assertEqual(list_lines(data), list(map(without_key, lines)))
                self.assertEqual(canon(data), without_key(form))
                self.assertEqual(check_line(data), verdict)

    def test_stops_say_why(self) -> None:
        for text, reason, said in STOPS:
            data = bytes.fromhex(text)
            with self.subTest(text):
                with self.assertRaises(BsonError) as caught:
                    list(bsonraw.elements(data))
                error = caught.exception
                self.assertEqual((error.kind, error.reason, error.key), (ErrorKind.MALFORMED, Reason[reason], "k"))
                self.assertEqual(str(error), f"at offset 4: at key 'k': {said}")
                for call in (bsonraw.decode, lambda data: bsonraw.get(data, "x"), lambda data: bsonraw.find(data, "x")):
                    with self.assertRaises(BsonError) as caught:
                        call(data)
                    self.assertEqual(str(caught.exception), f"at offset 4: at key 'k': {said}")

    def test_faults_say_why(self) -> None:
        for text, reason, _, said in FAULTS:
            data = bytes.fromhex(text)
            kind = ErrorKind.NOT_UTF8 if reason is None else ErrorKind.MALFORMED
            name = None if reason is None else Reason[reason]
            with self.subTest(text):
                self.assertEqual([item.key for item in bsonraw.elements(data)], ["k"])
                for call in (bsonraw.canonical, bsonraw.decode, lambda data: bsonraw.get(data, "k").value):
                    with self.assertRaises(BsonError) as caught:
                        call(data)
                    error = caught.exception
                    self.assertEqual((error.kind, error.reason, error.key, error.offset), (kind, name, "k", 4))
                    self.assertEqual(str(error), f"at offset 4: at key 'k': {said}")
                self.assertEqual(str(bsonraw.first_fault(data)), str(error))

    def test_breaches(self) -> None:
        for text, breach in BREACHES:
            self.assertEqual(check_line(bytes.fromhex(text)), f"breach {breach}", text)

    def test_look_up(self) -> None:
        data = bytes.fromhex("15000000 08626f6f6c00 01 1069333200 40420f00 00")
        found = bsonraw.get(data, "i32")
        self.assertEqual(
            (found.key, found.kind, int.from_bytes(found.payload, "little")), ("i32", ElementType.INT32, 10**6)
        )
        self.assertEqual(bsonraw.get(data, "bool").kind, ElementType.BOOLEAN)
        self.assertIsNone(bsonraw.get(data, "unknown"))
        self.assertIsNone(bsonraw.get(data, "i32\0"))
        stopping = bytes.fromhex("06000000 0a00")
        self.assertEqual(bsonraw.get(stopping, "").kind, ElementType.NULL)
        with self.assertRaises(BsonError) as caught:
            bsonraw.get(stopping, "x")
        self.assertEqual((caught.exception.reason, caught.exception.key), (Reason.OVERFLOWED, None))
        # a code with scope of length 3: what is after it begins inside its length
        swallowing = bytes.fromhex("0f000000 0f6100 03000008 6200 01 00")
        with self.assertRaises(BsonError) as caught:
            bsonraw.get(swallowing, "a")
        self.assertEqual(str(caught.exception), "at offset 4: at key 'a': a value is longer than what is left: 134217731 where 8 are left")

    def test_keys_of_each_length(self) -> None:
        """Keys are kept from one call to the next: those that begin and end alike aren't taken for one another."""
        rng = random.Random(3)
        keys = {"".join(rng.choice("ab") for _ in range(size)) for size in range(64) for _ in range(40)}
        keys |= {f"{begin}{middle}{end}" for begin in ("aaaaaaaa", "é" * 4) for middle in range(3000) for end in ("bbbbbbbb", "zzzz日a")}
        keys |= {f"{begin}{'m' * 20}{middle}{'m' * 20}{end}" for begin in "ab" for middle in "ab" for end in "ab"}
        for _ in range(3):
            some = rng.sample(sorted(keys), 3000)
            data = framed(b"".join(b"\x0a" + key.encode() + b"\0" for key in some))
            self.assertEqual(list(bsonraw.decode(data)), some)
            self.assertEqual([element.key for element in bsonraw.elements(data)], some)

    def test_levels(self) -> None:
        data = of_levels(500)
        self.assertEqual((len(data), data[:4].hex()), (3498, "aa0d0000"))
        self.assertEqual(bsonraw.canonical(data), data)
        self.assertIsNone(bsonraw.check(data))
        for call in (bsonraw.canonical, bsonraw.check, bsonraw.decode, bsonraw.walk):
            with self.assertRaises(BsonError) as caught:
                call(of_levels(501))
            self.assertEqual((caught.exception.reason, len(caught.exception.path)), (Reason.TOO_DEEP, 500))
            call(of_levels(501), max_depth=501)

    def test_a_breach_far_down_has_its_whole_path(self) -> None:
        inside = bytes.fromhex("0d000000 086100 02 086100 01 00")
        for levels in (1, 63, 64, 65, 300):
            data = inside
            for _ in range(levels - 1):
                data = (len(data) + 7).to_bytes(4, "little") + b"\x03\0" + data + b"\0"
            breach = bsonraw.check(data)
            self.assertEqual(breach, (bsonraw.Cause.VALUE, (0,) * levels, ("",) * (levels - 1) + ("a",), 6 * levels - 2))
            error = bsonraw.first_fault(data)
            self.assertEqual(breach[1:], (error.path, error.keys, error.offset))


@unittest.skipUnless(EXAMPLES.is_dir(), "the examples aren't in a source archive")
class Examples(unittest.TestCase):
    def test_each_has_the_listing_beside_it(self) -> None:
        paths = sorted(EXAMPLES.glob("*.hex"))
        self.assertGreaterEqual(len(paths), 7)
        for path in paths:
            data = bytes.fromhex(path.read_text())
            answers = {
                "list": list_lines(data),
                "canon": [canon(data)],
                "check": [check_line(data)],
            }
            for command, lines in answers.items():
                with self.subTest(path.name, command=command):
                    wanted = path.with_suffix("." + command).read_text().splitlines()
                    self.assertEqual(lines, list(map(without_key, wanted[:-1])))


if __name__ == "__main__":
    unittest.main()
