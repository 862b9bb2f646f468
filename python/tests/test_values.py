"""The classes of values, and what encode takes: from Python, from the standard library, and what it refuses."""

import collections
import copy
import enum
import pickle
import re
import struct
import types
import unittest
import uuid
from datetime import datetime, timedelta, timezone
from typing import Any

import bsonraw
from bsonraw import (
    Binary,
    BsonError,
    Code,
    DatetimeMS,
    DBPointer,
    Decimal128,
    Int64,
    MaxKey,
    MinKey,
    ObjectId,
    Pairs,
    Reason,
    Regex,
    Symbol,
    Timestamp,
    Undefined,
)
from made import framed, string

ID = ObjectId("0123456789abcdef01234567")


def of(tag: int, payload: bytes) -> bytes:
    """The document of one element with the key k."""
    return framed(bytes([tag]) + b"k\0" + payload)


# A value, and its document by the format.
ROWS = [
    (1.5, of(1, struct.pack("<d", 1.5))),
    ("y'all\0", of(2, string("y'all\0"))),
    ({}, of(3, framed(b""))),
    ([1, None], of(4, framed(b"\x100\0\1\0\0\0" + b"\x0a1\0"))),
    (b"ab", of(5, b"\2\0\0\0\0ab")),
    (Binary(b"ab", 128), of(5, b"\2\0\0\0\x80ab")),
    (Binary(b"ab", 2), of(5, b"\6\0\0\0\2\2\0\0\0ab")),
    (Undefined(), of(6, b"")),
    (ID, of(7, bytes.fromhex("0123456789abcdef01234567"))),
    (True, of(8, b"\1")),
    (datetime(1970, 1, 1, 0, 0, 1, 2000, timezone.utc), of(9, struct.pack("<q", 1002))),
    (datetime(1969, 12, 31, 23, 59, 59, 999000, timezone.utc), of(9, struct.pack("<q", -1))),
    (datetime(1, 1, 1, tzinfo=timezone.utc), of(9, struct.pack("<q", -62_135_596_800_000))),
    (datetime(9999, 12, 31, 23, 59, 59, 999000, timezone.utc), of(9, struct.pack("<q", 253_402_300_799_999))),
    (datetime(2024, 2, 29, 12, tzinfo=timezone.utc), of(9, struct.pack("<q", 1_709_208_000_000))),
    (DatetimeMS(253_402_300_800_000), of(9, struct.pack("<q", 253_402_300_800_000))),
    (DatetimeMS(-(1 << 63)), of(9, struct.pack("<q", -(1 << 63)))),
    (None, of(10, b"")),
    (Regex("a.b", "im"), of(11, b"a.b\0im\0")),
    (DBPointer("db.c", ID), of(12, string("db.c") + bytes(ID))),
    (Code("f()"), of(13, string("f()"))),
    (Symbol("s"), of(14, string("s"))),
    (Code("f()", {"a": None}), of(15, struct.pack("<i", 20) + string("f()") + framed(b"\x0aa\0"))),
    (-1, of(16, b"\xff\xff\xff\xff")),
    ((1 << 31) - 1, of(16, b"\xff\xff\xff\x7f")),
    (Timestamp(5, 6), of(17, struct.pack("<II", 6, 5))),
    (Int64(7), of(18, struct.pack("<q", 7))),
    (Int64(-(1 << 63)), of(18, struct.pack("<q", -(1 << 63)))),
    (Decimal128(bytes(range(16))), of(19, bytes(range(16)))),
    (MaxKey(), of(0x7F, b"")),
    (MinKey(), of(0xFF, b"")),
]


class Level(enum.IntEnum):
    LOW = 3


class Name(str):
    pass


class Row(dict):  # type: ignore[type-arg]
    pass


# What isn't decoded to an equal value: a value, and what its document decodes to.
TAKEN = [
    (1 << 31, Int64(1 << 31)),
    ((1, 2), [1, 2]),
    (bytearray(b"ab"), b"ab"),
    (memoryview(b"ab"), b"ab"),
    (Level.LOW, 3),
    (Name("x"), "x"),
    (Row(a=1), {"a": 1}),
    (collections.OrderedDict([("b", 1), ("a", 2)]), {"b": 1, "a": 2}),
    (types.MappingProxyType({"a": 1}), {"a": 1}),
    (collections.namedtuple("Two", "a b")(1, 2), [1, 2]),
    (uuid.UUID(int=1), Binary(bytes(15) + b"\1", 4)),
    (re.compile("a", re.I | re.M), Regex("a", "imu")),
    (datetime(2000, 1, 1), datetime(2000, 1, 1, tzinfo=timezone.utc)),
    (datetime(2000, 1, 1, tzinfo=timezone(timedelta(hours=-2))), datetime(2000, 1, 1, 2, tzinfo=timezone.utc)),
    (datetime(2000, 1, 1, 0, 0, 0, 1999, timezone.utc), datetime(2000, 1, 1, 0, 0, 0, 1000, timezone.utc)),
    (Regex("a", "xi"), Regex("a", "ix")),
    (Pairs([("a", 1), ("b", 2)]), {"a": 1, "b": 2}),
]


# Values of classes over ours, which are in this module for pickle's sake.
OWN_ARGUMENTS = {
    Binary: (b"ab", 128), Code: ("f", {"a": 1}), DatetimeMS: (1 << 60,), DBPointer: ("a.b", ID), Decimal128: ("1.5",), Int64: (1 << 40,),
    ObjectId: (bytes(ID),), Regex: ("a", "ix"), Symbol: ("s",), Timestamp: (5, 6), Pairs: ([("a", 1), ("a", 2)],), BsonError: (1, 16, "a", 4, (0,), ("a",), 2),
}
OWN = {kind: type(f"Own{kind.__name__}", (kind,), {"__module__": __name__}) for kind in OWN_ARGUMENTS}
globals().update({kind.__name__: kind for kind in OWN.values()})


class Values(unittest.TestCase):
    def test_each_is_written_and_read_as_the_format_has_it(self) -> None:
        for value, data in ROWS:
            with self.subTest(value):
                self.assertEqual(bsonraw.encode({"k": value}), data)
                again = bsonraw.decode(data)["k"]
                self.assertEqual((type(again), again), (type(value), value))
                self.assertEqual(bsonraw.get(data, "k").value, value)
                self.assertEqual(bsonraw.canonical(data), data)

    def test_others_are_taken(self) -> None:
        for value, wanted in TAKEN:
            with self.subTest(repr(value)):
                again = bsonraw.decode(bsonraw.encode({"k": value}))["k"]
                self.assertEqual((type(again), again), (type(wanted), wanted))

    def test_floats_keep_their_bits(self) -> None:
        for bits in (0x8000000000000000, 0x7FF8000000000001, 0x7FF0000000000001, 0xFFF0000000000000):
            data = of(1, struct.pack("<Q", bits))
            self.assertEqual(bsonraw.encode(bsonraw.decode(data)), data)

    def test_refused(self) -> None:
        cycle: Any = {}
        cycle["a"] = [cycle]
        rows: Any = [
            ({"a\0b": 1}, BsonError), ({"k": Regex("a\0", "")}, BsonError), (cycle, BsonError), ({"k": 1 << 63}, OverflowError),
            ({"k": object()}, TypeError), ({"k": {1}}, TypeError), ({1: 2}, TypeError), ({b"a": 2}, TypeError),
            ([], TypeError), ("a", TypeError), (None, TypeError), ({"\ud800": 1}, ValueError), ({"k": "\ud800"}, ValueError),
            (Pairs([("a",)]), TypeError), (Pairs(["ab"]), TypeError), ({"k": Code("a", [1])}, TypeError),
            ({"k": DBPointer("a", b"x")}, TypeError), ({"k": 1j}, TypeError),
        ]
        for document, error in rows:
            with self.subTest(repr(document)[:40]):
                self.assertRaises(error, bsonraw.encode, document)
        with self.assertRaises(BsonError) as caught:
            bsonraw.encode(cycle)
        self.assertEqual(caught.exception.reason, Reason.TOO_DEEP)

    def test_a_dict_that_changes_meanwhile(self) -> None:
        class Adds(str):
            def __str__(self) -> str:
                document[str(len(document))] = 1
                return "x"

        document: Any = {"a": Adds("y"), "b": 1}
        document["c"] = Level.LOW

        class Clears(list):  # type: ignore[type-arg]
            def __iter__(self) -> Any:
                document.clear()
                return super().__iter__()

        document["d"] = Clears([1])
        document["e"] = 5
        self.assertRaises(RuntimeError, bsonraw.encode, document)

    def test_pairs_lose_no_key(self) -> None:
        data = framed(b"\x10a\0\1\0\0\0" + b"\x10b\0\3\0\0\0" + b"\x10a\0\2\0\0\0")
        self.assertEqual(list(bsonraw.decode(data).items()), [("a", 2), ("b", 3)])
        pairs = bsonraw.decode(data, pairs=True)
        self.assertEqual(pairs, [("a", 1), ("b", 3), ("a", 2)])
        self.assertEqual(bsonraw.encode(pairs), data)
        self.assertEqual(bsonraw.encode({"in": pairs})[8:-1], data)


class Classes(unittest.TestCase):
    def test_pickled_copied_and_hashed(self) -> None:
        for value, _ in ROWS:
            for again in (pickle.loads(pickle.dumps(value)), copy.copy(value), copy.deepcopy(value)):
                self.assertEqual((type(again), again), (type(value), value))
            if not isinstance(value, (dict, list)) and not (isinstance(value, Code) and value.scope):
                self.assertEqual(hash(pickle.loads(pickle.dumps(value))), hash(value))

    def test_classes_over_ours_stay_what_they_are(self) -> None:
        """In copies and pickles, with what they have beside, as MongoDB's and most of Python's do."""
        for kind, own in OWN.items():
            value: Any = own(*OWN_ARGUMENTS[kind])
            value.note = ["note"]
            for number in range(pickle.HIGHEST_PROTOCOL + 1):
                for found in (pickle.loads(pickle.dumps(value, number)), copy.copy(value), copy.deepcopy(value)):
                    self.assertEqual((type(found), repr(found), found.note), (own, repr(value), ["note"]))
                    self.assertTrue(kind is BsonError or found == value)
            self.assertIs(copy.copy(value).note, value.note)

    def test_a_pickle_of_ours_has_the_class_and_the_parts_alone(self) -> None:
        self.assertEqual(ID.__reduce__(), (ObjectId, (bytes(ID),)))
        self.assertEqual(Binary(b"a", 5).__reduce__(), (Binary, (b"a", 5)))
        self.assertEqual(Int64(5).__reduce__(), (Int64, (5,)))

    def test_as_text(self) -> None:
        names = {name: getattr(bsonraw, name) for name in bsonraw.__all__}
        for value, _ in ROWS:
            if type(value).__module__.startswith("bsonraw"):
                self.assertEqual(eval(repr(value), names), value)
        self.assertEqual((str(ID), str(Int64(5)), f"{DatetimeMS(6)}"), ("0123456789abcdef01234567", "5", "6"))

    def test_parts(self) -> None:
        self.assertEqual((Timestamp(5, 6).time, Timestamp(5, 6).increment), (5, 6))
        self.assertEqual((Binary(b"a", 3).data, Binary(b"a", 3).subtype, bytes(Binary(b"a", 3))), (b"a", 3, b"a"))
        self.assertEqual((DBPointer("a", ID).namespace, DBPointer("a", ID).id, ID.binary), ("a", ID, bytes(ID)))
        self.assertEqual(ObjectId("65920080" + "0" * 16).generation_time, datetime(2024, 1, 1, 0, 0, tzinfo=timezone.utc))
        self.assertTrue(Regex("^a.c$", "is").compile().match("A\nC"))
        self.assertLess(Timestamp(1, 9), Timestamp(2, 1))
        self.assertLess(ObjectId(b"a" * 12), ObjectId(b"b" * 12))
        self.assertNotEqual(Binary(b"a", 1), Binary(b"a", 2))
        self.assertIs(MinKey(), MinKey())

    def test_what_they_refuse(self) -> None:
        for make in (
            lambda: ObjectId("12"), lambda: ObjectId(b"12"), lambda: Decimal128(b""), lambda: Binary(b"", 256),
            lambda: ObjectId("x" * 24), lambda: ObjectId("01 " * 12), lambda: ObjectId("01" * 12 + "\n"),
        ):
            self.assertRaises(ValueError, make)
        self.assertRaises(ValueError, Timestamp, 1 << 32, 0)

    def test_classes_over_ours(self) -> None:
        class Own(ObjectId):
            pass

        own = Own(bytes(ID))
        own.note = [own]
        self.assertEqual(bsonraw.encode({"k": own}), of(7, bytes(ID)))

        class Wide(Int64):
            pass

        for number in (0, 5, -1, 1 << 62, -(1 << 63)):
            wide = Wide(number)
            wide.note = [wide]
            self.assertEqual((wide, hash(wide), str(wide), repr(wide)), (number, hash(number), str(number), f"Int64({number})"))
            self.assertEqual(bsonraw.encode({"k": wide}), of(18, struct.pack("<q", number)))


if __name__ == "__main__":
    unittest.main()
