"""Values of other packages: numpy's, MongoDB's, and what hooks make."""

import collections
import dataclasses
import datetime as times
import decimal
import enum
import operator
import pathlib
import re
import unittest
import uuid
from typing import Any, List

import bsonraw
from bsonraw import Binary, BsonError, Code, DatetimeMS, Decimal128, Int64, MaxKey, MinKey, ObjectId, Pairs, RawDocument, Reason, Regex, Timestamp
from made import all_made, framed
from test_values import ROWS, of

try:
    import numpy
except ImportError:
    numpy = None
try:
    import pandas
except ImportError:
    pandas = None
try:
    import bson
    from bson import codec_options, dbref, objectid, raw_bson
except ImportError:
    bson = None


def again(value: Any, **options: Any) -> Any:
    return bsonraw.decode(bsonraw.encode({"k": value}, **options))["k"]


class Numpy(unittest.TestCase):
    @unittest.skipIf(numpy is None, "numpy isn't there (Debian: python3-numpy)")
    def test_numbers(self) -> None:
        for value, wanted in (
            (numpy.bool_(True), True), (numpy.int8(-3), -3), (numpy.uint16(9), 9), (numpy.int64(1 << 40), Int64(1 << 40)),
            (numpy.float32(0.5), 0.5), (numpy.float64(1.5), 1.5), (numpy.str_("x"), "x"), (numpy.array(3), 3), (numpy.bool_(False), False),
        ):
            found = again(value)
            self.assertEqual((type(found), found), (type(wanted), wanted))
        self.assertRaises(TypeError, bsonraw.encode, {"k": numpy.array([1])})
        self.assertRaises(TypeError, bsonraw.encode, {"k": numpy.datetime64("2000-01-01", "ns")})
        data = bsonraw.encode({"a": [5, 6]})
        path = ("a", numpy.int32(1))
        self.assertEqual((bsonraw.find(data, path).value, bsonraw.columns(data, paths=[path])), (6, {path: [6]}))
        self.assertEqual(bsonraw.decode(bsonraw.edit(data, {path: 7})), {"a": [5, 7]})
        self.assertEqual(bsonraw.decode(numpy.frombuffer(data, "u1")), {"a": [5, 6]})

    def test_numbers_of_a_class_like_theirs(self) -> None:
        class Number:
            shape = ()

            def __init__(self, kind: str) -> None:
                self.dtype = type("Kind", (), {"kind": kind})

            def __index__(self) -> int:
                return 1

            def __float__(self) -> float:
                return 1.5

        self.assertIs(again(Number("b")), True)
        self.assertEqual((again(Number("i")), again(Number("f")), again(Number("x"))), (1, 1.5, 1))

    def test_a_bool_is_no_step(self) -> None:
        data = bsonraw.encode({"True": [1], "1": 2})
        for path in ([True], ["True", False], (False,)):
            self.assertRaises(TypeError, bsonraw.find, data, path)
            self.assertRaises(TypeError, bsonraw.columns, data, paths=[path])
            self.assertRaises(TypeError, bsonraw.edit, data, {tuple(path): 1})
        self.assertEqual(bsonraw.find(data, [1]).value, 2)


@unittest.skipIf(bson is None, "MongoDB's package isn't there (Debian: python3-bson)")
class Theirs(unittest.TestCase):
    def same(self, one: Any, two: Any) -> None:
        self.assertEqual(repr(one), re.sub("<bson.tz_util.FixedOffset object at [^>]*>", "datetime.timezone.utc", repr(two)))
        self.assertEqual(type(one), type(two))

    def test_what_decode_gives(self) -> None:
        count = 0
        for data in all_made(21, 4000):
            if bsonraw.first_fault(data) is not None:
                continue
            for aware in (False, True):
                options = codec_options.CodecOptions(tz_aware=aware, uuid_representation=0)
                try:
                    wanted = bson.decode(data, options)
                    repr(wanted)
                except (bson.errors.InvalidBSON, OverflowError, decimal.Inexact):
                    continue  # a time out of range, or a decimal that theirs doesn't print
                found = bsonraw.decode(data, types="bson", **({"tz_aware": True} if aware else {}))
                self.same(found, wanted)
                count += 1
        self.assertGreater(count, 3000)

    def test_kinds(self) -> None:
        reference = framed(b"\x02$ref\0\2\0\0\0c\0" + b"\x10$id\0\5\0\0\0" + b"\x02$db\0\2\0\0\0d\0" + b"\x10x\0\1\0\0\0")
        data = framed(b"\x03k\0" + reference)
        self.same(bsonraw.decode(data, types="bson"), bson.decode(data))
        self.same(bsonraw.decode(reference, types="bson"), bson.decode(reference))
        self.same(bsonraw.get(data, "k").decode(types="bson"), bson.decode(data)["k"])
        self.assertEqual(bsonraw.get(data, "k").decode(types="bson", object_hook=len), 4)
        same_time = of(9, bytes(8))
        self.assertEqual(bsonraw.decode(same_time, types="bson")["k"], times.datetime(1970, 1, 1))
        self.assertEqual(bsonraw.decode(same_time, types="bson", tz_aware=True)["k"].utcoffset(), times.timedelta())
        unique = uuid.uuid4()
        data = bsonraw.encode({"k": unique, "i": ObjectId()})
        self.assertIs(type(bsonraw.decode(data, types="bson")["k"]), bson.Binary)
        self.assertEqual(bsonraw.decode(data, types="bson", uuid=True)["k"], unique)
        self.assertIs(type(bsonraw.decode(data, types="bson")["i"]), objectid.ObjectId)
        self.assertEqual(bsonraw.decode_all(data, types="bson"), [bsonraw.decode(data, types="bson")])

    def test_their_encoder_takes_ours(self) -> None:
        count = 0
        for value, data in ROWS:
            if type(value).__name__ not in ("Undefined", "DBPointer", "Symbol", "DatetimeMS"):
                if type(value) is Code and value.scope:
                    value = Code(value.code, dict(value.scope))
                self.assertEqual(bson.encode({"k": value}), data, value)
                count += 1
        self.assertGreater(count, 20)
        pairs = Pairs([("b", 1), ("a", 2), ("b", 3)])
        self.assertEqual(bson.encode({"k": pairs}), bsonraw.encode({"k": pairs}))
        self.assertEqual(bson.encode({"k": Int64(5)}), of(18, b"\5" + bytes(7)))
        document = bsonraw.RawDocument(bsonraw.encode(pairs))
        self.assertEqual(bson.encode({"k": document}), bsonraw.encode({"k": pairs}))
        self.assertEqual(bsonraw.encode({"k": raw_bson.RawBSONDocument(bsonraw.encode(pairs))}), bsonraw.encode({"k": pairs}))

    def test_what_their_encoder_does_otherwise(self) -> None:
        self.assertEqual(bson.encode({"a": 1, "_id": 2}), bsonraw.encode({"_id": 2, "a": 1}))
        self.assertEqual(list(bsonraw.decode(bsonraw.encode({"a": 1, "_id": 2}))), ["a", "_id"])
        if not hasattr(bson, "DatetimeMS"):
            self.assertEqual(bson.encode({"k": DatetimeMS(1 << 40)}), bsonraw.encode({"k": Int64(1 << 40)}))
        self.assertEqual([Regex("a", options) == bson.Regex("a", "ix") for options in ("ix", "xi")], [True, False])

    def test_equal_to_theirs(self) -> None:
        for value, data in ROWS:
            if type(value).__module__ != "bsonraw" or type(value).__name__ in ("Undefined", "DBPointer", "Symbol", "DatetimeMS"):
                continue
            other = bson.decode(data, codec_options.CodecOptions(uuid_representation=0))["k"]
            self.assertNotEqual(type(other), type(value))
            self.assertEqual(value, other)
            self.assertFalse(value != other)
            if type(other).__hash__ is not None and type(value).__hash__ is not None and type(value).__name__ != "Binary":
                self.assertEqual(hash(value), hash(other), value)
        mine, other = ObjectId(), objectid.ObjectId()
        self.assertNotEqual(mine, other)
        self.assertEqual({other: 1}[ObjectId(other.binary)], 1)
        least, most = ObjectId(bytes(12)), ObjectId(b"\xff" * 12)
        self.assertEqual((least < other, other > least, most > other, most < other), (True, True, True, False))
        self.assertEqual(hash(Binary(b"ab", 128)), hash(bson.Binary(b"ab", 128)))
        self.assertEqual([ObjectId("1" * 24) <= ObjectId("1" * 24), Timestamp(2, 1) >= Timestamp(1, 5), Timestamp(2, 1) > Timestamp(2, 1)], [True, True, False])
        self.assertEqual((Timestamp(1, 2) < bson.Timestamp(1, 3), MinKey() < 5, MaxKey() > "x"), (True, True, True))


class Keywords(unittest.TestCase):
    """Calls with the names that MongoDB's package has for their arguments."""

    def test_classes(self) -> None:
        unique, time = uuid.UUID(int=5), times.datetime(2001, 2, 3)
        for name, given in (
            ("ObjectId", {"oid": "0123456789abcdef01234567"}), ("ObjectId.from_datetime", {"generation_time": time}), ("ObjectId.is_valid", {"oid": "x"}),
            ("Timestamp", {"time": 1, "inc": 2}), ("Timestamp", {"time": time, "inc": 2}), ("Regex", {"pattern": "a", "flags": "im"}),
            ("Regex", {"pattern": "a", "flags": re.I | re.M}), ("Regex.from_native", {"regex": re.compile(b"a", re.M)}), ("Regex", {"pattern": "a"}),
            ("Binary", {"data": b"a", "subtype": 5}), ("Binary.from_uuid", {"uuid": unique, "uuid_representation": 4}), ("Code", {"code": "f", "scope": {"a": 1}}),
            ("Code", {"code": "f", "scope": {"a": 1}, "b": 2}), ("Code", {"code": "f", "b": 2}), ("Decimal128", {"value": "1.5"}),
            ("Decimal128.from_bid", {"value": Decimal128("2").bid}), ("Decimal128", {"value": (0x3040 << 48, 15)}),
        ):
            ours, theirs = operator.attrgetter(name)(bsonraw), bson and operator.attrgetter(name.replace("Decimal128", "decimal128.Decimal128"))(bson)
            self.assertEqual(ours(**given), theirs(**given) if theirs else ours(**given), name)

    def test_uuids_in_each_representation(self) -> None:
        value = uuid.UUID("00112233-4455-6677-8899-aabbccddeeff")
        for representation, subtype, written in (
            (3, 3, "00112233445566778899aabbccddeeff"), (4, 4, "00112233445566778899aabbccddeeff"),
            (5, 3, "7766554433221100ffeeddccbbaa9988"), (6, 3, "33221100554477668899aabbccddeeff"),
        ):
            binary = Binary.from_uuid(uuid=value, uuid_representation=representation)
            self.assertEqual((binary.hex(), binary.subtype, binary.as_uuid(uuid_representation=representation)), (written, subtype, value))
            if bson is not None:
                self.assertEqual(binary, bson.Binary.from_uuid(value, representation))
            for other in (4,) if subtype == 3 else (3, 5, 6):
                self.assertRaises(ValueError, binary.as_uuid, other)
        for wrong in (0, 2, 7):
            self.assertRaises(ValueError, Binary.from_uuid, value, wrong)
            self.assertRaises(ValueError, Binary(value.bytes, 4).as_uuid, wrong)
        self.assertRaises(ValueError, Binary(b"short", 4).as_uuid)
        self.assertRaises(TypeError, Binary.from_uuid, str(value))

    def test_calls(self) -> None:
        data, options = bsonraw.encode({"a.b": 1}), object()
        wanted = [bsonraw.decode(data)] * 4 + [[{"a.b": 1}]] * 3
        none = bsonraw.decode(data, None), bsonraw.decode(data=data, codec_options=None), bsonraw.decode(bsonraw.encode({"a.b": 1}, False, None))
        more = bsonraw.decode(bsonraw.encode(document={"a.b": 1}, check_keys=False, codec_options=None)), bsonraw.decode_all(data=data)
        self.assertEqual([*none, *more, bsonraw.decode_all(data, None), bsonraw.decode_all(data, codec_options=None)], wanted)
        self.assertEqual(bsonraw.loads("{}", json_options=None), {})
        for call, given in ((bsonraw.decode, data), (bsonraw.decode_all, data)):
            self.assertRaisesRegex(TypeError, "in their place use tz_aware, uuid", call, given, options)
            self.assertRaisesRegex(TypeError, "in their place use tz_aware, uuid", call, given, codec_options=options)
        self.assertRaisesRegex(TypeError, "in their place use default", bsonraw.encode, {}, codec_options=options)
        self.assertRaisesRegex(TypeError, "in their place use default", bsonraw.encode, {}, False, options)
        self.assertRaisesRegex(TypeError, "look before for keys", bsonraw.encode, {}, True)
        self.assertRaisesRegex(TypeError, "look before for keys", bsonraw.encode, {}, check_keys=True)
        self.assertRaisesRegex(TypeError, "in their place use tz_aware", bsonraw.loads, "{}", json_options=options)
        self.assertRaises(TypeError, bsonraw.encode, {}, False, None, None)
        self.assertRaises(TypeError, bsonraw.decode, data, None, None)


class Hooks(unittest.TestCase):
    def test_the_innermost_first(self) -> None:
        data = bsonraw.encode({"a": [{"b": 1}, Code("f", {"c": 2})], "d": {}})
        seen: List[Any] = []
        self.assertEqual(bsonraw.decode(data, object_hook=lambda document: seen.append(document) or len(seen)), 4)
        self.assertEqual(seen, [{"b": 1}, {"c": 2}, {}, {"a": [1, Code("f", 2)], "d": 3}])
        seen.clear()
        found = bsonraw.decode(data, object_pairs_hook=lambda pairs: seen.append(pairs) or dict(pairs), object_hook=len)
        self.assertEqual((found, seen[0], type(seen[0])), (bsonraw.decode(data), [("b", 1)], Pairs))
        self.assertEqual(bsonraw.decode_all(data, object_hook=len), [2])
        self.assertEqual(bsonraw.get(data, "a").decode(object_hook=len), [1, Code("f", 1)])

    def test_a_hook_that_raises(self) -> None:
        data = bsonraw.encode({"a": [{"b": {"c": 1}}]})
        self.assertRaises(ZeroDivisionError, bsonraw.decode, data, object_hook=lambda document: 1 / 0)
        self.assertRaises(ZeroDivisionError, bsonraw.decode_all, data, object_hook=lambda document: 1 / 0, errors="skip")
        for name in ("object_hook", "object_pairs_hook"):
            self.assertRaises(TypeError, bsonraw.decode, data, **{name: 5})
        self.assertRaises(TypeError, bsonraw.encode, {}, default=5)

    def test_times_and_ids(self) -> None:
        unique, time = uuid.uuid4(), times.datetime(2001, 2, 3, tzinfo=times.timezone.utc)
        data = bsonraw.encode({"u": unique, "t": time, "b": Binary(b"short", 4), "f": DatetimeMS(1 << 60)})
        found = bsonraw.decode(data, uuid=True, tz_aware=False)
        self.assertEqual(found, {"u": unique, "t": time.replace(tzinfo=None), "b": Binary(b"short", 4), "f": DatetimeMS(1 << 60)})
        self.assertEqual((hash(found["u"]), found["u"].is_safe, str(found["u"])), (hash(unique), unique.is_safe, str(unique)))
        self.assertEqual(bsonraw.decode(data)["u"], Binary(unique.bytes, 4))
        self.assertEqual(bsonraw.columns(data, uuid=True, tz_aware=False)["u"], [unique])

    def test_default(self) -> None:
        self.assertEqual(again({1, 1}, default=list), [1])
        self.assertEqual(again(1j, default=lambda value: collections.OrderedDict(real=value.real)), {"real": 0.0})
        for made in ({"k": 1}, collections.OrderedDict(k=1), collections.Counter("k"), Pairs([("k", 1)]), RawDocument(bsonraw.encode({"k": 1}))):
            self.assertEqual(bsonraw.encode({1}, default=lambda value: made), bsonraw.encode({"k": 1}))
        self.assertRaises(TypeError, bsonraw.encode, {1}, default=lambda value: [("k", 1)])
        for default in (None, lambda value: value, lambda value: NotImplemented, lambda value: {2}):
            with self.assertRaises(TypeError) as caught:
                bsonraw.encode({"a": [0, {"b": {1}}]}, default=default)
            self.assertIn("at key 'a.1.b'", str(caught.exception))
        self.assertRaises(ZeroDivisionError, bsonraw.encode, {"a": {1}}, default=lambda value: 1 / 0)

    def test_codec(self) -> None:
        class Color(enum.Enum):
            RED = "red"

        @dataclasses.dataclass
        class Point:
            x: int
            color: Color

        class Far(Point):
            pass

        codec = bsonraw.Codec({complex: lambda value: [value.real, value.imag]})
        for value, wanted in (
            (Point(1, Color.RED), {"x": 1, "color": "red"}), (Far(1, Color.RED), {"x": 1, "color": "red"}), (frozenset([3]), [3]),
            (decimal.Decimal("1.5"), Decimal128("1.5")), (1j, [0.0, 1.0]), (pathlib.PurePosixPath("a/b"), "a/b"),
            (times.date(2001, 2, 3), times.datetime(2001, 2, 3, tzinfo=times.timezone.utc)),
        ):
            self.assertEqual(again(value, default=codec), wanted)
        for unknown in (slice(1), Point, Color):
            self.assertRaises(TypeError, again, unknown, default=codec)
        codec.register(slice, lambda value: None)
        self.assertIsNone(again(slice(1), default=codec))
        self.assertRaises(TypeError, again, slice(1), default=bsonraw.Codec())


class Classes(unittest.TestCase):
    def test_decimals(self) -> None:
        for text, raw in (
            ("1.5", "0f000000000000000000000000003e30"), ("-0", "000000000000000000000000000040b0"), ("Infinity", "00" * 15 + "78"),
            ("-Infinity", "00" * 15 + "f8"), ("NaN", "00" * 15 + "7c"), ("1E+3", "01000000000000000000000000004630"),
            ("9999999999999999999999999999999999", "ffffffff638e8d37c087adbe09ed4130"),
            ("9.999999999999999999999999999999999E+6144", "ffffffff638e8d37c087adbe09edff5f"), ("1E-6176", "01" + "00" * 15),
        ):
            value = Decimal128(text)
            self.assertEqual((value.binary.hex(), str(value)), (raw, text))
            self.assertEqual((Decimal128.from_bid(value.bid), Decimal128(value.to_decimal())), (value, value))
        self.assertEqual((f"{Decimal128('2.50'):.1f}", f"{Decimal128('2.50')}"), ("2.5", "2.50"))
        self.assertEqual(Decimal128(bytes(7) + b"\xff" * 7 + b"\x00\x6c").to_decimal(), 0)
        for text in ("1" * 35, "1E+6145", "x"):
            self.assertRaises(decimal.DecimalException, Decimal128, text)
        for text in ("NaN123", "-NaN5", "sNaN1"):
            self.assertRaises(ValueError, Decimal128, text)
            self.assertRaises(ValueError, Decimal128, decimal.Decimal(text))

    def test_ids(self) -> None:
        begun = times.datetime.now(times.timezone.utc).replace(microsecond=0)
        made = [ObjectId() for _ in range(1000)]
        self.assertEqual((len(set(made)), len({one.binary[4:9] for one in made})), (1000, 1))
        self.assertLessEqual(abs((made[0].generation_time - begun).total_seconds()), 5)
        self.assertEqual(ObjectId.from_datetime(begun).generation_time, begun)
        self.assertEqual((ObjectId.is_valid("0" * 24), ObjectId.is_valid("0"), ObjectId.is_valid(None)), (True, False, False))
        self.assertEqual(f"{made[0]:>26}", f"  {made[0]}")
        self.assertEqual(ObjectId(made[0]), made[0])

    def test_others(self) -> None:
        unique = uuid.uuid4()
        self.assertEqual(Binary.from_uuid(unique).as_uuid(), unique)
        self.assertRaises(ValueError, Binary(unique.bytes, 3).as_uuid)
        self.assertEqual(Timestamp(times.datetime(1970, 1, 2), 3), Timestamp(86400, 3))
        self.assertEqual(Timestamp(86400, 3).as_datetime(), times.datetime(1970, 1, 2, tzinfo=times.timezone.utc))
        self.assertEqual((Binary(b"a", 0) == b"a", Code("a") == "a", len({Binary(b"a", 1), Binary(b"a", 1)})), (False, False, 1))
        self.assertEqual(sorted([5, MaxKey(), MinKey(), 2], key=lambda value: value), [MinKey(), 2, 5, MaxKey()])
        self.assertEqual([MinKey() < MinKey(), MinKey() <= MinKey(), MaxKey() > MaxKey(), MaxKey() >= MaxKey()], [False, True, False, True])
        scoped = Code("f", {"a": 1})
        made = [Code(scoped), Code(scoped, {"b": 2}), Code(scoped, {"a": 3}, b=4), Code(Code("f"), {"b": 2})]
        self.assertEqual([code.scope for code in made], [{"a": 1}, {"a": 1, "b": 2}, {"a": 3, "b": 4}, {"b": 2}])
        self.assertEqual(scoped.scope, {"a": 1})
        self.assertEqual((Regex("a", "ix").flags, Regex("a", Regex("a", "ix").flags).options), (2 + 64, "ix"))

    def test_what_is_made_of_something_else(self) -> None:
        for make in (
            lambda: ObjectId(12), lambda: Binary(5, 0), lambda: Decimal128([0] * 16), lambda: Decimal128(5), lambda: ObjectId([0] * 12),
            lambda: Code(5), lambda: Binary("text", 0), lambda: Regex("x", ["im", "a"]), lambda: Regex("x", None), lambda: Regex(b"x"),
        ):
            self.assertRaises(TypeError, make)

    def test_places_in_errors_of_encode(self) -> None:
        deep: Any = {}
        for _ in range(3):
            deep = {"a": [deep]}
        for document, options, error, keys in (
            ({"a": {"b.c": [1, {"d\0": 2}]}}, {}, BsonError, ("a", "b.c", "1")),
            ({"a": Pairs([("b", [0, 1 << 70])])}, {}, OverflowError, ("a", "b", "1")),
            ({"a": [Code("f", {"x": object()})]}, {}, TypeError, ("a", "0", "x")),
            ({"x": 1, "a": {5: 1}}, {}, TypeError, ("a",)),
            (deep, {"max_depth": 3}, BsonError, ("a", "0", "a")),
            ({"a": [1, "x" * 100]}, {"max_bytes": 50}, BsonError, ("a", "1")),
        ):
            with self.assertRaises(error) as caught:
                bsonraw.encode(document, **options)
            self.assertIn(f"at key '{'.'.join(keys)}'", str(caught.exception))
            if error is BsonError:
                self.assertEqual(caught.exception.keys, keys)
        with self.assertRaises(BsonError) as caught:
            bsonraw.encode({"x": 1, "a": [0, {"b": 1, "c\0d": 2}]})
        error = caught.exception
        self.assertEqual((error.reason, error.key, error.path), (Reason.INTERIOR_NUL, "c\0d", (1, 1, 1)))

    def test_places_of_other_errors(self) -> None:
        """A text that isn't UTF-8 has its place in the error, and an error of other code has it as a note."""
        with self.assertRaises(UnicodeEncodeError) as caught:
            bsonraw.encode({"a": [{"b": "\ud800"}]})
        self.assertEqual(caught.exception.reason, "at key 'a.0.b': surrogates not allowed")
        self.assertRaisesRegex(UnicodeEncodeError, "at key 'a'", bsonraw.encode, {"a": {"\ud800": 1}})

        class Zone(times.tzinfo):
            def utcoffset(self, when: Any) -> Any:
                raise ZeroDivisionError("no offset")

        when = times.datetime(2020, 1, 1, tzinfo=Zone())
        for call in (lambda: bsonraw.encode({"a": {"t": when}}), lambda: bsonraw.edit(bsonraw.encode({}), {"a.t": when})):
            with self.assertRaises(ZeroDivisionError) as zero:
                call()
            self.assertEqual(getattr(zero.exception, "__notes__", ["at key 'a.t'"]), ["at key 'a.t'"])

    @unittest.skipIf(pandas is None, "pandas isn't there (Debian: python3-pandas)")
    def test_no_time(self) -> None:
        with self.assertRaisesRegex(TypeError, "at key 'a.0': a value of class NaTType can't be encoded"):
            bsonraw.encode({"a": [pandas.NaT]})
        codec = bsonraw.Codec({type(pandas.NaT): lambda value: None})
        self.assertEqual(bsonraw.decode(bsonraw.encode({"a": pandas.NaT, "t": pandas.Timestamp(0, tz="UTC")}, default=codec)), {"a": None, "t": times.datetime(1970, 1, 1, tzinfo=times.timezone.utc)})

    def test_damage_in_a_value_of_another_class(self) -> None:
        damaged = RawDocument(framed(b"\x10a\0\0\0\0\0" + b"\x03b\0" + framed(b"\x08c\0\2")))
        with self.assertRaises(BsonError) as caught:
            bsonraw.encode({"x": 1, "y": [damaged]})
        error = caught.exception
        self.assertEqual((error.key, error.path, error.keys, error.offset), ("c", (1, 0, 1, 0), ("y", "0", "b", "c"), None))
        self.assertEqual(str(error), "at key 'y.0.b.c': a boolean is neither 0 nor 1: 2")

    def test_no_comparison_raises(self) -> None:
        damaged = RawDocument(framed(b"\x08c\0\2"))
        for value in (ObjectId(), Timestamp(1, 2), Regex("a", ""), Binary(b"a", 1), DatetimeMS(0), Decimal128("1"), Code("f"), MinKey()):
            self.assertEqual((value == damaged, value != damaged, value in [damaged, value]), (False, True, True))

        class Broken:
            @property
            def _type_marker(self) -> int:
                raise ZeroDivisionError

        class Lying:
            _type_marker = 11
            pattern, flags = b"\xff", 0

        self.assertEqual([ObjectId() == Broken(), Regex("a", "") == Lying(), Regex("a", "") != Lying()], [False, False, True])
        self.assertEqual([Binary(b"a", 1) == Broken(), Code("f") != Broken(), MinKey() == Broken(), MaxKey() > Broken()], [False, True, False, True])

    def test_a_mark_without_the_parts(self) -> None:
        """A value of another class that has the mark of one is no value of it: it equals none, has no order, and makes no id."""
        ours: List[Any] = [ObjectId(), Timestamp(1, 2), Regex("a", ""), Binary(b"a", 1), DatetimeMS(0), Decimal128("1"), Code("f"), Int64(5)]
        theirs = [] if bson is None else [bson.ObjectId(), bson.Timestamp(1, 2), bson.Regex("a"), bson.Binary(b"a", 1), bson.Code("f"), bson.Int64(5)]
        for value in ours + theirs:
            other = type("Other", (), {"_type_marker": value._type_marker})()
            self.assertEqual((value == other, value != other, other == value, value in [other]), (False, True, False, False), value)
        for value in (ObjectId(), Timestamp(1, 2), *theirs[:2]):
            other = type("Other", (), {"_type_marker": value._type_marker})()
            for compare in (operator.lt, operator.le, operator.gt, operator.ge):
                self.assertRaises(TypeError, compare, value, other)
        for make in (ObjectId, *(() if bson is None else (bson.ObjectId,))):
            self.assertRaises(TypeError, make, type("Other", (), {"_type_marker": 7})())
            self.assertFalse(make.is_valid(type("Other", (), {"_type_marker": 7})()))
        half = type("Half", (bytes,), {"_type_marker": 5, "subtype": 1}), type("Half", (str,), {"_type_marker": 13, "scope": None})
        self.assertEqual((Binary(b"a", 1) == half[0](b"a"), Binary(b"a", 1) == half[0](b"b"), Code("f") == half[1]("f")), (True, False, True))


class Hooks(unittest.TestCase):
    def test_none_is_called_for_a_document_that_is_refused(self) -> None:
        called: List[Any] = []
        for count in (1, 1000):
            parts = framed(b"\x0aa\0") * 1
            body = b"".join(b"\x03%d\0" % number + parts for number in range(count))
            for data in (framed(body + b"\x08z\0\7"), framed(body + b"\x14z\0")):
                self.assertRaises(BsonError, bsonraw.decode, data, object_hook=called.append)
                self.assertRaises(BsonError, bsonraw.decode, data, object_pairs_hook=called.append)
                self.assertEqual(bsonraw.decode_all(data, errors="skip", object_hook=called.append), [])
            self.assertEqual(called, [])
            self.assertEqual(len(bsonraw.decode(framed(body), object_hook=lambda document: document)), count)


class References(unittest.TestCase):
    @unittest.skipIf(bson is None, "MongoDB's package isn't there (Debian: python3-bson)")
    def test_documents_that_are_nearly_references(self) -> None:
        """No document ends a dump: one that no DBRef can be made of is a dict."""
        for document in ({"$ref": "c", "$id": 1, "$db": 5}, {"$ref": "c", "$id": 1, "$db": [1]}, {"$ref": 5, "$id": 1}, {"$ref": "c", "$db": "d"}, {"$ref": None}):
            data = bsonraw.encode({"a": document})
            self.assertEqual(bsonraw.decode(data, types="bson"), {"a": document})
            self.assertEqual(bsonraw.columns(data, types="bson"), {"a": [document]})
            self.assertEqual(bsonraw.loads(bsonraw.to_json(data), types="bson"), {"a": document})
            self.assertEqual(bsonraw.decode_all(data * 2, types="bson", errors="skip"), [{"a": document}] * 2)
        for document in ({"$ref": "c", "$id": 1}, {"$ref": "c", "$id": 1, "$db": None}, {"$ref": "c", "$id": 1, "$db": "d", "x": 1}):
            found = bsonraw.decode(bsonraw.encode({"a": document}), types="bson")["a"]
            self.assertEqual((type(found), found.collection, found.database), (dbref.DBRef, "c", document.get("$db")))


class Scopes(unittest.TestCase):
    def test_many_in_one_another(self) -> None:
        scoped = framed(b"\x0aa\0")
        for _ in range(450):
            code = b"\2\0\0\0f\0" + scoped
            scoped = framed(b"\x0fa\0" + (len(code) + 4).to_bytes(4, "little") + code)
        self.assertEqual(bsonraw.encode(bsonraw.decode(scoped)), scoped)
        self.assertEqual(bsonraw.find(scoped, ["a"] * 451).value, None)
        self.assertIsNone(bsonraw.find(scoped, ["a"] * 452))


if __name__ == "__main__":
    unittest.main()
