"""The names of MongoDB's package over ours, beside that package where it is there."""

import copy
import datetime
import decimal
import io
import json
import math
import pickle
import re
import types
import unittest
import uuid
from collections import OrderedDict
from typing import Any, Dict, List

import bsonraw
import bsonraw.compat as compat
from bsonraw.compat import json_util
from bsonraw.compat.binary import UuidRepresentation
from bsonraw.compat.codec_options import CodecOptions, DatetimeConversion, TypeCodec, TypeRegistry
from bsonraw.compat.decimal128 import create_decimal128_context
from bsonraw.compat.errors import BSONError, InvalidBSON, InvalidDocument, InvalidId
from bsonraw.compat.raw_bson import DEFAULT_RAW_BSON_OPTIONS, RawBSONDocument
from bsonraw.compat.son import SON
from bsonraw.compat.tz_util import FixedOffset, utc
from made import all_made, framed

try:
    import bson
    from bson import json_util as their_json
    from bson.codec_options import CodecOptions as TheirOptions
    from bson.raw_bson import RawBSONDocument as TheirRaw
except ImportError:
    bson = None  # type: ignore[assignment]
    their_json = None  # type: ignore[assignment]

WHEN = datetime.datetime(2020, 1, 2, 3, 4, 5, 678000, utc)
ID = compat.ObjectId("5f2b00000000000000000001")
VALUES: List[Any] = [
    1, 5_000_000_000, 1.5, "x", None, True, [1, {"a": 2}], {"a": ID}, compat.Int64(5), WHEN, WHEN.replace(year=1960), WHEN.replace(tzinfo=None),
    compat.Regex("a", "im"), re.compile("b", re.I), b"abc", compat.Binary(b"abc", 5), compat.Timestamp(1, 2), compat.Decimal128("1.5"), compat.Code("f"),
    compat.Code("f", {"x": 1}), compat.MinKey(), compat.MaxKey(), compat.DBRef("c", 1, "d", x=2), SON([("b", 1), ("a", 2)]),
]  # fmt: skip


class Codecs(unittest.TestCase):
    def test_there_and_back(self) -> None:
        data = compat.encode({"n": 1, "_id": ID, "l": [WHEN]})
        self.assertEqual(list(compat.decode(data).items()), [("_id", ID), ("n", 1), ("l", [WHEN.replace(tzinfo=None)])])
        for kind in (SON, OrderedDict):
            found = compat.decode(data, CodecOptions(document_class=kind, tz_aware=True))
            self.assertEqual((type(found), found["l"]), (kind, [WHEN]))
        self.assertEqual(compat.decode_all(data * 2), [compat.decode(data)] * 2)
        self.assertEqual(list(compat.decode_iter(data * 2)), [compat.decode(data)] * 2)
        self.assertEqual(list(compat.decode_file_iter(io.BytesIO(data * 2), CodecOptions(document_class=SON))), [compat.decode(data)] * 2)
        self.assertEqual((compat.is_valid(data), compat.is_valid(data[:-1]), compat.BSON.encode({"a": 1}).decode()), (True, False, {"a": 1}))
        self.assertRaises(TypeError, compat.is_valid, "text")
        self.assertRaises(TypeError, compat.decode, data, {"tz_aware": True})

    def test_references(self) -> None:
        reference = compat.DBRef("c", ID, "d", x=1)
        for document in ({"r": reference}, {"r": {"$ref": "c", "$id": ID, "$db": "d", "x": 1}}):
            found = compat.decode(compat.encode(document))["r"]
            self.assertEqual((found, found.collection, found.id, found.database, found.x), (reference, "c", ID, "d", 1))
        for plain in ({"$ref": 5, "$id": 1}, {"$ref": "c"}, {"$ref": "c", "$id": 1, "$db": 5}):
            for options in (CodecOptions(), CodecOptions(document_class=SON)):
                self.assertEqual(compat.decode(compat.encode({"r": plain}), options)["r"], plain)
        whole = {"$ref": "c", "$id": 1}
        for options in (CodecOptions(), CodecOptions(document_class=SON)):
            self.assertEqual(compat.decode(compat.encode(whole), options), whole)
        for copied in (copy.deepcopy(reference), pickle.loads(pickle.dumps(reference))):
            self.assertEqual((copied, hash(copied) == hash(reference), copied.x), (reference, True, 1))
        self.assertRaises(AttributeError, getattr, reference, "y")

    def test_times(self) -> None:
        late = compat.DatetimeMS(10**16)
        data = compat.encode({"t": WHEN, "late": late})
        for how, wanted in (
            (DatetimeConversion.DATETIME_AUTO, [WHEN.replace(tzinfo=None), late]),
            (DatetimeConversion.DATETIME_MS, [compat.DatetimeMS(1577934245678), late]),
            (DatetimeConversion.DATETIME_CLAMP, [WHEN.replace(tzinfo=None), datetime.datetime.max.replace(microsecond=999000)]),
        ):
            self.assertEqual(list(compat.decode(data, CodecOptions(datetime_conversion=how)).values()), wanted)
        with self.assertRaises(InvalidBSON):
            compat.decode(data, CodecOptions(datetime_conversion=DatetimeConversion.DATETIME))
        zone = FixedOffset(90, "east")
        found = compat.decode(data, CodecOptions(tz_aware=True, tzinfo=zone))["t"]
        self.assertEqual((found, found.utcoffset()), (WHEN, datetime.timedelta(minutes=90)))
        self.assertRaises(ValueError, CodecOptions, tzinfo=zone)

    def test_uuids(self) -> None:
        value = uuid.UUID("00112233-4455-6677-8899-aabbccddeeff")
        for representation, subtype, written in ((4, 4, value.bytes), (3, 3, value.bytes), (6, 3, value.bytes_le),
                                                 (5, 3, bytes.fromhex("7766554433221100ffeeddccbbaa9988"))):
            options = CodecOptions(uuid_representation=representation)
            data = compat.encode({"u": value, "l": [value]}, codec_options=options)
            self.assertEqual(compat.decode(data)["u"], compat.Binary(written, subtype))
            self.assertEqual(compat.decode(data, options), {"u": value, "l": [value]})
            if bson is not None:
                self.assertEqual(bson.encode({"u": value, "l": [value]}, codec_options=TheirOptions(uuid_representation=representation)), data)

    def test_uuids_inside(self) -> None:
        value = uuid.UUID("00112233-4455-6677-8899-aabbccddeeff")
        options = CodecOptions(uuid_representation=UuidRepresentation.JAVA_LEGACY)
        written = compat.Binary.from_uuid(value, UuidRepresentation.JAVA_LEGACY)
        data = compat.encode({"r": compat.DBRef("c", value, x=[value]), "f": compat.Code("f", {"u": value})}, codec_options=options)
        self.assertEqual(data, compat.encode({"r": {"$ref": "c", "$id": written, "x": [written]}, "f": compat.Code("f", {"u": written})}))
        self.assertEqual(compat.encode(bsonraw.Pairs([("u", value), ("u", 1)]), codec_options=options), compat.encode(bsonraw.Pairs([("u", written), ("u", 1)])))
        raw = RawBSONDocument(compat.encode({"u": value}))
        self.assertEqual(compat.encode({"x": raw}, codec_options=options), compat.encode({"x": raw}))
        if bson is not None:
            theirs = {"r": bson.DBRef("c", value, x=[value]), "f": bson.Code("f", {"u": value})}
            self.assertEqual(bson.encode(theirs, codec_options=TheirOptions(uuid_representation=UuidRepresentation.JAVA_LEGACY)), data)

    def test_classes_of_others(self) -> None:
        class Money:
            def __init__(self, amount: str) -> None:
                self.amount = amount

        class Codec(TypeCodec):
            python_type, bson_type = Money, compat.Decimal128

            def transform_python(self, value: Any) -> Any:
                return compat.Decimal128(value.amount)

            def transform_bson(self, value: Any) -> Any:
                return Money(str(value))

        options = CodecOptions(type_registry=TypeRegistry([Codec()], fallback_encoder=lambda value: sorted(value)))
        data = compat.encode({"m": Money("1.5"), "l": [Money("2")], "s": {2, 1}}, codec_options=options)
        self.assertEqual(compat.decode(data), {"m": compat.Decimal128("1.5"), "l": [compat.Decimal128("2")], "s": [1, 2]})
        found = compat.decode(data, options)
        self.assertEqual((found["m"].amount, found["l"][0].amount), ("1.5", "2"))
        self.assertRaises(TypeError, TypeRegistry, [5])

    def test_raw_documents(self) -> None:
        data = compat.encode({"a": {"b": WHEN}, "c": [1]})
        document = compat.decode(data, DEFAULT_RAW_BSON_OPTIONS)
        self.assertEqual((type(document), type(document["a"]), document["a"]["b"], document.raw), (RawBSONDocument, RawBSONDocument, WHEN.replace(tzinfo=None), data))
        self.assertEqual((list(document), len(document), document == RawBSONDocument(data), compat.encode(document)), (["a", "c"], 2, True, data))
        self.assertEqual(compat.decode(compat.encode({"x": document})), {"x": compat.decode(data)})
        within = compat.encode({"l": [1, {"a": 1}, [[{"b": [{}]}], b"x", None]]})
        listed = compat.decode(within, DEFAULT_RAW_BSON_OPTIONS)["l"]
        inner = listed[2][0][0]
        self.assertEqual([type(one) for one in (listed[1], inner, inner["b"][0])], [RawBSONDocument] * 3)
        self.assertEqual((listed[0], listed[1]["a"], listed[2][1:], inner.raw), (1, 1, [b"x", None], compat.encode({"b": [{}]})))
        if bson is not None:
            theirs = bson.decode(within, TheirOptions(document_class=TheirRaw))["l"]
            self.assertEqual([theirs[1].raw, theirs[2][0][0].raw, theirs[2][1:]], [listed[1].raw, inner.raw, listed[2][1:]])
        deep: Any = compat.encode({"x": 1})
        for _ in range(5_000):
            deep = framed(b"\4a\0" + deep)
        self.assertEqual(len(RawBSONDocument(deep)["a"]), 1)
        many = compat.encode({f"k{number}": number for number in range(30_000)})
        self.assertEqual(dict(RawBSONDocument(many)), compat.decode(many))

    def test_decimals(self) -> None:
        with decimal.localcontext(create_decimal128_context()) as context:
            rounded = compat.Decimal128(context.create_decimal("1.2345678901234567890123456789012345"))
        self.assertEqual(str(rounded), "1.234567890123456789012345678901234")  # ties to even
        self.assertEqual(str(compat.Decimal128(create_decimal128_context().create_decimal(".13.1"))), "NaN")

    def test_first_key(self) -> None:
        class Backwards(dict):  # type: ignore[type-arg]
            pass

        wanted = compat.encode({"_id": 1, "a": 2})
        for document in ({"a": 2, "_id": 1}, SON([("a", 2), ("_id", 1)]), types.MappingProxyType({"a": 2, "_id": 1}), Backwards(a=2, _id=1)):
            self.assertEqual(compat.encode(document), wanted)
            if bson is not None and isinstance(document, dict):
                self.assertEqual(bson.encode(document), wanted)

    def test_errors(self) -> None:
        for call, error in (
            (lambda: compat.decode(b"\5\0\0\0"), InvalidBSON), (lambda: compat.encode({"a": object()}), InvalidDocument), (lambda: compat.ObjectId("zz"), InvalidId),
            (lambda: compat.encode({1: 2}), InvalidDocument), (lambda: compat.encode({"a\0": 1}), InvalidDocument), (lambda: compat.encode({"a.b": 1}, check_keys=True), InvalidDocument),
            (lambda: compat.encode({"a": [{"$b": 1}]}, check_keys=True), InvalidDocument), (lambda: compat.ObjectId(b"short"), InvalidId),
        ):
            with self.assertRaises(error) as caught:
                call()
            self.assertIsInstance(caught.exception, BSONError)
        self.assertRaises(OverflowError, compat.encode, {"a": 1 << 64})
        self.assertRaises(TypeError, compat.encode, [1])
        self.assertEqual(compat.ObjectId.is_valid("zz"), False)

    @unittest.skipIf(bson is None, "MongoDB's package isn't there (Debian: python3-bson)")
    def test_made_documents_beside_mongodbs(self) -> None:
        count = 0
        for data in all_made(17, 400):
            if bsonraw.first_fault(data) is not None:
                continue
            ours = compat.decode(data, CodecOptions(tz_aware=True, document_class=SON))
            try:
                theirs = bson.decode(data, TheirOptions(tz_aware=True, document_class=bson.SON))
            except (bson.errors.InvalidBSON, OverflowError, ValueError):
                continue
            self.assertEqual(bsonraw.encode(ours), bsonraw.encode(theirs), data.hex())
            count += 1
        self.assertGreater(count, 100)

    @unittest.skipIf(bson is None, "MongoDB's package isn't there (Debian: python3-bson)")
    def test_documents_are_written_as_mongodbs_writes_them(self) -> None:
        for value in VALUES:
            theirs = bson.decode(compat.encode({"v": value}), TheirOptions(tz_aware=True))
            self.assertEqual(compat.encode({"v": value, "_id": 1}), bson.encode({"v": theirs["v"], "_id": 1}), value)


class Json(unittest.TestCase):
    def test_options_of_modes(self) -> None:
        dates = json_util.DatetimeRepresentation
        for mode, long, when, uuids in ((json_util.JSONMode.RELAXED, False, dates.ISO8601, True), (json_util.JSONMode.CANONICAL, True, dates.NUMBERLONG, True)):
            options = json_util.JSONOptions(strict_number_long=long, datetime_representation=when, strict_uuid=uuids, json_mode=mode)
            self.assertEqual(options, json_util.JSONOptions(json_mode=mode))
            for wrong in ({"strict_number_long": not long}, {"datetime_representation": dates.LEGACY}, {"strict_uuid": False}):
                with self.assertRaises(ValueError):
                    json_util.JSONOptions(json_mode=mode, **wrong)  # type: ignore[arg-type]
                with self.assertRaises(ValueError):
                    options.with_options(**wrong)
        self.assertRaises(ValueError, json_util.JSONOptions, datetime_representation=7)
        legacy = json_util.JSONOptions(True, dates.ISO8601, True, json_util.JSONMode.LEGACY)
        text = json_util.dumps([compat.Int64(1), WHEN, uuid.UUID(int=1)], json_options=legacy)
        self.assertEqual(text, '[{"$numberLong": "1"}, {"$date": "2020-01-02T03:04:05.678Z"}, {"$binary": "AAAAAAAAAAAAAAAAAAAAAQ==", "$type": "04"}]')

    @unittest.skipIf(their_json is None, "MongoDB's json_util isn't there (Debian: python3-bson)")
    def test_texts_are_mongodbs(self) -> None:
        for value in VALUES + [uuid.UUID(int=5), float("nan"), float("-inf")]:
            data = compat.encode({"v": value})
            theirs = bson.decode(data, TheirOptions(tz_aware=True, uuid_representation=4))["v"]
            for mode in range(3):
                ours = json_util.dumps(value, json_options=json_util.JSONOptions(json_mode=mode, uuid_representation=4), sort_keys=True)
                self.assertEqual(ours, their_json.dumps(theirs, json_options=their_json.JSONOptions(json_mode=mode, uuid_representation=4), sort_keys=True))

    def test_values_come_back(self) -> None:
        for value in VALUES:
            if isinstance(value, (re.Pattern, float)):
                continue
            for options in (json_util.CANONICAL_JSON_OPTIONS, json_util.LEGACY_JSON_OPTIONS, json_util.RELAXED_JSON_OPTIONS):
                reading = options.with_options(tz_aware=isinstance(value, datetime.datetime) and value.tzinfo is not None)
                self.assertEqual(json_util.loads(json_util.dumps(value, json_options=options), json_options=reading), value)
        for number, text in ((1e300, "1e+300"), (5e-324, "5e-324"), (-0.0, "-0.0"), (1e22, "1e+22"), (float("inf"), "Infinity"), (float("-inf"), "-Infinity"), (float("nan"), "NaN")):
            wanted = '{"$numberDouble": "%s"}' % text
            self.assertEqual(json_util.dumps(number, json_options=json_util.CANONICAL_JSON_OPTIONS), wanted)
            self.assertEqual(json_util.dumps(number), repr(number) if math.isfinite(number) else wanted)
            self.assertEqual(json_util.dumps(number, json_options=json_util.LEGACY_JSON_OPTIONS), json.dumps(number))
            if their_json is not None:
                self.assertEqual(their_json.dumps(number, json_options=their_json.CANONICAL_JSON_OPTIONS), wanted)
        self.assertEqual(json_util.dumps({"a": [compat.Int64(1)]}, indent=1), '{\n "a": [\n  1\n ]\n}')

    def test_forms_of_old(self) -> None:
        wanted: Dict[str, Any] = {
            '{"$date": 1577836800000}': datetime.datetime(2020, 1, 1),
            '{"$date": "2020-01-01T01:30:00.5+0130"}': datetime.datetime(2020, 1, 1, 0, 0, 0, 500000),
            '{"$binary": "YWJj", "$type": "05"}': compat.Binary(b"abc", 5),
            '{"$binary": "YWJj", "$type": 0}': b"abc",
            '{"$regex": "a", "$options": "mi"}': compat.Regex("a", "im"),
            '{"$uuid": "00112233445566778899aabbccddeeff"}': compat.Binary(bytes.fromhex("00112233445566778899aabbccddeeff"), 4),
            '{"$timestamp": {"t": 1, "i": 2}}': compat.Timestamp(1, 2),
            '{"$undefined": true}': None,
            '{"$ref": "c", "$id": 1}': compat.DBRef("c", 1),
            '{"$symbol": "s"}': "s",
            '[1, {"$numberLong": "5"}, {"$regex": {"a": 1}}]': [1, 5, {"$regex": {"a": 1}}],
        }
        for text, value in wanted.items():
            self.assertEqual(json_util.loads(text), value, text)
            if their_json is not None and "$uuid" not in text and '{"$regex": {' not in text:  # of which version 3.11 makes an error
                theirs = their_json.loads(text, json_options=their_json.JSONOptions(tz_aware=False))
                self.assertEqual(bsonraw.encode({"v": value}), bsonraw.encode({"v": theirs}), text)
        for text in ('{"$oid": "zz"}', '{"$minKey": 2}', '{"$date": "yesterday"}', '{"$numberLong": 5}', '{"$code": 1}', '{"$undefined": 1}'):
            self.assertRaises((TypeError, ValueError, InvalidId), json_util.loads, text)

    def test_names(self) -> None:
        for name in compat.__all__:
            self.assertTrue(hasattr(compat, name), name)
        if bson is not None:
            left_out = {"BSONARR", "UUIDLegacy", "InvalidStringData"}
            for name in ("encode", "decode", "decode_all", "decode_iter", "decode_file_iter", "is_valid", "has_c", "BSON", "SON", "DBRef", "Code", "CodecOptions", "ObjectId"):
                self.assertTrue(hasattr(bson, name) and name in compat.__all__ and name not in left_out, name)

    def test_what_no_value_is_made_of(self) -> None:
        """MongoDB's package, from version 3.11 on, raises errors of the same classes."""
        modules: List[Any] = [compat] if bson is None else [compat, bson]
        for package in modules:
            for error, name, given in (
                (TypeError, "Regex", (5,)), (TypeError, "Regex", ("a", 1.5)), (TypeError, "Timestamp", ("x", 1)), (TypeError, "Timestamp", (1, None)),
                (ValueError, "Timestamp", (-1, 1)), (ValueError, "Timestamp", (1, 1 << 32)), (TypeError, "Code", (5,)), (TypeError, "DBRef", (5, 1)),
                (TypeError, "CodecOptions", (5,)), (TypeError, "CodecOptions", (list,)), (ValueError, "Binary", (b"", 300)), (TypeError, "Binary", (b"", "x")),
            ):
                self.assertRaises(error, getattr(package, name), *given)

    def test_options(self) -> None:
        options = CodecOptions(document_class=SON, tz_aware=True)
        self.assertEqual(options.with_options(tz_aware=False), CodecOptions(document_class=SON))
        self.assertEqual((pickle.loads(pickle.dumps(options)), UuidRepresentation.STANDARD), (options, 4))
        self.assertIs(CodecOptions(document_class=Dict[str, Any]).document_class, dict)
        for wrong in ({"tz_aware": 1}, {"type_registry": 5}):
            self.assertRaises(TypeError, CodecOptions, **wrong)
        for wrong in ({"uuid_representation": 9}, {"unicode_decode_error_handler": "ignore"}):
            self.assertRaises(ValueError, CodecOptions, **wrong)
        self.assertEqual(framed(b""), compat.encode({}))


if __name__ == "__main__":
    unittest.main()
