"""Documents as Extended JSON. The texts of the tables are those of the published format; made documents are printed once more by
a slow printer that is written from it."""

import base64
import json
import math
import struct
import threading
import unittest
from datetime import datetime, timedelta
from decimal import Decimal
from typing import Any, List, Tuple

import bsonraw
import plain
from bsonraw import BsonError, Reason
from made import all_made, framed, string


def double(value: float) -> bytes:
    return struct.pack("<d", value)


def long(value: int) -> bytes:
    return struct.pack("<q", value)


def decimal(coefficient: int, exponent: int, sign: int = 0) -> bytes:
    return (sign << 127 | exponent + 6176 << 113 | coefficient).to_bytes(16, "little")


def binary(subtype: int, data: bytes) -> bytes:
    return struct.pack("<iB", len(data), subtype) + data


SCOPE = framed(b"\x10x\0\1\0\0\0")

# A tag, a payload, and the text of its value in both styles.
SAME = [
    (0x02, string(""), '""'),
    (0x02, string('a"b\\c/'), r'"a\"b\\c/"'),
    (0x02, string("\b\t\n\f\r"), r'"\b\t\n\f\r"'),
    (0x02, string("\0\x01\x1f\x7f"), '"\\u0000\\u0001\\u001f\x7f"'),
    (0x02, string("é€\u2028\uffff😀\U0010ffff"), '"é€\u2028\uffff😀\U0010ffff"'),
    (0x03, framed(b""), "{}"),
    (0x04, framed(b""), "[]"),
    (0x04, framed(b"\x0a5\0" + b"\x08x\0\1"), "[null,true]"),
    (0x05, binary(0, b""), '{"$binary":{"base64":"","subType":"00"}}'),
    (0x05, binary(128, b"\xff"), '{"$binary":{"base64":"/w==","subType":"80"}}'),
    (0x05, binary(4, bytes(range(16))), '{"$binary":{"base64":"AAECAwQFBgcICQoLDA0ODw==","subType":"04"}}'),
    (0x05, binary(2, b"\3\0\0\0abc"), '{"$binary":{"base64":"YWJj","subType":"02"}}'),
    (0x06, b"", '{"$undefined":true}'),
    (0x07, bytes.fromhex("0123456789ABCDEFABCDEF00"), '{"$oid":"0123456789abcdefabcdef00"}'),
    (0x08, b"\0", "false"),
    (0x0A, b"", "null"),
    (0x0B, b'a/"b\0xi\0', r'{"$regularExpression":{"pattern":"a/\"b","options":"xi"}}'),
    (0x0C, string("db.c") + bytes(12), '{"$dbPointer":{"$ref":"db.c","$id":{"$oid":"000000000000000000000000"}}}'),
    (0x0D, string('f("x")'), r'{"$code":"f(\"x\")"}'),
    (0x0E, string("s"), '{"$symbol":"s"}'),
    (0x11, struct.pack("<II", 4294967295, 123456789), '{"$timestamp":{"t":123456789,"i":4294967295}}'),
    (0x13, decimal(0, 0), '{"$numberDecimal":"0"}'),
    (0x13, decimal(0, -6176, 1), '{"$numberDecimal":"-0E-6176"}'),
    (0x13, decimal(0, 6111), '{"$numberDecimal":"0E+6111"}'),
    (0x13, decimal(1, -6176), '{"$numberDecimal":"1E-6176"}'),
    (0x13, decimal(1, 6111, 1), '{"$numberDecimal":"-1E+6111"}'),
    (0x13, decimal(10**34 - 1, 6111), '{"$numberDecimal":"9.999999999999999999999999999999999E+6144"}'),
    (0x13, decimal(10**34 - 1, -33), '{"$numberDecimal":"9.999999999999999999999999999999999"}'),
    (0x13, decimal(10**34, 0), '{"$numberDecimal":"0"}'),
    (0x13, decimal(123, -2), '{"$numberDecimal":"1.23"}'),
    (0x13, decimal(1, -6), '{"$numberDecimal":"0.000001"}'),
    (0x13, decimal(1, -7), '{"$numberDecimal":"1E-7"}'),
    (0x13, decimal(12, 3), '{"$numberDecimal":"1.2E+4"}'),
    (0x13, (30 << 122).to_bytes(16, "little"), '{"$numberDecimal":"Infinity"}'),
    (0x13, (62 << 122).to_bytes(16, "little"), '{"$numberDecimal":"-Infinity"}'),
    (0x13, (63 << 122 | 5).to_bytes(16, "little"), '{"$numberDecimal":"NaN"}'),
    (0x7F, b"", '{"$maxKey":1}'),
    (0xFF, b"", '{"$minKey":1}'),
    (0x01, double(math.inf), '{"$numberDouble":"Infinity"}'),
    (0x01, double(-math.inf), '{"$numberDouble":"-Infinity"}'),
    (0x01, bytes.fromhex("010000000000f0ff"), '{"$numberDouble":"NaN"}'),
    (0x09, long(-1), '{"$date":{"$numberLong":"-1"}}'),
    (0x09, long(-(1 << 63)), '{"$date":{"$numberLong":"-9223372036854775808"}}'),
    (0x09, long(253402300800000), '{"$date":{"$numberLong":"253402300800000"}}'),
    (0x09, long((1 << 63) - 1), '{"$date":{"$numberLong":"9223372036854775807"}}'),
    (0x01, bytes.fromhex("000000000000f87f"), '{"$numberDouble":"NaN"}'),
    (0x02, bytes.fromhex("060000006122625c6300"), '"a\\"b\\\\c"'),
    (0x02, bytes.fromhex("05000000011f7f2f00"), '"\\u0001\\u001f\x7f/"'),
    (0x02, bytes.fromhex("020000000000"), '"\\u0000"'),
    (0x02, bytes.fromhex("0a000000c3a9e282acf09f988000"), '"é€😀"'),
    (0x05, bytes.fromhex("0200000005fffe"), '{"$binary":{"base64":"//4=","subType":"05"}}'),
    (0x08, bytes.fromhex("01"), "true"),
    (0x0B, bytes.fromhex("0000"), '{"$regularExpression":{"pattern":"","options":""}}'),
    (0x0F, bytes.fromhex("0f0000000200000066000500000000"), '{"$code":"f","$scope":{}}'),
    (0x04, bytes.fromhex("0c0000000a30000837000100"), "[null,true]"),
    (0x13, bytes.fromhex("000000000000000000000000000040b0"), '{"$numberDecimal":"-0"}'),
    (0x13, bytes.fromhex("01000000000000000000000000004030"), '{"$numberDecimal":"1"}'),
    (0x13, bytes.fromhex("010000000000000000000000000040b0"), '{"$numberDecimal":"-1"}'),
    (0x13, bytes.fromhex("0c000000000000000000000000003030"), '{"$numberDecimal":"1.2E-7"}'),
    (0x13, bytes.fromhex("7b000000000000000000000000003030"), '{"$numberDecimal":"0.00000123"}'),
    (0x13, bytes.fromhex("01000000000000000000000000004630"), '{"$numberDecimal":"1E+3"}'),
    (0x13, bytes.fromhex("00000000000000000000000000004630"), '{"$numberDecimal":"0E+3"}'),
    (0x13, bytes.fromhex("00000000000000000000000000003a30"), '{"$numberDecimal":"0.000"}'),
    (0x13, bytes.fromhex("00000000000000000000000000003230"), '{"$numberDecimal":"0E-7"}'),
    (0x13, bytes.fromhex("ffffffff638e8d37c087adbe09ed4130"), '{"$numberDecimal":"9999999999999999999999999999999999"}'),
    (0x13, bytes.fromhex("0100000000000000000000000000fe5f"), '{"$numberDecimal":"1E+6111"}'),
    (0x13, bytes.fromhex("ffffffff638e8d37c087adbe09ed0100"), '{"$numberDecimal":"9.999999999999999999999999999999999E-6143"}'),
    (0x13, bytes.fromhex("00000000000000000000000000000000"), '{"$numberDecimal":"0E-6176"}'),
    (0x13, bytes.fromhex("ffffffff638e8d37c087adbe09edfd2f"), '{"$numberDecimal":"0.9999999999999999999999999999999999"}'),
    (0x13, bytes.fromhex("0000000000000000000000000000007c"), '{"$numberDecimal":"NaN"}'),
    (0x13, bytes.fromhex("050000000000000012000000000000fc"), '{"$numberDecimal":"NaN"}'),
    (0x13, bytes.fromhex("0500000000000000000000000000106c"), '{"$numberDecimal":"0"}'),
    (0x13, bytes.fromhex("050000000000000000000000008011ec"), '{"$numberDecimal":"-0E+3"}'),
]

# A tag, a payload, its text when relaxed, and when canonical.
EACH = [
    (0x10, b"\0\0\0\x80", "-2147483648", '{"$numberInt":"-2147483648"}'),
    (0x10, b"\xff\xff\xff\x7f", "2147483647", '{"$numberInt":"2147483647"}'),
    (0x12, long(0), "0", '{"$numberLong":"0"}'),
    (0x12, long(-(1 << 63)), "-9223372036854775808", '{"$numberLong":"-9223372036854775808"}'),
    (0x12, long((1 << 63) - 1), "9223372036854775807", '{"$numberLong":"9223372036854775807"}'),
    (0x01, double(1.0), "1.0", '{"$numberDouble":"1.0"}'),
    (0x01, double(-0.0), "-0.0", '{"$numberDouble":"-0.0"}'),
    (0x01, double(0.1), "0.1", '{"$numberDouble":"0.1"}'),
    (0x01, double(5e-324), "5e-324", '{"$numberDouble":"5e-324"}'),
    (0x01, double(2.2250738585072014e-308), "2.2250738585072014e-308", '{"$numberDouble":"2.2250738585072014e-308"}'),
    (0x01, double(1.7976931348623157e308), "1.7976931348623157e308", '{"$numberDouble":"1.7976931348623157e308"}'),
    (0x09, long(0), '{"$date":"1970-01-01T00:00:00Z"}', '{"$date":{"$numberLong":"0"}}'),
    (0x09, long(1356351330501), '{"$date":"2012-12-24T12:15:30.501Z"}', '{"$date":{"$numberLong":"1356351330501"}}'),
    (0x09, long(951782400000), '{"$date":"2000-02-29T00:00:00Z"}', '{"$date":{"$numberLong":"951782400000"}}'),
    (0x09, long(253402300799999), '{"$date":"9999-12-31T23:59:59.999Z"}', '{"$date":{"$numberLong":"253402300799999"}}'),
    (
        0x0F,
        struct.pack("<i", 10 + len(SCOPE)) + string("f") + SCOPE,
        '{"$code":"f","$scope":{"x":1}}',
        '{"$code":"f","$scope":{"x":{"$numberInt":"1"}}}',
    ),
    (0x01, bytes.fromhex("0000000000000000"), "0.0", '{"$numberDouble":"0.0"}'),
    (0x01, bytes.fromhex("000000000000f8bf"), "-1.5", '{"$numberDouble":"-1.5"}'),
    (0x01, bytes.fromhex("00003426f56b0c43"), "1000000000000000.0", '{"$numberDouble":"1000000000000000.0"}'),
    (0x01, bytes.fromhex("0080e03779c34143"), "1e16", '{"$numberDouble":"1e16"}'),
    (0x01, bytes.fromhex("f168e388b5f8e43e"), "0.00001", '{"$numberDouble":"0.00001"}'),
    (0x01, bytes.fromhex("8dedb5a0f7c6b03e"), "1e-6", '{"$numberDouble":"1e-6"}'),
    (0x01, bytes.fromhex("ea8ca039593e2946"), "1e30", '{"$numberDouble":"1e30"}'),
    (0x01, bytes.fromhex("c976be9f0c24fe40"), "123456.789", '{"$numberDouble":"123456.789"}'),
    (0x09, bytes.fromhex("0100000000000000"), '{"$date":"1970-01-01T00:00:00.001Z"}', '{"$date":{"$numberLong":"1"}}'),
    (0x09, bytes.fromhex("ffdfa69add000000"), '{"$date":"2000-02-28T23:59:59.999Z"}', '{"$date":{"$numberLong":"951782399999"}}'),
    (0x09, bytes.fromhex("000c9b5cbc030000"), '{"$date":"2100-03-01T00:00:00Z"}', '{"$date":{"$numberLong":"4107542400000"}}'),
    (0x10, bytes.fromhex("00000000"), "0", '{"$numberInt":"0"}'),
    (0x10, bytes.fromhex("ffffffff"), "-1", '{"$numberInt":"-1"}'),
    (0x12, bytes.fromhex("ffffffffffffffff"), "-1", '{"$numberLong":"-1"}'),
]

# One of each thing that a line may begin with: an empty array, documents in an array, a null, a scope, an empty document.
NESTED = framed(
    b"\4e\0" + framed(b"") + b"\4a\0" + framed(b"\x030\0" + framed(b"\x10b\0\1\0\0\0") + b"\x0a1\0")
    + b"\x0fc\0" + struct.pack("<i", 10 + len(SCOPE)) + string("f") + SCOPE + b"\3d\0" + framed(b"")
)
INDENTED = """\
{
  "e": [],
  "a": [
    {
      "b": 1
    },
    null
  ],
  "c": {"$code":"f","$scope":{
    "x": 1
  }},
  "d": {}
}"""


def of(tag: int, payload: bytes) -> bytes:
    return framed(bytes([tag]) + b"k\0" + payload)


class Texts(unittest.TestCase):
    def test_each_kind_and_its_borders(self) -> None:
        for tag, payload, relaxed, canonical in EACH + [(tag, payload, text, text) for tag, payload, text in SAME]:
            with self.subTest(relaxed):
                data = of(tag, payload)
                self.assertEqual(bsonraw.to_json(data), '{"k":' + relaxed + "}")
                self.assertEqual(bsonraw.to_json(data, style="relaxed"), '{"k":' + relaxed + "}")
                self.assertEqual(bsonraw.to_json(data, style="canonical"), '{"k":' + canonical + "}")

    def test_documents_without_elements_and_repeated_keys(self) -> None:
        self.assertEqual([bsonraw.to_json(framed(b""), indent=indent) for indent in (False, True)], ["{}", "{}"])
        data = framed(b"\x10a\0\1\0\0\0" + b"\x10\0\3\0\0\0" + b"\x10a\0\2\0\0\0")
        self.assertEqual(bsonraw.to_json(data), '{"a":1,"":3,"a":2}')
        self.assertEqual(bsonraw.to_json(framed(b"\x0a\xc3\xa9\"\x01\0")), r'{"é\"\u0001":null}')

    def test_lines(self) -> None:
        one = '{"e":[],"a":[{"b":1},null],"c":{"$code":"f","$scope":{"x":1}},"d":{}}'
        for indent, wanted in ((False, one), (None, one), (True, INDENTED), (2, INDENTED)):
            self.assertEqual(bsonraw.to_json(NESTED, indent=indent), wanted)
        canonical = INDENTED.replace(" 1", ' {"$numberInt":"1"}')
        self.assertEqual(bsonraw.to_json(NESTED, style="canonical", indent=True), canonical)

    def test_arguments_that_are_none(self) -> None:
        for style in ("Relaxed", "", None, 1, b"relaxed"):
            self.assertRaises(ValueError, bsonraw.to_json, NESTED, style=style)
        for indent in (-1, 17, 1 << 70, "", "  ", 2.0):
            self.assertRaises(ValueError, bsonraw.to_json, NESTED, indent=indent)
        self.assertRaises(TypeError, bsonraw.to_json, NESTED, "relaxed")
        self.assertRaises(TypeError, bsonraw.to_json, NESTED, sort_keys=True)

    def test_levels(self) -> None:
        data = framed(b"")
        for _ in range(499):
            data = framed(b"\3k\0" + data)
        self.assertEqual(bsonraw.to_json(data), '{"k":' * 499 + "{}" + "}" * 499)
        lines = bsonraw.to_json(data, indent=True).split("\n")
        self.assertEqual((len(lines), lines[499], lines[500]), (999, "  " * 499 + '"k": {}', "  " * 498 + "}"))
        data = framed(b"\3k\0" + data)
        with self.assertRaises(BsonError) as caught:
            bsonraw.to_json(data)
        self.assertEqual((caught.exception.reason, caught.exception.path), (Reason.TOO_DEEP, (0,) * 500))
        for _ in range(11_500):
            data = framed(b"\3k\0" + data)
        self.assertEqual(bsonraw.to_json(data, max_depth=12_001), '{"k":' * 12_000 + "{}" + "}" * 12_000)

    def test_large_texts(self) -> None:
        """Each longer than the room that is first made for it, and the next one short again."""
        for count in (1, 10, 1000, 20_000, 600_000):
            data = of(2, string("\1" * count))
            self.assertEqual(bsonraw.to_json(data), '{"k":"' + "\\u0001" * count + '"}')
            data = framed(b"\x7f\0" * count)
            self.assertEqual(bsonraw.to_json(data), "{" + ",".join(['"":{"$maxKey":1}'] * count) + "}")

    def test_threads(self) -> None:
        small, large = of(2, string("é")), framed(b"\x12a\0" + long(1) + b"\x0ab\0" * 60_000)
        wanted = [bsonraw.to_json(data, style=style) for data in (small, large) for style in ("relaxed", "canonical")]
        wrong: List[Any] = []

        def work() -> None:
            for _ in range(20):
                found = [bsonraw.to_json(data, style=style) for data in (small, large) for style in ("relaxed", "canonical")]
                if found != wanted:
                    wrong.append(found)

        threads = [threading.Thread(target=work) for _ in range(8)]
        for thread in threads:
            thread.start()
        for thread in threads:
            thread.join()
        self.assertEqual(wrong, [])


# ---- made documents --------------------------------------------------------------------------------------------------

Pairs = List[Tuple[str, Any]]


class Number(str):
    """The text of a number of JSON."""


def read(text: str) -> Any:
    """JSON with documents as lists of pairs, and with numbers as they are written."""
    return json.loads(text, object_pairs_hook=lambda pairs: ("document", pairs), parse_int=Number, parse_float=Number)


def document(pairs: Pairs) -> Any:
    return ("document", pairs)


def number_of(key: str, text: str, is_canonical: bool) -> Any:
    return document([(key, text)]) if is_canonical else Number(text)


def double_of(payload: bytes, is_canonical: bool) -> Any:
    (value,) = struct.unpack("<d", payload)
    if math.isinf(value) or math.isnan(value):
        return document([("$numberDouble", "NaN" if math.isnan(value) else "Infinity" if value > 0 else "-Infinity")])
    return document([("$numberDouble", value)]) if is_canonical else value


def date_of(millis: int, is_canonical: bool) -> Any:
    if is_canonical or not 0 <= millis <= 253402300799999:
        return document([("$date", document([("$numberLong", str(millis))]))])
    when = datetime(1970, 1, 1) + timedelta(milliseconds=millis)
    return document([("$date", when.isoformat(timespec="milliseconds" if millis % 1000 else "seconds") + "Z")])


def decimal_of(payload: bytes) -> str:
    bits = int.from_bytes(payload, "little")
    sign, top = "-" if bits >> 127 else "", bits >> 122 & 31
    if top >= 30:
        return "NaN" if top == 31 else sign + "Infinity"
    exponent, coefficient = bits >> 113 & 0x3FFF, bits & (1 << 113) - 1
    if top >= 24 or coefficient >= 10**34:
        exponent, coefficient = bits >> 111 & 0x3FFF if top >= 24 else exponent, 0
    return str(Decimal((bits >> 127, tuple(map(int, str(coefficient))), exponent - 6176)))


def value_of(tag: int, inside: Any, is_canonical: bool) -> Any:
    """The value of an element as the slow reader gives it."""
    if tag == 3:
        return document_of(inside, is_canonical)
    if tag == 4:
        return [value_of(tag, inner, is_canonical) for _, tag, inner in inside]
    if tag in (1, 9, 16, 18):
        whole = 0 if tag == 1 else int.from_bytes(inside, "little", signed=True)
        return {
            1: lambda: double_of(inside, is_canonical),
            9: lambda: date_of(whole, is_canonical),
            16: lambda: number_of("$numberInt", str(whole), is_canonical),
            18: lambda: number_of("$numberLong", str(whole), is_canonical),
        }[tag]()
    if tag in (2, 8, 10):
        return inside[4:-1].decode() if tag == 2 else bool(inside[0]) if tag == 8 else None
    return document(wrapped(tag, inside, is_canonical))


def wrapped(tag: int, inside: Any, is_canonical: bool) -> Pairs:
    if tag == 5:
        data = inside[9:] if inside[4] == 2 else inside[5:]
        return [("$binary", document([("base64", base64.b64encode(data).decode()), ("subType", f"{inside[4]:02x}")]))]
    if tag == 11:
        pattern, options, _ = inside.decode().split("\0")
        return [("$regularExpression", document([("pattern", pattern), ("options", options)]))]
    if tag == 12:
        return [("$dbPointer", document([("$ref", inside[4:-13].decode()), ("$id", document([("$oid", inside[-12:].hex())]))]))]
    if tag == 15:
        return [("$code", inside[0][4:-1].decode()), ("$scope", document_of(inside[1], is_canonical))]
    if tag == 17:
        increment, seconds = struct.unpack("<II", inside)
        return [("$timestamp", document([("t", Number(seconds)), ("i", Number(increment))]))]
    return {
        6: lambda: [("$undefined", True)],
        7: lambda: [("$oid", inside.hex())],
        13: lambda: [("$code", inside[4:-1].decode())],
        14: lambda: [("$symbol", inside[4:-1].decode())],
        19: lambda: [("$numberDecimal", decimal_of(inside))],
        0x7F: lambda: [("$maxKey", Number(1))],
        0xFF: lambda: [("$minKey", Number(1))],
    }[tag]()


def document_of(values: plain.Values, is_canonical: bool) -> Any:
    return document([(key, value_of(tag, inside, is_canonical)) for key, tag, inside in values])


def same(found: Any, wanted: Any) -> bool:
    """Whether a text that was read is what is expected: a float is any text that reads back as it."""
    if isinstance(wanted, float):
        is_number = isinstance(found, str) and any(mark in found for mark in ".e")
        return is_number and struct.pack("<d", float(found)) == struct.pack("<d", wanted)
    if isinstance(wanted, (list, tuple)):
        return type(found) is type(wanted) and len(found) == len(wanted) and all(map(same, found, wanted))
    return type(found) is type(wanted) and bool(found == wanted)


class Made(unittest.TestCase):
    def test_made_documents_beside_a_slow_printer(self) -> None:
        count = 0
        for data in all_made(44, 20_000):
            error = bsonraw.first_fault(data)
            if error is not None:
                with self.assertRaises(BsonError) as caught:
                    bsonraw.to_json(data)
                self.assertEqual(caught.exception.__reduce__(), error.__reduce__())
                continue
            values = plain.values(data)
            for style in ("relaxed", "canonical"):
                found = read(bsonraw.to_json(data, style=style, indent=count % 2 == 1))
                self.assertTrue(same(found, document_of(values, style == "canonical")), data.hex())
            count += 1
        self.assertGreater(count, 10_000)


if __name__ == "__main__":
    unittest.main()
