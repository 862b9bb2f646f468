"""Made documents, whole and damaged, beside a slow reader of the format and beside MongoDB's Python package."""

import re
import struct
import unittest
import uuid
from datetime import datetime, timedelta, timezone
from typing import Any, List, Optional, Tuple, Union

import bsonraw
import plain
from bsonraw import Binary, Code, DatetimeMS, DBPointer, Int64, MaxKey, MinKey, Pairs, Regex, Symbol, Undefined
from bsonraw._native import Raw
from lines import canon, check_line, line, list_lines, without_key
from made import KEPT, all_made, cut_off, flipped
from test_documents import WORKED

try:
    import bson
    from bson.codec_options import CodecOptions

    MONGODB = CodecOptions(uuid_representation=4, tz_aware=True)
except ImportError:
    bson = None

COUNT = 20_000
MADE: List[bytes] = []
OTHERS = [
    "15000000 023000 02000000ff00 103100 07000000 00",
    "0f000000 0f6100 030000 08620001 00",
    "15000000 056200 08000000 02 04000000 01020304 00",
    "15000000 08626f6f6c00 01 1069333200 40420f00 00",
    "0c000000 106100 02000000 00",
    "10000000 046100 08000000 0a3000 00 00",
]
"""Documents beside the worked ones."""
EPOCH = datetime(1970, 1, 1, tzinfo=timezone.utc)


def setUpModule() -> None:
    MADE.extend(all_made(20_151, COUNT))


def decoded(data: bytes, **options: Any) -> Any:
    """What decode returns, or its error."""
    try:
        return bsonraw.decode(data, **options)
    except bsonraw.BsonError as error:
        return error


def string(text: str) -> bytes:
    raw = text.encode()
    return struct.pack("<i", len(raw) + 1) + raw + b"\0"


def payload(value: Any) -> Tuple[int, Any]:
    """The tag of a decoded value, and its payload or what is inside; written from the format, with none of our code."""
    if isinstance(value, Pairs):
        return 3, [(key, *payload(item)) for key, item in value]
    if isinstance(value, list):
        return 4, [payload(item) for item in value]
    if isinstance(value, Code) and value.scope is not None:
        return 15, (string(value.code), payload(value.scope)[1])
    return leaf(value)


def leaf(value: Any) -> Tuple[int, bytes]:
    kind = type(value)
    if kind is Raw or isinstance(value, Raw):
        return {12: 7, 8: 17, 16: 19}[len(bytes(value))], bytes(value)
    if kind is Binary:
        data = struct.pack("<i", len(value.data)) + value.data if value.subtype == 2 else value.data
        return 5, struct.pack("<iB", len(data), value.subtype) + data
    if kind is datetime:
        return 9, struct.pack("<q", (value - EPOCH) // timedelta(milliseconds=1))
    plainly = {
        float: (1, lambda: struct.pack("<d", value)),
        str: (2, lambda: string(value)),
        bytes: (5, lambda: struct.pack("<iB", len(value), 0) + value),
        Undefined: (6, lambda: b""),
        bool: (8, lambda: bytes([value])),
        DatetimeMS: (9, lambda: struct.pack("<q", value)),
        type(None): (10, lambda: b""),
        Regex: (11, lambda: b"".join(text.encode() + b"\0" for text in (value.pattern, value.options))),
        DBPointer: (12, lambda: string(value.namespace) + bytes(value.id)),
        Code: (13, lambda: string(value.code)),
        Symbol: (14, lambda: string(value)),
        int: (16, lambda: struct.pack("<i", value)),
        Int64: (18, lambda: struct.pack("<q", value)),
        MaxKey: (0x7F, lambda: b""),
        MinKey: (0xFF, lambda: b""),
    }
    tag, made = plainly[kind]
    return tag, made()


def without_array_keys(values: plain.Values) -> List[Any]:
    """What the slow reader found, in the form of `payload`."""
    found: List[Any] = []
    for key, tag, inside in values:
        if tag == 4:
            inside = [item[1:] for item in without_array_keys(inside)]
        elif tag == 3:
            inside = without_array_keys(inside)
        elif tag == 15:
            inside = (inside[0], without_array_keys(inside[1]))
        found.append((key, tag, inside))
    return found


class BesideAPlainReader(unittest.TestCase):
    def form_of(self, data: bytes) -> Union[bytes, str]:
        """The canonical form or its line, once all that is said of these bytes was compared."""
        form, wanted = canon(data), plain.canon(data)
        self.assertEqual(list_lines(data), [without_key(text) for text in plain.list_lines(data)], data.hex())
        self.assertEqual(form, wanted if isinstance(wanted, bytes) else without_key(wanted), data.hex())
        self.assertEqual(check_line(data), plain.check_line(data), data.hex())
        return form

    def test_worked_documents_cut_off_and_with_each_bit_flipped(self) -> None:
        for data in map(bytes.fromhex, [document for document, *_ in WORKED] + OTHERS):
            for damaged in (*cut_off(data), *flipped(data)):
                self.form_of(damaged)

    def test_elements_forms_and_verdicts(self) -> None:
        forms = faults = changed = 0
        for data in MADE:
            form = self.form_of(data)
            forms += isinstance(form, bytes)
            faults += isinstance(form, str)
            changed += isinstance(form, bytes) and form != data
        self.assertGreater(min(forms, faults, changed), COUNT // 10)

    def test_values(self) -> None:
        count = 0
        for data in MADE:
            pairs = decoded(data, pairs=True)
            if isinstance(pairs, bsonraw.BsonError):
                self.assertIsInstance(plain.canon(data), str, data.hex())
                continue
            self.assertEqual(payload(pairs), (3, without_array_keys(plain.values(data))), data.hex())
            count += 1
        self.assertGreater(count, COUNT // 2)

    def test_what_is_encoded_again_is_the_form(self) -> None:
        count = own = 0
        for data in MADE:
            form = plain.canon(data)
            if isinstance(form, bytes):
                self.assertEqual(bsonraw.encode(bsonraw.decode(data)), form, data.hex())
                count += 1
                own += form == data
        self.assertGreater(min(count - own, own), COUNT // 10)

    def test_places_of_faults(self) -> None:
        count = 0
        for data in MADE:
            error = bsonraw.first_fault(data)
            if error is None or error.kind is bsonraw.ErrorKind.NO_DOCUMENT:
                continue
            place = plain.first_fault(data)
            assert place is not None
            said = (line(error)[6:], error.path, error.offset, error.key)
            self.assertEqual(said, tuple(place), data.hex())
            for call in (bsonraw.canonical, bsonraw.decode, bsonraw.walk, bsonraw.to_json):
                with self.assertRaises(bsonraw.BsonError) as caught:
                    call(data)
                self.assertEqual(caught.exception.args, error.args)
                self.assertEqual(caught.exception.__reduce__(), error.__reduce__())
            if error.key is not None:
                self.assertEqual((len(error.keys), len(error.path)), (len(error.path),) * 2)
            count += 1
        self.assertGreater(count, COUNT // 10)

    def test_each_element_of_all_levels_is_found_by_its_path(self) -> None:
        count = 0
        for data in MADE[::10]:
            if bsonraw.check(data) is not None:
                continue
            for path, element in bsonraw.walk(data):
                found = bsonraw.find(data, path)
                if any(step == "" or "." in step for step in path if isinstance(step, str)) or "15" in kinds(data, path):
                    continue
                assert found is not None, (data.hex(), path)
                self.assertEqual((found, found.offset), (element, element.offset))
                self.assertEqual(bsonraw.find(data, ".".join(map(str, path))), element)
                self.assertEqual(payload_of(found), payload_of(element))
                count += 1
        self.assertGreater(count, COUNT // 10)

    def test_each_key_is_found(self) -> None:
        for data in MADE[:500]:
            try:
                plain.envelope(data)
            except plain.Refused:
                continue
            frames, stop = plain.walk(data)
            for key in {frame.key for frame in frames} | {"not there"}:
                self.assertEqual(self.look_up(data, key), self.wanted(frames, stop, key), data.hex())

    @staticmethod
    def look_up(data: bytes, key: str) -> object:
        try:
            found = bsonraw.get(data, key)
        except bsonraw.BsonError as error:
            return error.kind.name
        return found and (found.kind, bytes(found.payload))

    @staticmethod
    def wanted(frames: List[plain.Frame], stop: Optional[plain.Fault], key: str) -> object:
        for frame in frames:
            if frame.key == key:
                return frame.tag, frame.payload
        if stop is not None:
            return {"utf8": "NOT_UTF8", "malformed": "MALFORMED"}[stop.kind]
        return None


def kinds(data: bytes, path: Tuple[Any, ...]) -> List[str]:
    """The kinds of the elements on the way, of which find doesn't go into a code with scope."""
    return [str(int(element.kind)) for at, element in bsonraw.walk(data) if at == path[: len(at)] and at != path]


def payload_of(element: bsonraw.Element) -> bytes:
    return bytes(element.payload)


def same(one: Any, two: Any) -> bool:
    """Whether two values of MongoDB's classes are the same, the order of a dict and a float's bits counted."""
    if isinstance(two, uuid.UUID):
        two = bson.binary.Binary(two.bytes, 4)
    if type(one) is not type(two):
        return False
    if isinstance(one, dict):
        return list(one) == list(two) and all(same(one[key], two[key]) for key in one)
    if isinstance(one, list):
        return len(one) == len(two) and all(map(same, one, two))
    if isinstance(one, float):
        return struct.pack("<d", one) == struct.pack("<d", two)
    if bson is not None and isinstance(one, bson.code.Code):
        return str(one) == str(two) and (one.scope is two.scope or same(one.scope, two.scope))
    return bool(one == two)


@unittest.skipIf(bson is None, "MongoDB's package bson isn't there (Debian: python3-bson)")
class BesideMongoDB(unittest.TestCase):
    """What MongoDB's package decodes and encodes is the canonical form, of what it keeps as it is."""

    def test_forms_and_values(self) -> None:
        count = damaged = 0
        for number, data in enumerate(MADE):
            form = canon(data)
            if isinstance(form, str) or not is_kept(data):
                continue
            values = bson.BSON(data).decode(MONGODB)
            again = bson.BSON.encode(values, codec_options=MONGODB)
            self.assertEqual(form, again, data.hex())
            self.assertEqual(bsonraw.check(data) is None, again == data, data.hex())
            self.assertTrue(same(bsonraw.decode(data, types="bson", tz_aware=True), values), data.hex())
            self.assertEqual(bsonraw.encode(values), again, data.hex())
            count += 1
            damaged += number % 2
        self.assertGreater(count, COUNT // 4)
        self.assertGreater(damaged, COUNT // 40)

    def test_classes_of_mongodb_are_taken(self) -> None:
        dates = {"on": datetime(2001, 2, 3, 4, 5, 6, 789000), "ref": bson.dbref.DBRef("c", 1), "son": bson.son.SON(b=1, a=2)}
        for value in (dates, bson.son.SON([("z", 1), ("a", [bson.int64.Int64(1)])])):
            self.assertEqual(bsonraw.encode(value), bson.BSON.encode(value))


def is_kept(data: bytes) -> bool:
    """Whether MongoDB's package keeps all values of a document: its kinds, dates, options and UUIDs are Python's."""
    for frame in plain.walk(data)[0]:
        tag, _, payload = frame
        nested = plain.judge(frame)
        if tag not in KEPT + (3, 4) or nested is not None and not is_kept(nested):
            return False
        if tag == 9 and not -62_135_596_800_000 <= int.from_bytes(payload, "little", signed=True) < 253_402_300_800_000:
            return False
        if tag == 11 and not re.fullmatch(b"i?l?m?s?u?x?", payload.split(b"\0")[1]):
            return False
        if tag == 5 and (payload[4] == 3 or payload[4] == 4 and len(payload) != 21):
            return False
    return True


if __name__ == "__main__":
    unittest.main()
