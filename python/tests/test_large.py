"""A document of many bytes is read another way than a small one: with the same values, and the same errors."""

import ctypes
import itertools
import random
import struct
import unittest
from typing import Any, Iterator, List, Tuple

import bsonraw
from bsonraw import BsonError, Reason
from made import all_made, framed, string

FRONT = b"\x02front\0" + string("x" * 6000)
INSIDE = b"\x03k\0"


def outcome(data: bytes, **options: Any) -> Tuple[Any, ...]:
    """The value, or what is said of the fault, its offset from the end on."""
    try:
        return (repr(bsonraw.decode(data, **options)),)
    except BsonError as error:
        offset = None if error.offset is None else len(data) - error.offset
        return error.kind, error.reason, error.key, offset, error.path, error.keys


def behind(found: Tuple[Any, ...], front: str, path: Tuple[int, ...], keys: Tuple[str, ...]) -> Tuple[Any, ...]:
    """The same of a document that has something more at its front."""
    if len(found) == 1:
        return (front + found[0][1:],) if found[0] != "{}" else (front[:-2] + "}",)
    kind, reason, key, offset, numbers, names = found
    return kind, reason, key, offset, (path[0] + numbers[0], *numbers[1:]), names


def is_document(data: bytes) -> bool:
    return len(data) >= 5 and data[:4] == struct.pack("<i", len(data)) and data[-1] == 0


class Large(unittest.TestCase):
    def test_made_documents(self) -> None:
        count = faults = 0
        front = "{'front': '" + "x" * 6000 + "', "
        for data in filter(is_document, all_made(31, 3000)):
            small = outcome(data)
            self.assertEqual(outcome(framed(FRONT + data[4:-1])), behind(small, front, (1,), ("front",)), data.hex())
            count += 1
            faults += len(small) > 1
        self.assertGreater(min(count - faults, faults), 500)

    def test_more_than_32_bits_of_bytes(self) -> None:
        document = framed(FRONT)
        try:
            data = bytes((1 << 32) + len(document))  # pages that nobody writes take no memory
        except MemoryError:
            self.skipTest("there is no room for 4 GiB")
        ctypes.memmove(id(data) + bytes.__basicsize__ - 1, document, len(document))
        self.assertEqual(data[: len(document)], document)
        for call in (bsonraw.decode, bsonraw.check):
            with self.assertRaises(BsonError) as caught:
                call(data, max_bytes=1 << 40)
            self.assertEqual(caught.exception.reason, Reason.LENGTH_INCORRECT)

    def test_documents_in_others(self) -> None:
        """Small ones in a large array, and large ones in one another."""
        some = [data for data in all_made(32, 400) if bsonraw.first_fault(data) is None]
        values = list(map(bsonraw.decode, some))
        many = framed(b"".join(b"\x03%d\0" % number + data for number, data in enumerate(some)))
        for options in ({}, {"pairs": True}, {"tz_aware": False, "uuid": True}, {"object_hook": lambda document: list(document.items())}):
            wanted = [bsonraw.decode(data, **options) for data in some]
            found = bsonraw.decode(framed(b"\4a\0" + many + b"\3b\0" + framed(FRONT + b"\4c\0" + many)), **options, max_bytes=1 << 30)
            inside = found["a"] if isinstance(found, dict) else found[0][1]
            self.assertEqual(repr(inside), repr(wanted))
        self.assertEqual(repr(found[1][1][1][1]), repr(wanted))
        self.assertEqual(len(values), len(wanted))

    def test_levels(self) -> None:
        for large in (b"", FRONT):
            data = framed(large)
            for _ in range(9):
                data = framed(large + INSIDE + data)
            self.assertEqual(bsonraw.encode(bsonraw.decode(data, max_depth=10)), data)
            with self.assertRaises(BsonError) as caught:
                bsonraw.decode(data, max_depth=9)
            self.assertEqual((caught.exception.reason, len(caught.exception.path)), (bsonraw.Reason.TOO_DEEP, 9))

    def test_texts(self) -> None:
        """Python's own decoder says which bytes are UTF-8, and what they are."""
        good = faults = 0
        for raw in sequences():
            data = framed(FRONT + b"\2k\0" + struct.pack("<i", len(raw) + 1) + raw + b"\0")
            try:
                self.assertEqual(bsonraw.decode(data)["k"], raw.decode())
                good += 1
            except UnicodeDecodeError:
                self.fail("what decode took isn't UTF-8")
            except BsonError as error:
                self.assertEqual((error.kind, error.key), (bsonraw.ErrorKind.NOT_UTF8, "k"))
                self.assertRaises(UnicodeDecodeError, raw.decode)
                faults += 1
        self.assertGreater(min(good, faults), 1000)

    def test_numbers_in_a_row(self) -> None:
        """Elements of one kind in a row, of an array and of a document, with keys of any length, whole or damaged."""
        rng = random.Random(33)
        faults = 0
        for number in range(1200):
            is_array = number % 4 < 2
            data = framed((b"\4a\0" if is_array else INSIDE) + numbers(rng, is_array, damage=number % 2 == 1))
            element = bsonraw.get(data, "a" if is_array else "k")
            wanted: List[Any] = []
            try:
                wanted.extend(inner.value if is_array else (inner.key, inner.value) for inner in bsonraw.elements(element.payload))
                self.assertEqual(repr(list(bsonraw.decode(data, pairs=True)[0][1])), repr(wanted))
                self.assertEqual(repr(bsonraw.decode(data)), repr({element.key: wanted if is_array else dict(wanted)}))
            except BsonError as error:
                with self.assertRaises(BsonError) as caught:
                    bsonraw.decode(data)
                told = caught.exception
                self.assertEqual((told.kind, told.reason, told.key, told.offset), (error.kind, error.reason, error.key, error.offset + element.offset + 3))
                self.assertEqual(told.path, (0, len(wanted)))
                faults += 1
        self.assertGreater(faults, 100)

    def test_long_texts(self) -> None:
        """Texts of letters of one to four bytes in runs, whole or damaged, beside Python's own decoder."""
        rng = random.Random(34)
        borders = "\x01\x7f", "\x80\u07ff", "\u0800\ud7ff\ue000\uffff", "\U00010000\U0010ffff", "aé", "日本é", "x日"
        good = faults = 0
        for number in range(3000):
            length, raw = rng.choice((20, 60, 300, 5000)), bytearray()
            while len(raw) < length:
                raw += ("".join(rng.choices(rng.choice(borders), k=rng.choice((1, 2, 9, 40))))).encode()
            if number % 3 == 0:
                raw[rng.randrange(len(raw))] = rng.choice(b"\x01\x7f\x80\xbf\xc0\xc2\xe0\xed\xf0\xf4\xff")
            if number % 30 == 0:
                del raw[-1]
            data = framed(b"\2k\0" + struct.pack("<i", len(raw) + 1) + raw + b"\0")
            try:
                wanted = raw.decode()
            except UnicodeDecodeError:
                self.assertRaises(BsonError, bsonraw.decode, data)
                faults += 1
                continue
            self.assertEqual(bsonraw.decode(data), {"k": wanted})
            good += 1
        self.assertGreater(min(good, faults), 500)


def numbers(rng: random.Random, is_array: bool, damage: bool) -> bytes:
    sizes = {1: 8, 9: 8, 10: 0, 16: 4, 18: 8, 8: 1}
    body, tag = b"", 16
    keys = ["", "x", "1x", "é", "00", "x" * 300]
    for number in range(700):
        if rng.random() < 0.02:
            tag = rng.choice(list(sizes))
        usual = str(number) if is_array else f"{rng.randrange(10 ** rng.randrange(1, 20)):x}"
        key = (rng.choice(keys) if rng.random() < 0.01 else usual).encode()
        raw = struct.pack("<q", rng.randrange(1 << 40))[: sizes[tag]] if tag != 8 else b"\1"
        body += bytes([tag]) + key + b"\0" + raw
    if damage:
        at = rng.choice((rng.randrange(len(body)), len(body) - rng.randrange(1, 20)))
        body = body[:at] + bytes([rng.choice([0, 1, 0x30, 0x39, 0x3A, 0xC3, 0xFF])]) + body[at + 1 :]
    return framed(body)


def sequences() -> Iterator[bytes]:
    """UTF-8 and what is nearly that: each first byte with those after it at their borders, alone and in other texts."""
    seconds = (b"", b"\x7f", b"\x80", b"\x8f", b"\x90", b"\x9f", b"\xa0", b"\xbf", b"\xc0")
    thirds = (b"", b"\x41", b"\x80", b"\xbf")
    for first, second, third in itertools.product(range(0x7E, 0x100), seconds, thirds):
        one = bytes([first]) + second + third
        yield one
        yield one + b"\x80"
        yield "é".encode() + one + b"\xbf" + "日x".encode()


if __name__ == "__main__":
    unittest.main()
