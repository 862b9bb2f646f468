"""Damaged dumps: with resync=True what lies whole in them is kept. The damage is of the kinds that dumps have, and the seed is drawn."""

import io
import os
import random
import re
import struct
import unittest
from typing import Callable, Iterator, List, Optional, Tuple

import bsonraw
from bsonraw import Binary, BsonError, Int64, ObjectId

SEED = int(os.environ.get("SEED", "0")) or random.randrange(1, 1 << 24)
COUNT = 400


def some_bytes(r: random.Random, count: int) -> bytes:
    """What randbytes gives, which 3.8 doesn't have."""
    return r.getrandbits(8 * count).to_bytes(count, "little") if count else b""


def document(r: random.Random, number: int) -> bytes:
    found: dict = {"_id": ObjectId(some_bytes(r, 12)), "n": number}
    kind = r.randrange(4)
    if kind == 0:
        found["items"] = [{"sku": f"S{r.randrange(10**6)}", "price": r.random()} for _ in range(r.randrange(12))]
    elif kind == 1:
        found["blob"] = Binary(some_bytes(r, r.randrange(2000)), 0)
    elif kind == 2:
        found.update(tags=["naïve", "東京"] * r.randrange(10), big=Int64(r.randrange(-(2**63), 2**63)), nothing=None)
    else:
        found["text"] = "a line, " * r.randrange(10, 200)
    return bsonraw.encode(found)


def with_lengths(whole: List[bytes], wrong: Callable[[int, int], Optional[int]]) -> bytes:
    lengths = [wrong(number, len(one)) for number, one in enumerate(whole)]
    return b"".join(one if n is None else struct.pack("<i", n) + one[4:] for n, one in zip(lengths, whole))


def spliced(whole: List[bytes], r: random.Random, cut: int, put: Callable[[], bytes]) -> bytes:
    data = bytearray(b"".join(whole))
    for at in sorted((r.randrange(len(data)) for _ in range(5)), reverse=True):
        data[at : at + cut] = put()
    return bytes(data)


def flipped(whole: List[bytes], offsets: Callable[[], int], r: random.Random, times: int) -> bytes:
    data = bytearray(b"".join(whole))
    for _ in range(times):
        data[offsets()] ^= 1 << r.randrange(8)
    return bytes(data)


def damaged(whole: List[bytes], r: random.Random) -> Iterator[Tuple[str, bytes]]:
    """Dumps of these documents with damage of each kind."""
    starts = [sum(map(len, whole[:number])) for number in range(len(whole))]
    size = sum(map(len, whole))
    yield "a third of lengths is huge", with_lengths(whole, lambda i, n: 0x7FFFFFFF if i % 3 == 0 else None)
    yield "a third is negative", with_lengths(whole, lambda i, n: -n if i % 3 == 1 else None)
    yield "a twentieth is 7 more", with_lengths(whole, lambda i, n: n + 7 if i % 20 == 0 else None)
    yield "a tenth is 3 less", with_lengths(whole, lambda i, n: n - 3 if i % 10 == 5 else None)
    yield "one is half the dump", with_lengths(whole, lambda i, n: size // 2 if i == len(whole) // 7 else None)
    yield "some span the next document", with_lengths(whole, lambda i, n: n + len(whole[i + 1]) if i % 50 == 9 else None)
    yield "bits of lengths are flipped", flipped(whole, lambda: r.choice(starts) + r.randrange(4), r, 10)
    yield "bits are flipped", flipped(whole, lambda: r.randrange(size), r, 60)
    yield "pages of 0", spliced(whole, r, 1024, lambda: bytes(1024))
    yield "pages of 255", spliced(whole, r, 1024, lambda: b"\xff" * 1024)
    yield "cuts", spliced(whole, r, 777, lambda: b"")
    yield "insertions", spliced(whole, r, 0, lambda: some_bytes(r, r.randrange(1, 4000)))
    yield "the tail is cut", b"".join(whole)[:-25]
    yield "every second tag", b"".join(one[:4] + b"\x66" + one[5:] if i % 2 == 0 else one for i, one in enumerate(whole))


def lying_whole(whole: List[bytes], data: bytes) -> List[Tuple[int, bytes]]:
    """Those that are in the data as they were, in their order, and where."""
    at, found = 0, []
    for one in whole:
        place = data.find(one, at)
        if place >= 0:
            found.append((place, one))
            at = place + len(one)
    return found


KEY = re.compile(rb"[\3\4\x10]([^\0-\x1f]{1,64})\0\Z")


def is_behind_key(data: bytes, place: int) -> bool:
    """Whether the bytes before a place end as before a nested document or an int32: with its tag, a key in UTF-8 and a 0."""
    found = KEY.search(data[max(0, place - 66) : place])
    try:
        return found is not None and len(found.group(1).decode()) > 0
    except UnicodeDecodeError:
        return False


def explained(data: bytes, at: int) -> int:
    """Where the document ends that begins here, if its elements follow one another up to there, whatever their values are; or where it begins."""
    size = struct.unpack("<i", data[at : at + 4])[0] if at + 4 <= len(data) else 0
    try:
        return at + size * (at + size <= len(data) and len(list(bsonraw.elements(data[at : at + size]))) > 0)
    except BsonError:
        return at


def is_in_explained(data: bytes, place: int, kept: List[Tuple[int, bytes]]) -> bool:
    """Whether damaged documents whose lengths are believed go on from what was kept last over this place."""
    at = max((at + len(one) for at, one in kept if at + len(one) <= place), default=0)
    while at <= place:
        end = explained(data, at)
        if end <= at:
            return False
        at = end
    return True


def may_be_lost(place: int, one: bytes, data: bytes, kept: List[Tuple[int, bytes]]) -> bool:
    """Whether a document may be nested, or lies in one that nobody wrote and that has no damage, or in a damaged one whose length is believed."""
    overlaps = any(at < place + len(one) and place < at + len(other) for at, other in kept)
    return overlaps or is_behind_key(data, place) or is_in_explained(data, place, kept)


class Resync(unittest.TestCase):
    def test_what_lies_whole_is_kept(self) -> None:
        r = random.Random(SEED)
        whole = [document(r, number) for number in range(COUNT)]
        for name, data in damaged(whole, r):
            with self.subTest(name, seed=SEED):
                lie = lying_whole(whole, data)
                kept = list(bsonraw.documents(data, resync=True))
                self.assertGreaterEqual(len(lie), COUNT // 2)
                lost = [one for one in lie if one not in set(kept)]
                self.assertTrue(all(may_be_lost(*one, data, kept) for one in lost), len(lost))
                self.assertLessEqual(len(lost), 1 + len(lie) // 50)
                values = bsonraw.decode_all(data, errors="skip", resync=True)
                self.assertEqual([bsonraw.encode(one) for one in values], [bsonraw.canonical(one) for _, one in kept])

    def test_places_and_errors(self) -> None:
        first, second, third, last = (bsonraw.encode({"n": number}) for number in range(4))
        data = first + b"\xff\xff\xff\x7f" + second + third + b"\x09\0\0\0\x08a\0\2\0" + last
        wanted = [(0, first), (len(first) + 4, second), (len(first) + 4 + len(second), third), (len(data) - len(last), last)]
        for source in (data, bytearray(data), memoryview(data), io.BytesIO(data)):
            self.assertEqual(list(bsonraw.documents(source, resync=True)), wanted)
        told: List[BsonError] = []
        values = bsonraw.decode_all(data, errors=told.append, resync=True)
        self.assertEqual(values, [{"n": 0}, {"n": 1}, {"n": 2}, {"n": 3}])
        self.assertEqual([error.offset for error in told], [len(first), len(first) + 4 + 2 * len(second) + 4])
        self.assertEqual(bsonraw.columns(data, errors="skip", resync=True), {"n": [0, 1, 2, 3]})
        self.assertEqual(bsonraw.columns(io.BytesIO(data), paths=["n"], typed=True, errors="skip", resync=True)["n"].to_list(), [0, 1, 2, 3])

    def test_without_it_nothing_changes(self) -> None:
        first = bsonraw.encode({"n": 1})
        data = first + b"\xff\xff\xff\x7f" + first + first
        self.assertEqual(bsonraw.decode_all(data, errors="skip"), [{"n": 1}])
        with self.assertRaises(BsonError):
            list(bsonraw.documents(data))
        with self.assertRaises(BsonError):
            bsonraw.decode_all(data, resync=True)

    def test_a_lone_document(self) -> None:
        one, empty = bsonraw.encode({"n": 1}), bsonraw.encode({})
        data = b"\xff" * 5 + one + b"\xff" * 5 + empty + b"\xff" * 5 + one + empty
        wanted = [(5, one), (32, one), (44, empty)]
        self.assertEqual(list(bsonraw.documents(data, resync=True)), wanted)

    def test_nothing_inside_becomes_a_document(self) -> None:
        nested, text = bsonraw.encode({"a": {"n": 1}}), bsonraw.encode({"t": "x", "stars": 5}).replace(b"x\0", b"\xe9\0")
        held = bsonraw.encode({"b": Binary(bsonraw.encode({"n": 1}), 0), "t": True}).replace(b"\1\0", b"\2\0")
        last = bsonraw.encode({"n": 2})
        for one in (b"\xff\xff\xff\xff" + nested[4:], text, held):
            self.assertEqual(list(bsonraw.documents(one + last, resync=True)), [(len(one), last)])

    def test_limits(self) -> None:
        deep = bsonraw.encode({"a": {"b": {"c": 1}}})
        flat = bsonraw.encode({"n": 1})
        data = b"\xff" * 9 + deep + flat + flat
        self.assertEqual(bsonraw.decode_all(data, errors="skip", resync=True, max_depth=2), [{"n": 1}, {"n": 1}])
        self.assertEqual(bsonraw.decode_all(data, errors="skip", resync=True, max_bytes=len(flat)), [{"n": 1}, {"n": 1}])
        self.assertEqual([one for _, one in bsonraw.documents(data, resync=True, max_bytes=len(flat))], [flat, flat])


if __name__ == "__main__":
    unittest.main()
