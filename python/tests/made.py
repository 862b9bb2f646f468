"""Documents made at random from a seed: with a value of each kind, canonical or not, whole or damaged."""

import random
import struct
from typing import Iterator

LETTERS = "abcdefghijklmnopqrstuvwxyz é日😀"
"""No key is _id, which MongoDB's package puts first."""

KEPT = (1, 2, 5, 7, 8, 9, 10, 11, 13, 15, 16, 17, 18, 19, 0x7F, 0xFF)
"""Kinds that MongoDB's Python package decodes and encodes as they are; of the others it makes another kind."""
ALL = KEPT + (6, 12, 14)


def string(value: str) -> bytes:
    raw = value.encode()
    return struct.pack("<i", len(raw) + 1) + raw + b"\0"


def framed(body: bytes) -> bytes:
    """The document of these elements."""
    return struct.pack("<i", len(body) + 5) + body + b"\0"


class Maker:
    """Makes documents of these kinds. Loose ones have any keys in arrays, and options in any order."""

    def __init__(self, rng: random.Random, tags: tuple = ALL, is_loose: bool = False) -> None:
        self.rng = rng
        self.tags = tags
        self.is_loose = is_loose

    def bytes(self, size: int) -> bytes:
        return bytes(self.rng.randrange(256) for _ in range(size))

    def text(self, size: int = 12) -> str:
        return "".join(self.rng.choice(LETTERS) for _ in range(self.rng.randrange(size)))

    def double(self) -> bytes:
        some = [0.0, -0.0, 1.5, self.rng.uniform(-1e9, 1e9), float("inf"), float("nan")]
        return struct.pack("<d", self.rng.choice(some))

    def binary(self) -> bytes:
        subtype = self.rng.choice([0, 0, 1, 2, 4, 5, 128])
        raw = self.bytes(16 if subtype == 4 else self.rng.randrange(9))
        if subtype == 2:
            raw = struct.pack("<i", len(raw)) + raw
        return struct.pack("<iB", len(raw), subtype) + raw

    def regex(self) -> bytes:
        options = self.rng.sample("ilmsux", self.rng.randrange(4))
        if not self.is_loose:
            options.sort()
        return self.text().encode() + b"\0" + "".join(options).encode() + b"\0"

    def scoped(self, depth: int) -> bytes:
        parts = string(self.text()) + self.document(depth + 1)
        return struct.pack("<i", len(parts) + 4) + parts

    def payload(self, tag: int, depth: int) -> bytes:
        if tag in (2, 13, 14):
            return string(self.text())
        if tag == 9:  # years that Python knows
            return struct.pack("<q", self.rng.randrange(-(10**12), 10**13))
        if tag == 8:
            return bytes([self.rng.randrange(2)])
        if tag == 12:
            return string(self.text()) + self.bytes(12)
        if tag == 15:
            return self.scoped(depth)
        if tag in (1, 5, 11):
            return {1: self.double, 5: self.binary, 11: self.regex}[tag]()
        return self.bytes({7: 12, 16: 4, 17: 8, 18: 8, 19: 16}.get(tag, 0))

    def value(self, depth: int) -> bytes:
        """A tag and, with no key yet, its payload."""
        if depth < 4 and self.rng.random() < 0.25:
            tag = self.rng.choice((3, 4))
            return bytes([tag]) + self.document(depth + 1, tag == 4)
        tag = self.rng.choice(self.tags)
        return bytes([tag]) + self.payload(tag, depth)

    def document(self, depth: int = 0, is_array: bool = False) -> bytes:
        """A document without repeated keys, or an array's."""
        body = b""
        keys = set()
        for number in range(self.rng.randrange(7 if depth else 12)):
            key = str(number) if is_array and not self.is_loose else self.text(5)
            if key not in keys:
                keys.add(key)
                value = self.value(depth)
                body += value[:1] + key.encode() + b"\0" + value[1:]
        return framed(body)

    def damaged(self, data: bytes) -> bytes:
        """The document with a byte changed, or a part cut out, repeated or overwritten; mostly with its length put right."""
        way = self.rng.randrange(6)
        at = self.rng.randrange(4, len(data))
        to = min(len(data), at + self.rng.randrange(1, 8))
        if way <= 1:
            data = data[:at] + bytes([data[at] ^ 1 << self.rng.randrange(8)]) + data[at + 1 :]
        elif way == 2:
            data = data[:at] + data[to:]
        elif way == 3:
            data = data[:to] + data[at:]
        elif way == 4:
            data = data[:at] + struct.pack("<i", self.rng.choice([-1, 0, 1, 4, 5, len(data)])) + data[at + 4 :]
        else:
            data = data[:at]
        return framed(data[4:-1]) if self.rng.random() < 0.9 else data


def cut_off(data: bytes) -> Iterator[bytes]:
    """The document cut off at each length, with its header and its last byte put right."""
    for size in range(5, len(data) + 1):
        yield framed(data[4 : size - 1])


def flipped(data: bytes) -> Iterator[bytes]:
    """The document with each of its bits flipped."""
    for at, byte in enumerate(data):
        for bit in range(8):
            yield data[:at] + bytes([byte ^ 1 << bit]) + data[at + 1 :]


def with_repeats(data: bytes) -> bytes:
    """The document with each of its elements twice."""
    return framed(data[4:-1] * 2)


def all_made(seed: int, count: int) -> Iterator[bytes]:
    """This many documents, half of them of those kinds that MongoDB's package keeps, half of them loose, some with repeated
    keys, and every second one damaged."""
    rng = random.Random(seed)
    makers = [Maker(rng, tags, is_loose) for tags in (KEPT, ALL) for is_loose in (False, True)]
    for number in range(count):
        maker = makers[number // 2 % 4]
        data = maker.document()
        if number % 5 == 4:
            data = with_repeats(data)
        yield maker.damaged(data) if number % 2 else data
