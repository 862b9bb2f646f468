"""Rows that the module reads by itself, beside the library: a million with damage.

    rows.py [COUNT [SEED]]

Of a level of over 4 KiB the module frames elements of seven kinds by itself, and it decodes UTF-8 in blocks. For columns it asks the library
for the tokens of all levels. Both have to give the same values, or the same error, for rows in which bytes are changed.
"""

import random
import struct
import sys
from typing import Any, List, Tuple

import bsonraw

TEXTS = ["Zürich", "東京 と 大阪", "Москва", "naïve 😀 café", "plain text", "", "x" * 63, "日本語のテキスト、です。" * 6, "Αθήνα العربية " * 8, "é" * 49, "a" * 47 + "é"]
KEYS = ["a", "key", "Schlüssel", "eight888", "nine99999", "k" * 20, "k" * 60, "k" * 70, "東京", "0", "17"]
FRONT = b"".join(b"\x0a%d\0" % number for number in range(33))  # the library reads the first ones
BEHIND = b"\x05z\0" + struct.pack("<i", 4200) + b"\0" + bytes(4200)


def payload_of(rng: random.Random, tag: int) -> bytes:
    if tag == 2:
        text = rng.choice(TEXTS).encode()
        return struct.pack("<i", len(text) + 1) + text + b"\0"
    if tag == 8:
        return bytes([rng.randrange(2)])
    return {1: rng.randbytes(8), 9: struct.pack("<q", rng.randrange(-(2**45), 2**45)), 10: b"", 16: rng.randbytes(4), 18: rng.randbytes(8)}[tag]


def made(rng: random.Random) -> Tuple[bytes, int, int]:
    """A document, or an array in one, of more than 4 KiB, and where its rows are."""
    is_array = rng.random() < 0.3
    rows = b""
    for number in range(rng.randrange(1, 12)):
        tag = rng.choice([1, 2, 2, 8, 9, 10, 16, 18])
        key = str(33 + number) if is_array else rng.choice(KEYS)
        rows += bytes([tag]) + key.encode() + b"\0" + payload_of(rng, tag)
    body = FRONT + rows + BEHIND
    data = struct.pack("<i", len(body) + 5) + body + b"\0"
    at = 4 + len(FRONT)
    if is_array:
        data = b"\x04a\0" + data
        data = struct.pack("<i", len(data) + 5) + data + b"\0"
        at += 7
    return data, at, at + len(rows)


def changed(rng: random.Random, data: bytes, first: int, end: int) -> bytes:
    room = bytearray(data)
    for _ in range(rng.choice([1, 1, 1, 2, 3])):
        at = rng.randrange(first, end)
        room[at] = rng.choice([0, 1, 2, 3, 4, 0x7F, 0x80, 0xC0, 0xED, 0xF0, 0xFF, room[at] ^ 1 << rng.randrange(8), rng.randrange(256)])
    if rng.random() < 0.1:
        at = rng.randrange(first, end)
        struct.pack_into("<i", room, at, rng.choice([0, 1, -1, 5, 2**31 - 1, -(2**31), end - at, len(data) - at, len(data) - at - 1]))
    return bytes(room)


def read(call: Any, data: bytes) -> Any:
    """The values, or the parts of the error."""
    try:
        return repr(call(data))
    except bsonraw.BsonError as error:
        return error.__reduce__()


def by_tokens(data: bytes) -> Any:
    return {key: column[0] for key, column in bsonraw.columns(data).items()}


def main() -> int:
    count = int(sys.argv[1]) if len(sys.argv) > 1 else 1_000_000
    rng = random.Random(int(sys.argv[2]) if len(sys.argv) > 2 else 1)
    faults = 0
    documents: List[Tuple[bytes, int, int]] = []
    for number in range(count):
        if number % 1000 == 0:
            documents = [made(rng) for _ in range(50)]
        data = changed(rng, *documents[number % 50])
        rows, tokens = read(bsonraw.decode, data), read(by_tokens, data)
        if rows != tokens:
            print(f"rows: the module and the library differ: {data.hex()}\\n{rows}\\n{tokens}", file=sys.stderr)
            return 1
        faults += type(rows) is tuple
    print(f"rows: {count} documents with changed rows are read as the library reads them, of which {faults} are damaged")
    return 0 if faults > count // 4 else 1


if __name__ == "__main__":
    sys.exit(main())
