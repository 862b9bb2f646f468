#!/usr/bin/env python3
"""Makes the documents that each implementation is measured on.

usage: documents.py FOLDER

The bytes are written by this file's own small encoder, from random.Random(SEED), so they depend on no BSON
library and are the same on every machine and every Python from 3.8 on. The SHA-256 of each file is compared with SHA below. manifest.tsv has a line for each document:

    name  bytes  top-level elements  elements of all levels  key for the look-up (the last of the document)
"""
import hashlib
import os
import random
import struct
import sys

SEED = 20151
SHA = {
    "tiny": "5f959b756fb84f30",
    "typical": "59590ba40c7e62f1",
    "last_key": "46d52beb9562ad7e",
    "deep": "d1fca36ee54a6bf4",
    "flat_wide": "1fdcbff8f7bbd052",
    "strings": "8e0cab5266bec15e",
    "strings_utf8": "a3144a42cf38c585",
    "array_big": "81c020f1d6251664",
    "nested_mixed": "323daeba8bcef5ca",
}


# ---- encoder: a document is a list of (key, (tag, payload)) -------------------------------------------------

def cstr(s):
    return s.encode() + b"\0"


def text(s):
    raw = s.encode()
    return struct.pack("<i", len(raw) + 1) + raw + b"\0"


def document(pairs):
    parts = [bytes([tag]) + cstr(key) + payload for key, (tag, payload) in pairs]
    body = b"".join(parts)
    return struct.pack("<i", len(body) + 5) + body + b"\0"


def double(x):
    return 0x01, struct.pack("<d", x)


def string(s):
    return 0x02, text(s)


def embedded(pairs):
    return 0x03, document(pairs)


def array(values):
    return 0x04, document([(str(i), v) for i, v in enumerate(values)])


def binary(subtype, raw):
    return 0x05, struct.pack("<iB", len(raw), subtype) + raw


def oid(raw):
    assert len(raw) == 12
    return 0x07, raw


def boolean(b):
    return 0x08, bytes([b])


def datetime(ms):
    return 0x09, struct.pack("<q", ms)


NULL = 0x0A, b""


def regex(pattern, options):
    return 0x0B, cstr(pattern) + cstr(options)


def int32(n):
    return 0x10, struct.pack("<i", n)


def timestamp(time, increment):
    return 0x11, struct.pack("<II", increment, time)


def int64(n):
    return 0x12, struct.pack("<q", n)


def decimal128(raw):
    assert len(raw) == 16
    return 0x13, raw


# ---- counting, by an own walk over the bytes ------------------------------------------------------------------

FIXED = {0x01: 8, 0x06: 0, 0x07: 12, 0x08: 1, 0x09: 8, 0x0A: 0, 0x10: 4, 0x11: 8, 0x12: 8, 0x13: 16, 0x7F: 0, 0xFF: 0}


def counts(data):
    """The number of top-level elements, that of all levels, and the last key of the top level."""
    top = all_levels = 0
    last = b""
    stack = [(0, len(data), True)]
    while stack:
        start, end, is_top = stack.pop()
        assert struct.unpack_from("<i", data, start)[0] == end - start and data[end - 1] == 0
        at = start + 4
        while at < end - 1:
            tag = data[at]
            stop = data.index(0, at + 1)
            if is_top:
                top += 1
                last = data[at + 1:stop]
            all_levels += 1
            at = stop + 1
            if tag in FIXED:
                at += FIXED[tag]
            elif tag in (0x02, 0x0D, 0x0E):
                at += 4 + struct.unpack_from("<i", data, at)[0]
            elif tag in (0x03, 0x04):
                n = struct.unpack_from("<i", data, at)[0]
                stack.append((at, at + n, False))
                at += n
            elif tag == 0x05:
                at += 5 + struct.unpack_from("<i", data, at)[0]
            elif tag == 0x0B:
                at = data.index(0, data.index(0, at) + 1) + 1
            else:
                raise ValueError(hex(tag))
        assert at == end - 1
    return top, all_levels, last.decode()


# ---- the documents ----------------------------------------------------------------------------------------------

WORDS = ("the of and to in is you that it he was for on are as with his they at be this have from or one had by "
         "word but not what all were we when your can said there use an each which she do how their if will up "
         "other about out many then them these so some her would make like him into time has look two more write "
         "go see number no way could people my than first water been call who oil its now find long down day did "
         "get come made may part").split()
ACCENTED = "für Zürich naïve café Ωmega привет мир 日本語 テキスト 한국어 😀 emoji ñandú œuvre".split()


def prose(rng, length, words=WORDS):
    out = []
    n = 0
    while n < length:
        w = rng.choice(words)
        out.append(w)
        n += len(w.encode()) + 1
    s = " ".join(out)
    while len(s.encode()) > length:
        s = s[:-1]
    return s


def rbytes(rng, n):
    return bytes(rng.randrange(256) for _ in range(n))


def user(rng):
    return embedded([
        ("id", int64(rng.randrange(1 << 40))),
        ("name", string(prose(rng, rng.randrange(8, 24)))),
        ("screen_name", string("user_%d" % rng.randrange(10**7))),
        ("location", string(rng.choice(["Zürich", "New York", "東京", "São Paulo", "Berlin"]))),
        ("description", string(prose(rng, rng.randrange(60, 160)))),
        ("url", NULL if rng.random() < 0.5 else string("https://example.org/%d" % rng.randrange(10**6))),
        ("protected", boolean(False)),
        ("followers_count", int32(rng.randrange(100000))),
        ("friends_count", int32(rng.randrange(5000))),
        ("created_at", datetime(1262304000000 + rng.randrange(10**11))),
        ("verified", boolean(rng.random() < 0.1)),
        ("balance", decimal128(rbytes(rng, 14) + b"\x40\x30")),
    ])


def tweet(rng):
    """A document like those that a service keeps: 90 elements or so over five levels, about 2 kB."""
    tags = [embedded([("text", string(rng.choice(WORDS))),
                      ("indices", array([int32(rng.randrange(70)), int32(70 + rng.randrange(70))]))])
            for _ in range(rng.randrange(1, 4))]
    return [
        ("_id", oid(rbytes(rng, 12))),
        ("created_at", datetime(1420070400000 + rng.randrange(10**11))),
        ("id", int64(rng.randrange(1 << 60))),
        ("id_str", string(str(rng.randrange(1 << 60)))),
        ("text", string(prose(rng, rng.randrange(90, 230)))),
        ("source", string("<a href=\"https://example.org\" rel=\"nofollow\">Example for Web</a>")),
        ("truncated", boolean(False)),
        ("in_reply_to_status_id", NULL),
        ("user", user(rng)),
        ("in_reply_to_user", user(rng)),
        ("coordinates", embedded([
            ("type", string("Point")),
            ("coordinates", array([double(rng.uniform(-180, 180)), double(rng.uniform(-90, 90))]))])),
        ("entities", embedded([
            ("hashtags", array(tags)),
            ("urls", array([])),
            ("user_mentions", array([embedded([
                ("screen_name", string("user_%d" % rng.randrange(10**7))),
                ("id", int64(rng.randrange(1 << 40)))]) for _ in range(rng.randrange(0, 3))]))])),
        ("scores", array([double(rng.random()) for _ in range(8)])),
        ("history", array([embedded([
            ("at", datetime(1420070400000 + rng.randrange(10**11))),
            ("by", string("user_%d" % rng.randrange(10**7)))]) for _ in range(4)])),
        ("retweet_count", int32(rng.randrange(1000))),
        ("favorite_count", int32(rng.randrange(1000))),
        ("favorited", boolean(rng.random() < 0.5)),
        ("filter", regex("^user_[0-9]+$", "im")),
        ("digest", binary(0, rbytes(rng, 32))),
        ("session", binary(4, rbytes(rng, 16))),
        ("ts", timestamp(1420070400 + rng.randrange(10**8), rng.randrange(100))),
        ("note", string(prose(rng, rng.randrange(20, 60), ACCENTED))),
        ("lang", string(rng.choice(["en", "de", "ja", "pt"]))),
    ]


def deep(levels):
    data = b"\x05\0\0\0\0"
    for _ in range(levels - 1):
        data = struct.pack("<i", len(data) + 7) + b"\x03\0" + data + b"\0"
    return data


def mixed(rng, i):
    return [int32(i), int64(i << 20), double(i / 7), boolean(i & 1), NULL, string("value %d" % i),
            datetime(1420070400000 + i), oid(struct.pack(">IQ", i, 77))][i % 8]


def documents():
    rng = random.Random(SEED)
    yield "tiny", document([("hi", string("world!"))])
    yield "typical", document(tweet(rng))
    yield "last_key", document([("field_%04d" % i, mixed(rng, i)) for i in range(1000)])
    yield "deep", deep(500)
    yield "flat_wide", document([("k%d" % i, int32(i * 2654435761 % (1 << 32) - (1 << 31))) for i in range(50000)])
    yield "strings", document([("s%d" % i, string(prose(rng, 100))) for i in range(9000)])
    yield "strings_utf8", document([("s%d" % i, string(prose(rng, 100, ACCENTED))) for i in range(9000)])
    yield "array_big", document([("a", array([double(rng.uniform(-1e6, 1e6)) for _ in range(100000)]))])
    yield "nested_mixed", document([("u%04d" % i, embedded(tweet(rng))) for i in range(5000)])


def main(folder):
    os.makedirs(folder, exist_ok=True)
    bad = False
    with open(f"{folder}/manifest.tsv", "w") as manifest:
        for name, data in documents():
            with open(f"{folder}/{name}.bson", "wb") as out:
                out.write(data)
            top, all_levels, last = counts(data)
            manifest.write(f"{name}\t{len(data)}\t{top}\t{all_levels}\t{last}\n")
            digest = hashlib.sha256(data).hexdigest()[:16]
            if SHA.get(name, digest) != digest:
                print(f"documents.py: {name} has sha256 {digest}.., not {SHA[name]}..", file=sys.stderr)
                bad = True
            print(f"{name:13} {len(data):9} bytes {top:7} top {all_levels:7} all  {digest}")
    return bad


if __name__ == "__main__":
    sys.exit(main(*sys.argv[1:]))
