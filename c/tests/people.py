"""Writes documents, of which some have the four fields that examples/c/fields.c prints."""

import struct
import sys


def document(*parts):
    return struct.pack("<i", 5 + sum(map(len, parts))) + b"".join(parts) + b"\0"


def text(key, value):
    return b"\2" + key + b"\0" + struct.pack("<i", len(value) + 1) + value + b"\0"


IDENTIFIER, BORN = b"\7_id\0" + bytes(range(12)), b"\x10born\0" + struct.pack("<i", 1882)
HOME = b"\3address\0" + document(text(b"street", b"Hauptstr. 1"), text(b"city", b"Erlangen"))
EMMY, ADA, MAX = (text(b"name", it) for it in (b"Emmy", b"Ada", b"Max"))
ROWS = [(IDENTIFIER, EMMY, BORN, HOME), (BORN, HOME, ADA, IDENTIFIER), (IDENTIFIER, BORN), (IDENTIFIER, EMMY, b"\x12born\0" + bytes(8), HOME), (IDENTIFIER, MAX, HOME, BORN)]
sys.stdout.buffer.write(b"".join(document(*it) for it in ROWS))
