"""What the package returns, as the lines that the program bsonraw prints for the same document."""

from typing import List, Union

import bsonraw
from bsonraw import BsonError, ErrorKind, Reason

REFUSALS = {Reason.TOO_LONG: 5, Reason.TOO_MANY_BYTES: 6, Reason.TOO_DEEP: 7}


def hexed(key: str) -> str:
    return key.encode().hex() or "-"


def line(error: BsonError) -> str:
    """The line of an error, without its key: the package names that of the element, also where the program names none."""
    if error.kind is ErrorKind.NO_DOCUMENT:
        return f"refused {error.reason:d}"
    if error.reason in REFUSALS:
        return f"refused {REFUSALS[error.reason]}"
    return "fault utf8" if error.kind is ErrorKind.NOT_UTF8 else "fault malformed"


def without_key(text: str) -> str:
    """A line of the program, or of the plain reader, without the key of a fault."""
    return text.rpartition(" ")[0] if text.startswith("fault ") else text


def list_lines(data: bytes) -> List[str]:
    lines = []
    try:
        for element in bsonraw.elements(data):
            lines.append(f"{element.kind:02x} {hexed(element.key)} {len(element.payload)}")
        lines.append("end")
    except BsonError as error:
        lines.append(line(error))
    return lines


def canon(data: bytes) -> Union[bytes, str]:
    try:
        return bsonraw.canonical(data)
    except BsonError as error:
        return line(error)


def check_line(data: bytes) -> str:
    try:
        breach = bsonraw.check(data)
    except BsonError as error:
        return line(error)
    if breach is None:
        return "canonical"
    return f"breach {breach.cause.name.lower().replace('_', '-')} {'.'.join(map(str, breach.path))}"
