"""BSON read slowly and plainly, straight from the format: what the package has to return, found another way.

A document becomes a list of (tag, key, value) where a value is bytes, or for what is nested a list of its own.
"""

import struct
from typing import Any, List, NamedTuple, Optional, Tuple, Union

FIXED = {1: 8, 6: 0, 7: 12, 8: 1, 9: 8, 10: 0, 16: 4, 17: 8, 18: 8, 19: 16, 0x7F: 0, 0xFF: 0}
TEXTS = (2, 13, 14)


class Fault(Exception):
    """A fault as the program says it: malformed or utf8, and the key or None."""

    def __init__(self, kind: str, key: Optional[str]) -> None:
        super().__init__(kind, key)
        self.kind = kind
        self.key = key

    def line(self) -> str:
        key = "none" if self.key is None else self.key.encode().hex() or "-"
        return f"fault {self.kind} {key}"


class Refused(Exception):
    """A refusal by its number."""

    def line(self) -> str:
        return f"refused {self.args[0]}"


class Frame(NamedTuple):
    tag: int
    key: str
    payload: bytes


def i32(data: bytes, at: int = 0) -> int:
    return struct.unpack_from("<i", data, at)[0]


def envelope(data: bytes) -> None:
    if len(data) < 5:
        raise Refused(1)
    if i32(data) != len(data):
        raise Refused(2)
    if data[-1] != 0:
        raise Refused(3)


def is_text(text: bytes) -> bool:
    try:
        text.decode()
    except UnicodeDecodeError:
        return False
    return True


def string_len(rest: bytes) -> Optional[int]:
    """How many bytes the string at the front has, its length and its 0 counted; None where none is there."""
    if len(rest) < 4 or i32(rest) < 1 or i32(rest) + 4 > len(rest) or rest[i32(rest) + 3] != 0:
        return None
    return i32(rest) + 4


def payload_len(tag: int, rest: bytes, key: str) -> int:
    """How many bytes the payload at the front has."""
    size: Optional[int] = None
    if tag in FIXED:
        size = FIXED[tag]
    elif tag in TEXTS:
        size = string_len(rest)
    elif tag == 12:
        text = string_len(rest)
        size = None if text is None else text + 12
    elif tag in (3, 4):
        if len(rest) >= 5 and 5 <= i32(rest) <= len(rest) and rest[i32(rest) - 1] == 0:
            size = i32(rest)
    elif tag == 5:
        size = i32(rest) + 5 if len(rest) >= 4 and i32(rest) >= 0 else None
    elif tag == 15:
        size = i32(rest) if len(rest) >= 4 and i32(rest) >= 0 else None
    elif tag == 11:
        size = regex_len(rest, key)
    if size is None or size > len(rest):
        raise Fault("malformed", key)
    return size


def regex_len(rest: bytes, key: str) -> Optional[int]:
    at = 0
    for _ in range(2):
        end = rest.find(0, at)
        if end < 0:
            return None
        if not is_text(rest[at:end]):
            raise Fault("utf8", key)
        at = end + 1
    return at


def walk(data: bytes) -> Tuple[List[Frame], Optional[Fault]]:
    """The frames, and the fault at which they stop, if there is one."""
    frames: List[Frame] = []
    rest = data[4:]
    while len(rest) != 1:
        try:
            if not rest:
                raise Fault("malformed", None)
            end = rest.index(0, 1)
            if not is_text(rest[1:end]):
                raise Fault("utf8", None)
            tag, key, rest_of = rest[0], rest[1:end].decode(), rest[end + 1 :]
            size = payload_len(tag, rest_of, key)
        except Fault as fault:
            return frames, fault
        frames.append(Frame(tag, key, rest_of[:size]))
        rest = rest_of[size:]
    return frames, None


def judge(frame: Frame) -> Optional[bytes]:
    """Raises the fault that a frame's payload means; gives the nested document, where there is one."""
    tag, key, payload = frame
    if tag in TEXTS and not is_text(payload[4:-1]):
        raise Fault("utf8", None)
    if tag == 12 and not is_text(payload[4:-13]):
        raise Fault("utf8", None)
    if tag == 8 and payload[0] > 1:
        raise Fault("malformed", key)
    if tag == 5 and payload[4] == 2:
        outer = i32(payload)
        if outer < 4:
            raise Fault("malformed", key)
        inner = i32(payload, 5)
        if inner + 4 != outer:
            raise Fault("malformed", None if -4 <= inner <= -1 else key)
    if tag == 15:
        return scope_of(payload, key)
    return payload if tag in (3, 4) else None


def scope_of(payload: bytes, key: str) -> bytes:
    if len(payload) < 14:
        raise Fault("malformed", key)
    size = string_len(payload[4:])
    if size is None:
        raise Fault("malformed", None)
    if not is_text(payload[8 : 4 + size - 1]):
        raise Fault("utf8", None)
    scope = payload[4 + size :]
    try:
        envelope(scope)
    except Refused:
        raise Fault("malformed", None) from None
    return scope


class Place(NamedTuple):
    """A fault with the place of its element, or of the stop: the path, the offset and the key."""

    kind: str
    path: Tuple[int, ...]
    offset: int
    key: Optional[str]


def first_fault(data: bytes, offset: int = 0, path: Tuple[int, ...] = ()) -> Optional[Place]:
    """The first fault at any level of a document whose envelope is sound."""
    frames, stop = walk(data)
    offset += 4
    for number, frame in enumerate(frames):
        here = (*path, number)
        payload_at = offset + 2 + len(frame.key.encode())
        try:
            nested = judge(frame)
        except Fault as fault:
            return Place(fault.kind, here, offset, frame.key)
        if nested is not None:
            inside = first_fault(nested, payload_at + len(frame.payload) - len(nested), here)
            if inside is not None:
                return inside
        offset = payload_at + len(frame.payload)
    return None if stop is None else Place(stop.kind, (*path, len(frames)), offset, stop.key)


Values = List[Tuple[str, int, Any]]


def values(data: bytes) -> Values:
    """The elements of a sound document, by key and tag; those inside of one are a list for its payload."""
    found: Values = []
    for frame in walk(data)[0]:
        nested = judge(frame)
        inside: Any = frame.payload if nested is None else values(nested)
        if frame.tag == 15 and nested is not None:
            inside = (frame.payload[4 : len(frame.payload) - len(nested)], inside)
        found.append((frame.key, frame.tag, inside))
    return found


def form(data: bytes, is_array: bool = False, depth: int = 500) -> bytes:
    """The canonical form of a document whose envelope is sound."""
    if depth == 0:
        raise Refused(7)
    frames, stop = walk(data)
    values = {}
    for number, frame in enumerate(frames):
        nested = judge(frame)
        payload = frame.payload
        if nested is not None:
            inner = form(nested, frame.tag == 4, depth - 1)
            payload = inner
            if frame.tag == 15:
                code = frame.payload[4 : len(frame.payload) - len(nested)]
                payload = struct.pack("<i", 4 + len(code) + len(inner)) + code + inner
        elif frame.tag == 11:
            pattern, options, _ = payload.split(b"\0")
            payload = pattern + b"\0" + "".join(sorted(options.decode())).encode() + b"\0"
        values[str(number) if is_array else frame.key] = (frame.tag, payload)
    if stop is not None:
        raise stop
    parts = [bytes([tag]) + key.encode() + b"\0" + payload for key, (tag, payload) in values.items()]
    body = b"".join(parts)
    return struct.pack("<i", len(body) + 5) + body + b"\0"


def breach(data: bytes, is_array: bool = False) -> Optional[Tuple[str, List[int]]]:
    """The first breach of a document whose envelope is sound."""
    frames, stop = walk(data)
    seen = set()
    for number, frame in enumerate(frames):
        if is_array and frame.key != str(number):
            return "array-key", [number]
        if not is_array and frame.key in seen:
            return "repeated-key", [number]
        seen.add(frame.key)
        try:
            nested = judge(frame)
        except Fault:
            return "value", [number]
        if frame.tag == 11:
            options = frame.payload.split(b"\0")[1].decode()
            if list(options) != sorted(options):
                return "options", [number]
        if nested is not None:
            inside = breach(nested, frame.tag == 4)
            if inside is not None:
                return inside[0], [number] + inside[1]
    return None if stop is None else ("stop", [len(frames)])


def list_lines(data: bytes) -> List[str]:
    """What the program prints for `list`."""
    try:
        envelope(data)
    except Refused as refused:
        return [refused.line()]
    frames, stop = walk(data)
    lines = [f"{tag:02x} {key.encode().hex() or '-'} {len(payload)}" for tag, key, payload in frames]
    return lines + ["end" if stop is None else stop.line()]


def canon(data: bytes) -> Union[bytes, str]:
    """The canonical form, or the line that the program prints where there is none."""
    try:
        envelope(data)
        return form(data)
    except (Fault, Refused) as error:
        return error.line()


def check_line(data: bytes) -> str:
    """What the program prints for `check`."""
    try:
        envelope(data)
    except Refused as refused:
        return refused.line()
    found = breach(data)
    if found is None:
        return "canonical"
    return f"breach {found[0]} {'.'.join(map(str, found[1]))}"
