"""Kinds, errors, and what calls over dumps give."""

from __future__ import annotations

from enum import IntEnum
from typing import TYPE_CHECKING, Any, Iterator, List, NamedTuple, Optional, Protocol, Tuple, Type, Union

from ._native import fault_text


class Reader(Protocol):
    """A file that is open for reading bytes: of open, of gzip.open, of io.BytesIO."""

    def read(self, size: int, /) -> bytes: ...


if TYPE_CHECKING:
    from ._native import Buffer

    Source = Union[Reader, Buffer]


class ElementType(IntEnum):
    """What kind of value an element has; the numbers are the tags of BSON."""

    DOUBLE = 0x01
    STRING = 0x02
    DOCUMENT = 0x03
    ARRAY = 0x04
    BINARY = 0x05
    UNDEFINED = 0x06
    OBJECT_ID = 0x07
    BOOLEAN = 0x08
    DATETIME = 0x09
    NULL = 0x0A
    REGEX = 0x0B
    DB_POINTER = 0x0C
    JAVASCRIPT = 0x0D
    SYMBOL = 0x0E
    JAVASCRIPT_WITH_SCOPE = 0x0F
    INT32 = 0x10
    TIMESTAMP = 0x11
    INT64 = 0x12
    DECIMAL128 = 0x13
    MAX_KEY = 0x7F
    MIN_KEY = 0xFF


# ---- errors ----------------------------------------------------------------------------------------------------------


class ErrorKind(IntEnum):
    """What kind of fault a BsonError is."""

    MALFORMED = 1
    """bytes that the format doesn't know"""
    NOT_UTF8 = 2
    """a key or a text that isn't UTF-8"""
    NO_DOCUMENT = 3
    """no document at all: too short, a length that isn't that of the bytes, or no 0 at the end"""
    REFUSED = 4
    """more bytes or levels than allowed, a 0 in a key, over 2147483647 bytes"""


class Reason(IntEnum):
    """Why a BsonError came; a text that isn't UTF-8 has no reason."""

    TOO_SHORT = 1
    LENGTH_INCORRECT = 2
    NOT_TERMINATED = 3
    OVERFLOWED = 4
    INVALID_TAG = 5
    STRING_HEAD_SHORT = 6
    NEGATIVE_LENGTH = 7
    STRING_TOO_SMALL = 8
    STRING_PAST_END = 9
    STRING_NOT_TERMINATED = 10
    PAST_END = 11
    DOCUMENT_TOO_SMALL = 12
    NESTED_NOT_TERMINATED = 13
    LENGTH_HEAD_SHORT = 14
    NO_TERMINATOR = 15
    BAD_BOOLEAN = 16
    OLD_NO_INNER = 17
    ADD_OVERFLOW = 18
    OLD_WRONG_INNER = 19
    CODE_TOO_SMALL = 20
    INTERIOR_NUL = 21
    TOO_LONG = 22
    TOO_MANY_BYTES = 23
    TOO_DEEP = 24


class Cause(IntEnum):
    """Why a document isn't canonical."""

    STOP = 1
    """no element is there, and not the document's end either"""
    VALUE = 2
    """the payload is no value of its kind"""
    REPEATED_KEY = 3
    """an earlier element of the same document has this key"""
    ARRAY_KEY = 4
    """the key isn't the decimal of the element's number in its array"""
    OPTIONS = 5
    """the options of a regular expression aren't in ascending order"""


_REFUSALS = {
    Reason.INTERIOR_NUL: "a 0 in a key, a pattern or options",
    Reason.TOO_LONG: "document too long: over {} bytes",
    Reason.TOO_MANY_BYTES: "more bytes than allowed: max_bytes is {}",
    Reason.TOO_DEEP: "deeper than allowed: max_depth is {}",
}


class BSONError(Exception):
    """What MongoDB's package has its errors under, and ours are, too."""


class BsonError(BSONError, ValueError):
    """Why bytes couldn't be read, or a document not be written.

    kind: what kind of fault it is.
    reason: which one, or None for a text that isn't UTF-8.
    key: the key of the element at fault, or None where it has none.
    offset: where the element at fault begins, from the first byte on (of a
    dump: from the dump's); None where there is no such place.
    path: for each level, from the outermost on, the number of the element,
    from 0; where no element could be read, how many are before.
    keys: the same path by keys, and by numbers in arrays, for find; of a
    repeated key find goes to the first.

    Damaged bytes raise a DamagedError, and a document with more bytes or levels
    than allowed a LimitError, which says the limit.
    """

    kind: ErrorKind
    reason: Optional[Reason]
    key: Optional[str]
    offset: Optional[int]
    path: Tuple[int, ...]
    keys: Tuple[str, ...]

    def __new__(cls, kind: int, reason: Optional[int] = None, *parts: Any, **named: Any) -> BsonError:
        if cls is BsonError:
            cls = DamagedError if kind != ErrorKind.REFUSED else LimitError if reason != Reason.INTERIOR_NUL else BsonError
        return super().__new__(cls, kind, reason, *parts)  # type: ignore[call-arg]

    def __init__(
        self,
        kind: int,
        reason: Optional[int] = None,
        key: Optional[str] = None,
        offset: Optional[int] = None,
        path: Tuple[int, ...] = (),
        keys: Tuple[str, ...] = (),
        number: int = 0,
        left: int = 0,
    ) -> None:
        self.kind = ErrorKind(kind)
        self.reason = None if reason is None else Reason(reason)
        self.key = key
        self.offset = offset
        self.path = path
        self.keys = keys
        self._numbers = (number, left)
        if self.reason in _REFUSALS:
            text = _REFUSALS[self.reason].format(number)
        else:
            text = fault_text(self.reason or 0, number, left)
        if keys or key is not None:
            text = f"at key {'.'.join(keys or (key or '',))!r}: {text}"
        if offset is not None:
            text = f"at offset {offset}: {text}"
        super().__init__(text)

    def behind(self, offset: int) -> BsonError:
        """The same error in a dump, in which the document begins there."""
        at = offset + (self.offset or 0)
        return type(self)(self.kind, self.reason, self.key, at, self.path, self.keys, *self._numbers)

    def __reduce__(self) -> Tuple[Any, ...]:
        beside = {name: of for name, of in vars(self).items() if name != "_numbers" and name not in BsonError.__annotations__}
        parts = (self.kind, self.reason, self.key, self.offset, self.path, self.keys, *self._numbers)
        return type(self), parts, beside or None


class DamagedError(BsonError):
    """Why bytes are no document, or where a document is damaged."""


class LimitError(BsonError):
    """Why a document is refused that has more bytes or levels than allowed: its text says the limit."""


class Breach(NamedTuple):
    """The first place where a document isn't canonical, in the bytes' order.

    path: for each level the number of the element, from 0; for `Cause.STOP`
    how many elements are before.
    keys: the same path by keys, and by numbers in arrays; a stop without a key
    has none for the last level.
    offset: where the element begins.
    """

    cause: Cause
    path: Tuple[int, ...]
    keys: Tuple[str, ...]
    offset: int


def breach(cause: int, path: Tuple[int, ...], keys: Tuple[str, ...], offset: int) -> Breach:
    """What the compiled module calls."""
    return Breach(Cause(cause), path, keys, offset)


class Forms(NamedTuple):
    """The canonical forms of a dump's documents.

    data: the forms, one after the other: a dump.
    ends: where each form ends in it.
    starts: where the document of each form begins, from the dump's first byte
    on.
    own: whether each document is its own form.
    hashes: a hash of 64 bits of each form, the same on every machine. Equal
    forms have the same one; unequal ones hardly ever, unless they are made to.
    canonical: how many documents are their own form.
    faults: of each document that has none its offset and its error; offsets
    are from the dump's first byte. The last one is that where no document can
    be cut, if there is such a place: what follows isn't read.
    """

    data: memoryview
    ends: memoryview
    starts: memoryview
    own: memoryview
    hashes: memoryview
    canonical: int
    faults: List[Tuple[int, BsonError]]

    def __reduce__(self) -> Tuple[Any, ...]:
        views = (self.data, self.ends, self.starts, self.own, self.hashes)
        return _forms, (*map(bytes, views), self.canonical, self.faults, type(self))

    def each(self) -> Iterator[memoryview]:
        """The forms one by one: views of data, no copies."""
        start = 0
        for end in self.ends:
            yield self.data[start:end]
            start = end


def _forms(
    data: bytes,
    ends: bytes,
    starts: bytes,
    own: bytes,
    hashes: bytes,
    canonical: int,
    faults: List[Tuple[int, BsonError]],
    kind: Type[Forms] = Forms,
) -> Forms:
    """Forms of what their pickle has."""

    def numbers(of: bytes) -> memoryview:
        return memoryview(of).cast("Q")

    return kind(memoryview(data), numbers(ends), numbers(starts), memoryview(own).cast("?"), numbers(hashes), canonical, faults)
