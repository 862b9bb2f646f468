"""The classes of values that Python has none for. They do what MongoDB's of the same names do."""

from __future__ import annotations

import copyreg
import operator
import os
import re
import struct
import time as clock
import uuid as uuids
from datetime import datetime, timedelta, timezone
from decimal import ROUND_HALF_EVEN, Context, Decimal, Inexact, InvalidOperation, Overflow
from itertools import count
from typing import Any, Callable, Iterator, List, Mapping, Optional, Sequence, Tuple, Union

from ._native import Pair, Raw
from ._types import BSONError

_EPOCH = datetime(1970, 1, 1, tzinfo=timezone.utc)
_PARTS = ("_subtype", "_scope")  # attributes that are made of what a class is called with


def _bytes_of(value: Any, name: str) -> bytes:
    if isinstance(value, (bytes, bytearray, memoryview)):
        return bytes(value)
    raise TypeError(f"{name} is made of bytes, not of {type(value).__name__}")


def _parts_of(value: Any, mark: int, names: Sequence[str]) -> Optional[List[Any]]:
    """Some parts of a value of this mark; None where it has another one, or lacks a part."""
    try:
        return [getattr(value, name) for name in names] if getattr(value, "_type_marker", None) == mark else None
    except MemoryError:
        raise
    except Exception:  # whatever the class of others raises
        return None


def again(value: Any, kind: type, *parts: Any) -> Tuple[Any, ...]:
    """What a pickle and a copy have of a value: its class and its parts, and what a class over ours has beside those."""
    if type(value) is kind:
        return kind, parts
    attributes = {name: of for name, of in getattr(value, "__dict__", {}).items() if name not in _PARTS}
    names: List[str] = getattr(copyreg, "_slotnames")(type(value))
    slots = {name: getattr(value, name) for name in names if name not in _PARTS and hasattr(value, name)}
    return getattr(copyreg, "__newobj__"), (type(value), *parts), (attributes, slots)


def _seconds(value: datetime) -> int:
    aware = value if value.utcoffset() is not None else value.replace(tzinfo=timezone.utc)
    return (aware - _EPOCH) // timedelta(seconds=1)


class DatetimeMS(int):
    """A time as milliseconds from 1970 on, of years that datetime doesn't have."""

    __slots__ = ()
    _type_marker = 9

    def __repr__(self) -> str:
        return f"DatetimeMS({int(self)})"

    def __reduce__(self) -> Tuple[Any, ...]:
        return again(self, DatetimeMS, int(self))

    __str__ = int.__repr__


class Symbol(str):
    """A symbol: a text of a kind of its own."""

    __slots__ = ()

    def __repr__(self) -> str:
        return f"Symbol({str(self)!r})"


# ---- ids -------------------------------------------------------------------------------------------------------------


class _Counter:
    """What new ids have after their time: five bytes of a process, and a number that each raises by one.

    It has no lock: a fork while another thread holds one would leave it locked in the child. next() of a count is one step.
    """

    def __init__(self) -> None:
        self.begun = self.begin()

    def begin(self) -> Tuple[int, bytes, Iterator[int]]:
        self.begun = begun = os.getpid(), os.urandom(5), count(int.from_bytes(os.urandom(3), "big"))
        return begun

    def next(self) -> bytes:
        begun = self.begun
        _, of_process, numbers = begun if begun[0] == os.getpid() else self.begin()
        return of_process + (next(numbers) % (1 << 24)).to_bytes(3, "big")


_counter = _Counter()


class _Ordered(Raw):
    """A value in order with those of its mark, MongoDB's too."""

    __slots__ = ()
    _type_marker = 0
    _parts: Tuple[str, ...] = ()

    def _ordered(self, other: object, how: Callable[[Any, Any], bool]) -> bool:
        theirs = _parts_of(other, self._type_marker, self._parts)
        if theirs is None:
            return NotImplemented
        return how([getattr(self, part) for part in self._parts], theirs)

    def __lt__(self, other: object) -> bool:
        return self._ordered(other, operator.lt)

    def __le__(self, other: object) -> bool:
        return self._ordered(other, operator.le)

    def __gt__(self, other: object) -> bool:
        return self._ordered(other, operator.gt)

    def __ge__(self, other: object) -> bool:
        return self._ordered(other, operator.ge)


class InvalidId(BSONError, ValueError):
    """A text or bytes that no id is made of."""


class ObjectId(_Ordered):
    """An id of twelve bytes: a new one, or from the bytes or their 24 digits in hex. In order by the bytes."""

    __slots__ = ()
    _type_marker = 7
    _parts = ("binary",)

    def __new__(cls, oid: Union[bytes, str, ObjectId, None] = None) -> ObjectId:
        if oid is None:
            return super().__new__(cls, int(clock.time()).to_bytes(4, "big") + _counter.next())
        parts = _parts_of(oid, 7, ["binary"])
        if parts is not None:
            (oid,) = parts
        try:
            raw = bytes.fromhex(oid) if isinstance(oid, str) else _bytes_of(oid, "an ObjectId")
        except ValueError:
            raw = b""
        if len(raw) != 12 or (isinstance(oid, str) and len(oid) != 24):
            raise InvalidId(f"an ObjectId has 12 bytes, or 24 digits in hex, not {oid!r}")
        return super().__new__(cls, raw)

    @classmethod
    def from_datetime(cls, generation_time: datetime) -> ObjectId:
        """The least id of a time, to compare ids with; of a time without a zone it is taken for UTC."""
        return cls(_seconds(generation_time).to_bytes(4, "big") + bytes(8))

    @classmethod
    def is_valid(cls, oid: Any) -> bool:
        """Whether an id can be made of a value."""
        try:
            cls(oid)
        except (TypeError, ValueError):
            return False
        return oid is not None

    @property
    def binary(self) -> bytes:
        """The twelve bytes."""
        return bytes(self)

    @property
    def generation_time(self) -> datetime:
        """When it was made, by its first four bytes."""
        return _EPOCH + timedelta(seconds=int.from_bytes(self.binary[:4], "big"))

    def __str__(self) -> str:
        return self.binary.hex()

    def __format__(self, how: str) -> str:
        return format(str(self), how)

    def __repr__(self) -> str:
        return f"ObjectId('{self}')"

    def __reduce__(self) -> Tuple[Any, ...]:
        return again(self, ObjectId, self.binary)


class Timestamp(_Ordered):
    """A time of replication: seconds from 1970 on, or a datetime, and a number within one.

    In order by both.
    """

    __slots__ = ()
    _type_marker = 17
    _parts = ("time", "inc")

    def __new__(cls, time: Union[int, datetime], inc: int) -> Timestamp:
        seconds = _seconds(time) if isinstance(time, datetime) else time
        for part in (seconds, inc):
            if not isinstance(part, int):
                raise TypeError(f"a Timestamp is made of ints, or a datetime and an int, not of {type(part).__name__}")
            if not 0 <= part < 1 << 32:
                raise ValueError(f"a part of a Timestamp is from 0 to {(1 << 32) - 1}, not {part}")
        return super().__new__(cls, inc.to_bytes(4, "little") + seconds.to_bytes(4, "little"))

    @property
    def time(self) -> int:
        """The seconds."""
        return int.from_bytes(bytes(self)[4:], "little")

    @property
    def increment(self) -> int:
        """The number within a second."""
        return int.from_bytes(bytes(self)[:4], "little")

    inc = increment

    def as_datetime(self) -> datetime:
        """The second, in UTC."""
        return _EPOCH + timedelta(seconds=self.time)

    def __repr__(self) -> str:
        return f"Timestamp({self.time}, {self.increment})"

    def __hash__(self) -> int:
        return hash(self.time) ^ hash(self.increment)

    def __eq__(self, other: object) -> bool:
        return super().__eq__(other)

    def __reduce__(self) -> Tuple[Any, ...]:
        return again(self, Timestamp, self.time, self.increment)


# ---- decimals --------------------------------------------------------------------------------------------------------

_CONTEXT = Context(34, ROUND_HALF_EVEN, -6143, 6144, 1, 1, [], [InvalidOperation, Overflow, Inexact])
_BIAS = 6176
_SPECIAL = {"F": 0x78 << 56, "n": 0x7C << 56, "N": 0x7E << 56}


def _decimal_bytes(value: Decimal) -> bytes:
    """The sixteen bytes of a decimal, whose digits are a binary integer. Raises decimal.Inexact for more than 34 digits."""
    sign, digits, exponent = _CONTEXT.create_decimal(value).as_tuple()
    if exponent in ("n", "N") and digits:
        raise ValueError(f"a Decimal128 has no number in a NaN: {value}")
    if isinstance(exponent, str):
        high, low = _SPECIAL[exponent], 0
    else:
        high, low = divmod(int("".join(map(str, digits)) or "0"), 1 << 64)
        high |= (exponent + _BIAS) << 49
    return struct.pack("<QQ", low, high | sign << 63)


def _decimal(raw: bytes) -> Decimal:
    low, high = struct.unpack("<QQ", raw)
    sign, form = high >> 63, high >> 58 & 0x1F
    if form >= 0x1E:
        name = "Infinity" if form == 0x1E else "sNaN" if high >> 57 & 1 else "NaN"
        return Decimal(("-" if sign else "") + name)
    is_large = form >= 0x18  # a number of more than 34 digits, which is 0
    exponent = high >> (47 if is_large else 49) & 0x3FFF
    number = 0 if is_large else (high & ((1 << 49) - 1)) << 64 | low
    digits = tuple(map(int, str(number if number < 10**34 else 0)))
    return Decimal((sign, digits, exponent - _BIAS))


class Decimal128(Raw):
    """A decimal of 34 digits, from its text, a decimal.Decimal, the 16 bytes of BSON, or their two numbers, the higher one first.

    Equal where the bytes are.

    Raises decimal.Inexact or decimal.Overflow for what it can't hold, and
    ValueError for a NaN with a number.
    """

    __slots__ = ()
    _type_marker = 19

    def __new__(cls, value: Union[bytes, str, Decimal, Tuple[int, int]]) -> Decimal128:
        if isinstance(value, str):
            value = Decimal(value)
        elif isinstance(value, tuple) and len(value) == 2:
            high, low = value
            value = struct.pack("<QQ", low, high)
        raw = _decimal_bytes(value) if isinstance(value, Decimal) else _bytes_of(value, "a Decimal128")
        if len(raw) != 16:
            raise ValueError(f"a Decimal128 has 16 bytes, not {len(raw)}")
        return super().__new__(cls, raw)

    @property
    def binary(self) -> bytes:
        """The sixteen bytes."""
        return bytes(self)

    bid = binary

    @classmethod
    def from_bid(cls, value: bytes) -> Decimal128:
        """From the sixteen bytes."""
        return cls(_bytes_of(value, "a Decimal128"))

    def to_decimal(self) -> Decimal:
        """The same number as a decimal.Decimal."""
        return _decimal(self.binary)

    def __str__(self) -> str:
        number = self.to_decimal()
        return "NaN" if number.is_nan() else str(number)

    def __format__(self, how: str) -> str:
        return format(self.to_decimal(), how) if how else str(self)

    def __repr__(self) -> str:
        return f"Decimal128({str(self)!r})" if Decimal128(str(self)) == self else f"Decimal128({self.binary!r})"

    def __reduce__(self) -> Tuple[Any, ...]:
        return again(self, Decimal128, self.binary)


# ---- texts and bytes -------------------------------------------------------------------------------------------------

_FLAGS = {"i": re.I, "l": re.L, "m": re.M, "s": re.S, "u": re.U, "x": re.X}


def options_of(flags: int) -> str:
    """The options of BSON for flags of re."""
    return "".join(letter for letter, flag in _FLAGS.items() if flags & flag)


class Regex(Pair):
    """A regular expression: its pattern and its options, as a text or as flags of re."""

    __slots__ = ()
    _type_marker = 11

    def __new__(cls, pattern: str, flags: Union[str, int] = "") -> Regex:
        if not isinstance(pattern, str) or not isinstance(flags, (str, int)):
            raise TypeError(f"a Regex is made of a str and a str or an int, not of {type(pattern).__name__} and {type(flags).__name__}")
        return super().__new__(cls, pattern, options_of(flags) if isinstance(flags, int) else flags)

    @classmethod
    def from_native(cls, regex: re.Pattern[Any]) -> Regex:
        """Of what re.compile gave."""
        text = regex.pattern
        return cls(text.decode() if isinstance(text, bytes) else text, regex.flags)

    @property
    def pattern(self) -> str:
        """The pattern."""
        return self._first  # type: ignore[no-any-return]

    @property
    def options(self) -> str:
        """The options, a letter each."""
        return self._second  # type: ignore[no-any-return]

    @property
    def flags(self) -> int:
        """Those options that re has, as its flags."""
        return sum({_FLAGS[option].value for option in self.options if option in _FLAGS})

    def compile(self) -> re.Pattern[str]:
        """The pattern for re, with those options that re has for texts."""
        return re.compile(self.pattern, self.flags & ~re.L)

    try_compile = compile

    def __repr__(self) -> str:
        return f"Regex({self.pattern!r}, {self.options!r})"

    def __reduce__(self) -> Tuple[Any, ...]:
        return again(self, Regex, self.pattern, self.options)


def _uuid_subtype(uuid_representation: int) -> int:
    """The subtype that a representation of UUIDs has."""
    if uuid_representation not in (3, 4, 5, 6):
        raise ValueError(f"a representation of UUIDs is from 3 to 6, not {uuid_representation!r}")
    return 4 if uuid_representation == 4 else 3


def _turned(data: bytes, uuid_representation: int) -> bytes:
    """The bytes of a UUID in the order of a representation, or back: programs in Java (5) and C# (6) wrote them in their own."""
    if uuid_representation == 5:
        return data[7::-1] + data[:7:-1]
    return uuids.UUID(bytes_le=data).bytes if uuid_representation == 6 else data


class Binary(bytes):
    """Bytes of a subtype; those of subtype 0 are decoded to plain bytes. Equal to no plain bytes."""

    _subtype: int
    _type_marker = 5

    def __new__(cls, data: bytes, subtype: int = 0) -> Binary:
        if not 0 <= subtype <= 255:
            raise ValueError(f"a subtype is from 0 to 255, not {subtype}")
        self = super().__new__(cls, _bytes_of(data, "a Binary"))
        self._subtype = subtype
        return self

    @classmethod
    def from_uuid(cls, uuid: uuids.UUID, uuid_representation: int = 4) -> Binary:
        """The Binary of a UUID: of subtype 4, or in one of MongoDB's representations of old, which are 3, 5 and 6, of subtype 3."""
        subtype = _uuid_subtype(uuid_representation)
        if not isinstance(uuid, uuids.UUID):
            raise TypeError(f"this is a {type(uuid).__name__}, not a uuid.UUID")
        return cls(_turned(uuid.bytes, uuid_representation), subtype)

    def as_uuid(self, uuid_representation: int = 4) -> uuids.UUID:
        """The UUID of a Binary of subtype 4; in one of MongoDB's representations of old of one of subtype 3."""
        if self.subtype != _uuid_subtype(uuid_representation):
            raise ValueError(f"a Binary of subtype {self.subtype} isn't a UUID of representation {uuid_representation}")
        return uuids.UUID(bytes=_turned(bytes(self), uuid_representation))

    @property
    def data(self) -> bytes:
        """The bytes as plain ones."""
        return bytes(self)

    @property
    def subtype(self) -> int:
        """The subtype, from 0 to 255."""
        return self._subtype

    def __eq__(self, other: object) -> bool:
        return [self.subtype] == _parts_of(other, 5, ["subtype"]) and bytes.__eq__(self, other) is True

    def __ne__(self, other: object) -> bool:
        return not self == other

    def __hash__(self) -> int:
        return super().__hash__() ^ hash(self.subtype)

    def __repr__(self) -> str:
        return f"Binary({bytes(self)!r}, {self.subtype})"

    def __reduce__(self) -> Tuple[Any, ...]:
        return again(self, Binary, bytes(self), self.subtype)


class Code(str):
    """JavaScript, and the document that is its scope, or None. A scope is added to that of a Code, and names to both."""

    __slots__ = ("_scope",)
    _scope: Any
    _type_marker = 13

    def __new__(cls, code: str, scope: Optional[Union[Mapping[str, Any], Pairs]] = None, **names: Any) -> Code:
        if not isinstance(code, str):
            raise TypeError(f"a Code is made of a str, not of {type(code).__name__}")
        self = super().__new__(cls, code)
        inner: Any = getattr(code, "scope", None)
        own: Any = scope if inner is None else inner if scope is None else {**dict(inner), **dict(scope)}
        self._scope = {**dict(own or {}), **names} if names else own
        return self

    @property
    def code(self) -> str:
        """The text."""
        return str.__str__(self)

    @property
    def scope(self) -> Any:
        """The scope, or None."""
        return self._scope

    def __eq__(self, other: object) -> bool:
        return str.__eq__(self, other) is True and [self.scope] == _parts_of(other, 13, ["scope"])

    def __ne__(self, other: object) -> bool:
        return not self == other

    __hash__ = str.__hash__

    def __repr__(self) -> str:
        return f"Code({self.code!r}, {self.scope!r})"

    def __reduce__(self) -> Tuple[Any, ...]:
        return again(self, Code, self.code, self.scope)


class DBPointer(Pair):
    """A pointer of old: a namespace and an id."""

    __slots__ = ()

    def __new__(cls, namespace: str, id: ObjectId) -> DBPointer:
        return super().__new__(cls, namespace, id)

    @property
    def namespace(self) -> str:
        """The namespace: a database and a collection."""
        return self._first  # type: ignore[no-any-return]

    @property
    def id(self) -> ObjectId:
        """The id."""
        return self._second  # type: ignore[no-any-return]

    def __repr__(self) -> str:
        return f"DBPointer({self.namespace!r}, {self.id!r})"

    def __reduce__(self) -> Tuple[Any, ...]:
        return again(self, DBPointer, self.namespace, self.id)


# ---- values of which there is one ------------------------------------------------------------------------------------


class _Only:
    """A value of which there is one. It has a dict, so that the collector sees that it and its class keep each other."""

    _only: Any = None

    def __new__(cls) -> Any:
        if cls._only is None:
            cls._only = super().__new__(cls)
        return cls._only

    def __repr__(self) -> str:
        return f"{type(self).__name__}()"

    def __reduce__(self) -> Tuple[Any, ...]:
        return type(self), ()


class Undefined(_Only):
    """The value undefined, of old."""


class _End(_Only):
    """One end of the order of all values."""

    _type_marker = 0

    def __eq__(self, other: object) -> bool:
        return _parts_of(other, self._type_marker, []) is not None

    def __hash__(self) -> int:
        return hash(self._type_marker)


class MinKey(_End):
    """The value below all others."""

    _type_marker = 255

    def __lt__(self, other: object) -> bool:
        return not self == other

    def __le__(self, other: object) -> bool:
        return True

    def __gt__(self, other: object) -> bool:
        return False

    def __ge__(self, other: object) -> bool:
        return self == other


class MaxKey(_End):
    """The value above all others."""

    _type_marker = 127

    def __lt__(self, other: object) -> bool:
        return False

    def __le__(self, other: object) -> bool:
        return self == other

    def __gt__(self, other: object) -> bool:
        return not self == other

    def __ge__(self, other: object) -> bool:
        return True


class Pairs(List[Tuple[str, Any]]):
    """A document as a list of tuples of key and value: it has repeated keys as they are."""

    __slots__ = ()
    _type_marker = 101

    @property
    def raw(self) -> bytes:
        """The document's bytes; MongoDB's encoder takes these."""
        from ._native import encode

        return encode(self)

    def __repr__(self) -> str:
        return f"Pairs({super().__repr__()})"
