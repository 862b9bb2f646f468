"""Values of other classes: of MongoDB's package, of the standard library, of numpy, and classes over ours."""

from __future__ import annotations

import operator
import re
import uuid
from datetime import datetime, timedelta, timezone
from functools import lru_cache
from typing import Any, Callable, Dict, List, Mapping, Tuple

from ._edit import RawDocument
from ._native import Int64
from ._types import BsonError, DamagedError, ElementType, LimitError
from ._values import (
    Binary,
    Code,
    DatetimeMS,
    DBPointer,
    Decimal128,
    MaxKey,
    MinKey,
    ObjectId,
    Pairs,
    Regex,
    Symbol,
    Timestamp,
)

_EPOCH = datetime(1970, 1, 1, tzinfo=timezone.utc)


def _regex(pattern: Any, flags: int) -> Regex:
    return Regex(pattern.decode() if isinstance(pattern, bytes) else pattern, flags)


def _millis(value: datetime) -> Any:
    if value != value:  # pandas.NaT is over datetime, and is none
        return NotImplemented
    aware = value if value.utcoffset() is not None else value.replace(tzinfo=timezone.utc)
    return DatetimeMS((aware - _EPOCH) // timedelta(milliseconds=1))


# Classes of MongoDB's package, by the marks that they have for one another.
_MARKED: Dict[int, Callable[[Any], Any]] = {
    5: lambda value: bytes(value) if value.subtype == 0 else Binary(bytes(value), value.subtype),
    7: lambda value: ObjectId(value.binary),
    9: lambda value: DatetimeMS(int(value)),
    11: lambda value: _regex(value.pattern, value.flags),
    13: lambda value: Code(str(value), None if value.scope is None else Pairs(value.scope.items())),
    17: lambda value: Timestamp(value.time, value.inc),
    18: lambda value: Int64(int(value)),
    19: lambda value: Decimal128(value.bid),
    100: lambda value: Pairs(value.as_doc().items()),
    101: lambda value: RawDocument(value.raw),
    127: lambda value: MaxKey(),
    255: lambda value: MinKey(),
}

# Classes over these: over ours first, since some of ours are over Python's, and have MongoDB's marks.
_OVER = (
    (Int64, lambda value: Int64(int(value))),
    (DatetimeMS, lambda value: DatetimeMS(int(value))),
    (Symbol, lambda value: Symbol(str.__str__(value))),
    (ObjectId, lambda value: ObjectId(bytes(value))),
    (Timestamp, lambda value: Timestamp(value.time, value.increment)),
    (Decimal128, lambda value: Decimal128(bytes(value))),
    (Regex, lambda value: Regex(value.pattern, value.options)),
    (Binary, lambda value: Binary(value.data, value.subtype)),
    (Code, lambda value: Code(value.code, value.scope)),
    (DBPointer, lambda value: DBPointer(value.namespace, value.id)),
    (Pairs, Pairs),
)  # type: Tuple[Tuple[Any, Callable[[Any], Any]], ...]

# Classes over Python's, and others of the standard library.
_OTHERS = (
    (Mapping, lambda value: Pairs(value.items())),
    (str, str.__str__),
    (datetime, _millis),
    (float, float),
    ((list, tuple), list),
    ((bytes, bytearray, memoryview), bytes),
    (uuid.UUID, lambda value: Binary(value.bytes, 4)),
    (re.Pattern, lambda value: _regex(value.pattern, value.flags)),
)  # type: Tuple[Tuple[Any, Callable[[Any], Any]], ...]

# Numbers of numpy, by the letter of their kind.
_NUMBERS: Dict[str, Callable[[Any], Any]] = {"b": bool, "i": int, "u": int, "f": float}


def _number_kind(value: Any) -> Any:
    """Of one number of numpy the letter of its kind."""
    kind = getattr(getattr(value, "dtype", None), "kind", None)
    return kind if kind in _NUMBERS and getattr(value, "shape", None) == () else None


def convert(value: Any) -> Any:
    """A value of one of the classes that the module writes, for a value of another class; or NotImplemented."""
    for kind, make in _OVER:
        if isinstance(value, kind):
            return make(value)
    mark = getattr(value, "_type_marker", None)
    if isinstance(mark, int) and mark in _MARKED:
        return _MARKED[mark](value)
    for kind, make in _OTHERS:
        if isinstance(value, kind):
            return make(value)
    kind = _number_kind(value)
    if kind is not None:
        return _NUMBERS[kind](value)
    try:
        return int(operator.index(value))
    except TypeError:
        return NotImplemented


def placed(error: BaseException, path: List[int], keys: List[str]) -> BaseException:
    """An error of encode that says where the value is; one of other code as it is, with the place as a note where Python has notes."""
    made: BaseException
    place = f"at key {'.'.join(keys)!r}"
    if type(error) in (BsonError, DamagedError, LimitError):
        assert isinstance(error, BsonError)
        places = (*path, *error.path), (*keys, *error.keys)
        made = BsonError(error.kind, error.reason, error.key, None, *places, *error._numbers)
    elif not keys:
        return error
    elif type(error) in (TypeError, OverflowError):
        made = type(error)(f"{place}: {error}")
    elif type(error) is UnicodeEncodeError:
        made = UnicodeEncodeError(error.encoding, error.object, error.start, error.end, f"{place}: {error.reason}")
    else:
        if hasattr(error, "add_note"):
            error.add_note(place)
        return error
    made.__cause__ = error.__cause__
    return made.with_traceback(error.__traceback__)


# ---- MongoDB's classes -----------------------------------------------------------------------------------------------


def _makers() -> Dict[int, Callable[[Any], Any]]:
    """What makes MongoDB's values: of the parts of numbers, binaries and timestamps, and of an id where its class is here; else
    of ours."""
    from bson import (  # type: ignore[import]
        binary,
        code,
        dbref,
        decimal128,
        int64,
        max_key,
        min_key,
        objectid,
        regex,
        timestamp,
    )

    def code_of(value: Code) -> Any:
        scope = value.scope
        return code.Code(value.code, dict(scope) if isinstance(scope, Pairs) else scope)

    def pointer_of(value: DBPointer) -> Any:
        return dbref.DBRef(value.namespace, objectid.ObjectId(value.id.binary))

    def reference_of(value: Dict[str, Any]) -> Any:
        if not isinstance(value["$ref"], str) or "$id" not in value or not isinstance(value.get("$db", ""), (str, type(None))):
            return value
        rest = {key: of for key, of in value.items() if key not in ("$ref", "$id", "$db")}
        return dbref.DBRef(value["$ref"], value["$id"], value.get("$db"), rest)

    has_slot = "_ObjectId__id" in getattr(objectid.ObjectId, "__slots__", ()) or hasattr(objectid.ObjectId, "_ObjectId__id")
    return {
        ElementType.DOCUMENT: reference_of,
        ElementType.BINARY: binary.Binary,
        ElementType.UNDEFINED: lambda value: None,
        ElementType.OBJECT_ID: objectid.ObjectId if has_slot else lambda value: objectid.ObjectId(value.binary),
        ElementType.REGEX: lambda value: regex.Regex(value.pattern, value.flags),
        ElementType.DB_POINTER: pointer_of,
        ElementType.JAVASCRIPT: code_of,
        ElementType.SYMBOL: str.__str__,
        ElementType.JAVASCRIPT_WITH_SCOPE: code_of,
        ElementType.TIMESTAMP: timestamp.Timestamp,
        ElementType.INT64: int64.Int64,
        ElementType.DECIMAL128: decimal128.Decimal128.from_bid,
        ElementType.MIN_KEY: lambda value: min_key.MinKey(),
        ElementType.MAX_KEY: lambda value: max_key.MaxKey(),
    }


def types_of(name: Any) -> Tuple[Any, ...]:
    """What makes another package's values of ours, by the tags of BSON; None where ours are its own. A tuple of 256 is it already."""
    return name if type(name) is tuple and len(name) == 256 else _types_of(name)


@lru_cache(maxsize=None)
def _types_of(name: str) -> Tuple[Any, ...]:
    if name != "bson":
        raise ValueError(f"types is {name!r}, not None or 'bson'")
    try:
        import bson

        makers = _makers() if hasattr(bson, "BSON") else None
    except ImportError as error:
        raise ImportError(f"types='bson' needs MongoDB's package bson, which isn't there ({error})") from None
    if makers is None:
        raise ImportError("types='bson' needs MongoDB's package, but the package bson that is there is another one")
    return tuple(makers.get(tag) for tag in range(256))
