"""Extended JSON of any value, read and written, in the forms of version 2 and in those of old."""

from __future__ import annotations

import base64
import json
import re
import uuid as uuids
from datetime import datetime, timedelta, timezone, tzinfo
from math import isfinite
from typing import Any, Callable, Dict, List, Mapping, NamedTuple, Optional, Tuple, Union

from .. import _native
from .._foreign import convert
from .._native import Int64
from .._values import (
    Binary,
    Code,
    DatetimeMS,
    DBPointer,
    Decimal128,
    MaxKey,
    MinKey,
    ObjectId,
    Pairs,
    Regex,
    Symbol,
    Timestamp,
    Undefined,
)
from ._classes import SON, DBRef
from ._options import CodecOptions, UuidRepresentation

_EPOCH = datetime(1970, 1, 1, tzinfo=timezone.utc)


class JSONMode:
    """How values are written."""

    LEGACY = 0
    RELAXED = 1
    CANONICAL = 2


class DatetimeRepresentation:
    """How dates are written in the mode LEGACY."""

    LEGACY = 0
    NUMBERLONG = 1
    ISO8601 = 2


# What each mode but LEGACY has of strict_number_long, datetime_representation and strict_uuid.
_OF_MODES = {
    JSONMode.RELAXED: (False, DatetimeRepresentation.ISO8601, True),
    JSONMode.CANONICAL: (True, DatetimeRepresentation.NUMBERLONG, True),
}


def _of_mode(mode: int, long: Optional[bool], dates: Optional[int], uuid: Optional[bool]) -> Tuple[Any, ...]:
    """The three options in a mode. Raises ValueError for one that the mode has otherwise."""
    if dates not in (None, DatetimeRepresentation.LEGACY, DatetimeRepresentation.NUMBERLONG, DatetimeRepresentation.ISO8601):
        raise ValueError("JSONOptions.datetime_representation must be one of LEGACY, NUMBERLONG, or ISO8601 from DatetimeRepresentation.")
    if mode == JSONMode.LEGACY:
        return bool(long), dates or DatetimeRepresentation.LEGACY, bool(uuid)
    of_mode, name = _OF_MODES[mode], "RELAXED" if mode == JSONMode.RELAXED else "CANONICAL"
    for option, given, there in zip(("strict_number_long", "datetime_representation", "strict_uuid"), (long, dates, uuid), of_mode):
        if given is not None and given != there:
            raise ValueError(f"{option} is {there!r} with JSONMode.{name}, and can't be {given!r}")
    return of_mode


class _Fields(NamedTuple):
    json_mode: int
    strict_number_long: bool
    datetime_representation: int
    strict_uuid: bool
    document_class: Any
    tz_aware: bool
    uuid_representation: int
    tzinfo: Optional[tzinfo]


class JSONOptions(_Fields):
    """How values are written and read, as MongoDB's class of this name has it; its default is RELAXED, as in version 4."""

    __slots__ = ()

    def __new__(
        cls,
        strict_number_long: Optional[bool] = None,
        datetime_representation: Optional[int] = None,
        strict_uuid: Optional[bool] = None,
        json_mode: int = JSONMode.RELAXED,
        document_class: Any = None,
        tz_aware: Optional[bool] = None,
        uuid_representation: int = UuidRepresentation.UNSPECIFIED,
        tzinfo: Optional[tzinfo] = None,
        **unused: Any,
    ) -> JSONOptions:
        if json_mode not in (0, 1, 2):
            raise ValueError("JSONOptions.json_mode must be one of LEGACY, RELAXED, or CANONICAL from JSONMode.")
        long, dates, uuid = _of_mode(json_mode, strict_number_long, datetime_representation, strict_uuid)
        CodecOptions(tz_aware=bool(tz_aware), tzinfo=tzinfo, uuid_representation=uuid_representation, **unused)
        return super().__new__(cls, json_mode, long, dates, uuid, document_class or dict, bool(tz_aware), uuid_representation, tzinfo)

    def with_options(self, **kwargs: Any) -> JSONOptions:
        """The same with some of them changed."""
        return JSONOptions(**{**self._asdict(), **kwargs})

    def __getnewargs__(self) -> Tuple[Any, ...]:
        mode, long, dates, strict, *rest = self
        return (long, dates, strict, mode, *rest)


LEGACY_JSON_OPTIONS = JSONOptions(json_mode=JSONMode.LEGACY)
RELAXED_JSON_OPTIONS = JSONOptions(json_mode=JSONMode.RELAXED)
CANONICAL_JSON_OPTIONS = JSONOptions(json_mode=JSONMode.CANONICAL)
DEFAULT_JSON_OPTIONS = RELAXED_JSON_OPTIONS


# ---- writing ---------------------------------------------------------------------------------------------------------


def dumps(obj: Any, *args: Any, json_options: JSONOptions = DEFAULT_JSON_OPTIONS, **kwargs: Any) -> str:
    """The text of any value: json.dumps, whose arguments it takes, of what is in the value's place."""
    return json.dumps(_written(obj, json_options), *args, **kwargs)


def _written(value: Any, options: JSONOptions) -> Any:
    """A value in the terms of json."""
    if value is None or isinstance(value, (bool, str)) and type(value) in (bool, str):
        return value
    if isinstance(value, Pairs):
        value = SON(value)
    if hasattr(value, "_type_marker") and value._type_marker in (100, 101):
        value = value.as_doc() if value._type_marker == 100 else dict(value.items())
    if isinstance(value, Mapping):
        return {key: _written(one, options) for key, one in value.items()}
    if isinstance(value, (list, tuple)):
        return [_written(one, options) for one in value]
    return default(value, options)


def default(obj: Any, json_options: JSONOptions = DEFAULT_JSON_OPTIONS) -> Any:
    """What is in the place of a value of one of BSON's kinds."""
    mode = json_options.json_mode
    if isinstance(obj, (str, bool)) and not isinstance(obj, (Symbol, Code)):
        return str(obj) if isinstance(obj, str) else obj
    if isinstance(obj, int) and not isinstance(obj, DatetimeMS):
        return _int(obj, json_options)
    if isinstance(obj, float):
        return _double(float(obj), mode)
    if mode == JSONMode.LEGACY or isinstance(obj, (datetime, DatetimeMS, uuids.UUID)):
        return _legacy(obj, json_options)
    style: Any = "canonical" if mode == JSONMode.CANONICAL else "relaxed"
    return json.loads(_native.to_json(_native.encode({"": obj}), style=style))[""]


def _int(value: int, options: JSONOptions) -> Any:
    if options.json_mode == JSONMode.CANONICAL:
        is_long = isinstance(value, Int64) or not -(1 << 31) <= value < 1 << 31
        return {"$numberLong" if is_long else "$numberInt": str(int(value))}
    return {"$numberLong": str(int(value))} if options.strict_number_long and isinstance(value, Int64) else int(value)


def _double(value: float, mode: int) -> Any:
    if mode == JSONMode.LEGACY or (mode == JSONMode.RELAXED and isfinite(value)):
        return value
    text = repr(value) if isfinite(value) else "NaN" if value != value else "Infinity" if value > 0 else "-Infinity"
    return {"$numberDouble": text}


def _iso(value: datetime) -> str:
    text = value.strftime("%Y-%m-%dT%H:%M:%S")
    text = text.rjust(19, "0")
    millis = value.microsecond // 1000
    offset = value.utcoffset() or timedelta()
    minutes = offset // timedelta(minutes=1)
    zone = "Z" if not minutes else f"{'-' if minutes < 0 else '+'}{abs(minutes) // 60:02}:{abs(minutes) % 60:02}"
    return text + (f".{millis:03}" if millis else "") + zone


def _date(value: Any, options: JSONOptions) -> Any:
    how = options.datetime_representation
    if isinstance(value, DatetimeMS):
        millis, aware = int(value), None
    else:
        aware = value if value.utcoffset() is not None else value.replace(tzinfo=timezone.utc)
        millis = (aware - _EPOCH) // timedelta(milliseconds=1)
    if how == DatetimeRepresentation.ISO8601 and aware is not None and millis >= 0:
        return {"$date": _iso(aware)}
    return {"$date": millis if how == DatetimeRepresentation.LEGACY else {"$numberLong": str(millis)}}


def _of_binary(data: bytes, subtype: int, options: JSONOptions) -> Any:
    text = base64.b64encode(data).decode()
    if options.json_mode == JSONMode.LEGACY:
        return {"$binary": text, "$type": f"{subtype:02x}"}
    return {"$binary": {"base64": text, "subType": f"{subtype:02x}"}}


def _legacy(obj: Any, options: JSONOptions) -> Any:
    if isinstance(obj, (datetime, DatetimeMS)):
        return _date(obj, options)
    if isinstance(obj, uuids.UUID):
        if not options.strict_uuid:
            return {"$uuid": obj.hex}
        binary = Binary.from_uuid(obj, options.uuid_representation or 4)
        return _of_binary(bytes(binary), binary.subtype, options)
    known = obj if type(obj) in _LEGACY else convert(obj)
    for kind, make in _LEGACY.items():
        if isinstance(known, kind):
            return make(known, options)
    raise TypeError(f"{obj!r} is not JSON serializable")


def _code(value: Code, options: JSONOptions) -> Any:
    scope = value.scope
    return {"$code": value.code} if scope is None else {"$code": value.code, "$scope": _written(dict(scope), options)}


_LEGACY: Dict[Any, Callable[[Any, JSONOptions], Any]] = {
    ObjectId: lambda value, options: {"$oid": str(value)},
    Regex: lambda value, options: {"$regex": value.pattern, "$options": value.options},
    Binary: lambda value, options: _of_binary(bytes(value), value.subtype, options),
    bytes: lambda value, options: _of_binary(value, 0, options),
    Timestamp: lambda value, options: {"$timestamp": {"t": value.time, "i": value.increment}},
    Decimal128: lambda value, options: {"$numberDecimal": str(value)},
    Code: _code,
    Symbol: lambda value, options: {"$symbol": str.__str__(value)},
    DBPointer: lambda value, options: {"$dbPointer": {"$ref": value.namespace, "$id": {"$oid": str(value.id)}}},
    MinKey: lambda value, options: {"$minKey": 1},
    MaxKey: lambda value, options: {"$maxKey": 1},
    Undefined: lambda value, options: {"$undefined": True},
}


# ---- reading ---------------------------------------------------------------------------------------------------------


def loads(s: Union[str, bytes, bytearray], *args: Any, json_options: JSONOptions = DEFAULT_JSON_OPTIONS, **kwargs: Any) -> Any:
    """The value of a text: json.loads, whose arguments it takes, with BSON's kinds for their forms, also those of old."""
    kwargs["object_pairs_hook"] = lambda pairs: object_pairs_hook(pairs, json_options)
    return json.loads(s, *args, **kwargs)


def object_pairs_hook(pairs: List[Tuple[str, Any]], json_options: JSONOptions = DEFAULT_JSON_OPTIONS) -> Any:
    """The value of an object's keys and values."""
    return object_hook(json_options.document_class(pairs), json_options)


def object_hook(dct: Any, json_options: JSONOptions = DEFAULT_JSON_OPTIONS) -> Any:
    """The value of an object, which is the object itself where it is no form of another kind."""
    for key, read in _READERS.items():
        if key in dct:
            return read(dct, json_options)
    return dct


def _only(document: Any, *keys: str) -> Any:
    """The value at the first key of an object that has these keys alone."""
    if set(document) - set(keys):
        raise TypeError(f"Bad {keys[0]}, extra field(s): {dict(document)!r}")
    return document[keys[0]]


def _text(value: Any, name: str) -> str:
    if not isinstance(value, str):
        raise TypeError(f"{name} must be string: {value!r}")
    return value


_TIME = re.compile(r"(\d{4}-\d\d-\d\dT\d\d:\d\d:\d\d)(?:\.(\d{1,9}))?(Z|[+-]\d\d(?::?\d\d)?)?\Z")


def _zone_of(text: Optional[str]) -> timedelta:
    if text in (None, "Z"):
        return timedelta()
    digits = str(text)[1:].replace(":", "").ljust(4, "0")
    offset = timedelta(hours=int(digits[:2]), minutes=int(digits[2:]))
    return -offset if str(text)[0] == "-" else offset


def _read_date(document: Any, options: JSONOptions) -> Any:
    given = _only(document, "$date")
    if isinstance(given, str):
        found = _TIME.match(given)
        if found is None:
            raise ValueError(f"time data {given!r} does not match format")
        when = datetime.strptime(found[1], "%Y-%m-%dT%H:%M:%S").replace(tzinfo=timezone.utc)
        when = when.replace(microsecond=int((found[2] or "0").ljust(6, "0")[:6])) - _zone_of(found[3])
    else:
        try:
            when = _EPOCH + timedelta(milliseconds=int(given))
        except OverflowError:
            return DatetimeMS(int(given))
    if not options.tz_aware:
        return when.replace(tzinfo=None)
    return when if options.tzinfo is None else when.astimezone(options.tzinfo)


def _read_binary(document: Any, options: JSONOptions) -> Any:
    given = document["$binary"]
    if isinstance(given, str):
        subtype = document.get("$type", "00")
        text, subtype = given, f"{subtype:02x}" if isinstance(subtype, int) else _text(subtype, "$type")
        _only(document, "$binary", "$type")
    else:
        _only(document, "$binary")
        text, subtype = _text(given["base64"], "$binary base64"), _text(given["subType"], "$binary subType")
        if set(given) != {"base64", "subType"} or len(subtype) > 2:
            raise TypeError(f"$binary must include base64 and subType: {dict(document)!r}")
    number = int(subtype, 16)
    if number >= 0xFFFFFF80:  # as a number of 32 bits that is below 0
        number -= 0xFFFFFF00
    return _binary_of(base64.b64decode(text), number, options)


def _binary_of(data: bytes, subtype: int, options: JSONOptions) -> Any:
    representation = options.uuid_representation
    if len(data) == 16 and subtype in (3, 4) and representation and (subtype == 4) == (representation == UuidRepresentation.STANDARD):
        return Binary(data, subtype).as_uuid(representation)
    return data if subtype == 0 else Binary(data, subtype)


def _read_uuid(document: Any, options: JSONOptions) -> Any:
    value = uuids.UUID(_text(_only(document, "$uuid"), "$uuid"))
    return value if options.uuid_representation != UuidRepresentation.UNSPECIFIED else Binary(value.bytes, 4)


def _read_regex(document: Any, options: JSONOptions) -> Any:
    if not isinstance(document["$regex"], str):
        return document  # an operator of a query
    return Regex(document["$regex"], "".join(sorted(document.get("$options", ""))))


def _read_regular_expression(document: Any, options: JSONOptions) -> Any:
    given = _only(document, "$regularExpression")
    if len(given) != 2:
        raise TypeError(f'Bad $regularExpression must include only "pattern and "options" components: {dict(document)!r}')
    return Regex(_text(given["pattern"], "pattern"), _text(given["options"], "options"))


def _read_timestamp(document: Any, options: JSONOptions) -> Any:
    given = _only(document, "$timestamp")
    return Timestamp(given["t"], given["i"])


def _read_code(document: Any, options: JSONOptions) -> Any:
    code = _text(_only(document, "$code", "$scope"), "$code")
    return Code(code, document.get("$scope"))


def _read_reference(document: Any, options: JSONOptions) -> Any:
    if "$id" not in document or not isinstance(document["$ref"], str) or not isinstance(document.get("$db", ""), (str, type(None))):
        return document
    rest = {key: of for key, of in document.items() if key not in ("$ref", "$id", "$db")}
    return DBRef(document["$ref"], document["$id"], document.get("$db"), rest)


def _read_pointer(document: Any, options: JSONOptions) -> Any:
    given = _only(document, "$dbPointer")
    if isinstance(given, DBRef):
        return given
    raise TypeError(f"Bad $dbPointer, expected a DBRef: {dict(document)!r}")


def _read_key(key: str, kind: Any) -> Callable[[Any, JSONOptions], Any]:
    def read(document: Any, options: JSONOptions) -> Any:
        if type(_only(document, key)) is not int or document[key] != 1:
            raise TypeError(f"{key} value must be 1: {dict(document)!r}")
        return kind()

    return read


def _read_undefined(document: Any, options: JSONOptions) -> None:
    if _only(document, "$undefined") is not True:
        raise TypeError(f"$undefined value must be true: {dict(document)!r}")


def _read_text(key: str, kind: Callable[[str], Any]) -> Callable[[Any, JSONOptions], Any]:
    return lambda document, options: kind(_text(_only(document, key), key))


_READERS: Dict[str, Callable[[Any, JSONOptions], Any]] = {
    "$oid": _read_text("$oid", ObjectId),
    "$ref": _read_reference,
    "$date": _read_date,
    "$regex": _read_regex,
    "$minKey": _read_key("$minKey", MinKey),
    "$maxKey": _read_key("$maxKey", MaxKey),
    "$binary": _read_binary,
    "$code": _read_code,
    "$uuid": _read_uuid,
    "$undefined": _read_undefined,
    "$numberLong": _read_text("$numberLong", lambda text: Int64(int(text))),
    "$timestamp": _read_timestamp,
    "$numberDecimal": _read_text("$numberDecimal", Decimal128),
    "$dbPointer": _read_pointer,
    "$regularExpression": _read_regular_expression,
    "$symbol": _read_text("$symbol", str),
    "$numberInt": _read_text("$numberInt", int),
    "$numberDouble": _read_text("$numberDouble", float),
}
