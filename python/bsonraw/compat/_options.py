"""CodecOptions, and what calls of bsonraw make of them."""

from __future__ import annotations

import abc
import uuid
from datetime import datetime, timezone, tzinfo
from enum import IntEnum
from functools import lru_cache
from typing import Any, Callable, Dict, Iterable, MutableMapping, NamedTuple, Optional, Tuple

from .._native import Int64
from .._types import BsonError, ElementType, ErrorKind
from .._values import Binary, Code, DatetimeMS, Decimal128, ObjectId, Pairs, Regex, Timestamp
from ._classes import DBRef, reference_of

_EPOCH = datetime(1970, 1, 1, tzinfo=timezone.utc)
_MOST = datetime.max.replace(microsecond=999000, tzinfo=timezone.utc)
_LEAST = datetime.min.replace(tzinfo=timezone.utc)


class UuidRepresentation:
    """How UUIDs are written."""

    UNSPECIFIED = 0
    STANDARD = 4
    PYTHON_LEGACY = 3
    JAVA_LEGACY = 5
    CSHARP_LEGACY = 6


class DatetimeConversion(IntEnum):
    """What becomes of times of years that datetime doesn't have."""

    DATETIME = 1
    """InvalidBSON is raised"""
    DATETIME_CLAMP = 2
    """the first or the last datetime"""
    DATETIME_MS = 3
    """each time is a DatetimeMS"""
    DATETIME_AUTO = 4
    """these times are a DatetimeMS"""


# ---- classes of others -----------------------------------------------------------------------------------------------


class TypeEncoder(abc.ABC):
    """Makes a value that can be written of one of a class."""

    @property
    @abc.abstractmethod
    def python_type(self) -> Any:
        """The class."""

    @abc.abstractmethod
    def transform_python(self, value: Any) -> Any:
        """What is written for a value."""


class TypeDecoder(abc.ABC):
    """Makes a value of a class of one that was read."""

    @property
    @abc.abstractmethod
    def bson_type(self) -> Any:
        """The class of the values that are read."""

    @abc.abstractmethod
    def transform_bson(self, value: Any) -> Any:
        """What comes in place of a value."""


class TypeCodec(TypeEncoder, TypeDecoder):
    """Both."""


_BUILT_IN = (str, bytes, int, float, bool, dict, list, tuple, datetime, uuid.UUID, type(None))


class TypeRegistry:
    """Encoders and decoders, and a call for values that none of them knows."""

    def __init__(self, type_codecs: Optional[Iterable[Any]] = None, fallback_encoder: Optional[Callable[[Any], Any]] = None) -> None:
        self.codecs = tuple(type_codecs or ())
        self.fallback = fallback_encoder
        self.encoders: Dict[Any, Callable[[Any], Any]] = {}
        self.decoders: Dict[Any, Callable[[Any], Any]] = {}
        if fallback_encoder is not None and not callable(fallback_encoder):
            raise TypeError(f"fallback_encoder {fallback_encoder!r} is not a callable")
        for codec in self.codecs:
            if not isinstance(codec, (TypeEncoder, TypeDecoder)):
                raise TypeError(f"Expected an instance of TypeEncoder, TypeDecoder, or TypeCodec, got {codec!r} instead")
            if isinstance(codec, TypeEncoder):
                if codec.python_type in _BUILT_IN:
                    raise TypeError(f"TypeEncoders cannot change how built-in types are encoded ({codec!r})")
                self.encoders[codec.python_type] = codec.transform_python
            if isinstance(codec, TypeDecoder):
                self.decoders[codec.bson_type] = codec.transform_bson

    def __repr__(self) -> str:
        return f"TypeRegistry(type_codecs={list(self.codecs)!r}, fallback_encoder={self.fallback!r})"

    def __eq__(self, other: object) -> bool:
        return isinstance(other, TypeRegistry) and (self.codecs, self.fallback) == (other.codecs, other.fallback)

    def __hash__(self) -> int:
        return hash((self.codecs, self.fallback))


class _Fields(NamedTuple):
    document_class: Any
    tz_aware: bool
    uuid_representation: int
    unicode_decode_error_handler: str
    tzinfo: Optional[tzinfo]
    type_registry: TypeRegistry
    datetime_conversion: Optional[DatetimeConversion]


class CodecOptions(_Fields):
    """What is read as what, as MongoDB's class of this name has it.

    The default of datetime_conversion is DATETIME_AUTO. Of
    unicode_decode_error_handler there is "strict" alone.
    """

    __slots__ = ()

    def __new__(
        cls,
        document_class: Any = None,
        tz_aware: bool = False,
        uuid_representation: int = UuidRepresentation.UNSPECIFIED,
        unicode_decode_error_handler: str = "strict",
        tzinfo: Optional[tzinfo] = None,
        type_registry: Optional[TypeRegistry] = None,
        datetime_conversion: Optional[int] = DatetimeConversion.DATETIME_AUTO,
    ) -> CodecOptions:
        if not isinstance(tz_aware, bool):
            raise TypeError(f"tz_aware must be True or False, was: tz_aware={tz_aware}")
        if uuid_representation not in (0, 3, 4, 5, 6):
            raise ValueError("uuid_representation must be a value from bson.binary.UuidRepresentation")
        if unicode_decode_error_handler not in ("strict", None):
            raise ValueError("unicode_decode_error_handler is 'strict': a text that isn't UTF-8 is damage")
        if tzinfo is not None and not tz_aware:
            raise ValueError("cannot specify tzinfo without also setting tz_aware=True")
        registry = TypeRegistry() if type_registry is None else type_registry
        if not isinstance(registry, TypeRegistry):
            raise TypeError("type_registry must be an instance of TypeRegistry")
        kind = dict if document_class is None else getattr(document_class, "__origin__", document_class)
        if not isinstance(kind, type) or not (issubclass(kind, MutableMapping) or getattr(kind, "_type_marker", None) == 101):
            raise TypeError(f"document_class is dict, SON, RawBSONDocument or another class of mutable mappings, not {document_class!r}")
        how = DatetimeConversion(DatetimeConversion.DATETIME_AUTO if datetime_conversion is None else datetime_conversion)
        return super().__new__(cls, kind, tz_aware, uuid_representation, "strict", tzinfo, registry, how)

    def with_options(self, **kwargs: Any) -> CodecOptions:
        """The same with some of them changed."""
        return CodecOptions(**{**self._asdict(), **kwargs})

    def __getnewargs__(self) -> Tuple[Any, ...]:
        return tuple(self)


DEFAULT_CODEC_OPTIONS = CodecOptions()


# ---- options of bsonraw.decode ---------------------------------------------------------------------------------------

_CLASSES: Dict[Any, ElementType] = {
    float: ElementType.DOUBLE,
    str: ElementType.STRING,
    ObjectId: ElementType.OBJECT_ID,
    bool: ElementType.BOOLEAN,
    datetime: ElementType.DATETIME,
    type(None): ElementType.NULL,
    Regex: ElementType.REGEX,
    int: ElementType.INT32,
    Int64: ElementType.INT64,
    Timestamp: ElementType.TIMESTAMP,
    Decimal128: ElementType.DECIMAL128,
    Binary: ElementType.BINARY,
    Code: ElementType.JAVASCRIPT,
}


def _out_of_range(value: DatetimeMS) -> BsonError:
    error = BsonError(ErrorKind.MALFORMED)
    error.args = (f"{int(value)} milliseconds from 1970 on are in no year that datetime has",)
    return error


def _time_maker(options: CodecOptions) -> Optional[Callable[[Any], Any]]:
    """What makes a time of a datetime, which is aware where they are, or of a DatetimeMS; None where it is one already."""
    how, zone = options.datetime_conversion, options.tzinfo

    def make(value: Any) -> Any:
        if how is DatetimeConversion.DATETIME_MS:
            aware = value if isinstance(value, DatetimeMS) or value.tzinfo else value.replace(tzinfo=timezone.utc)
            return aware if isinstance(aware, DatetimeMS) else DatetimeMS((aware - _EPOCH) // (datetime.resolution * 1000))
        if isinstance(value, DatetimeMS):
            if how is DatetimeConversion.DATETIME:
                raise _out_of_range(value)
            if how is not DatetimeConversion.DATETIME_CLAMP:
                return value
            value = _MOST if value > 0 else _LEAST
            value = value if options.tz_aware else value.replace(tzinfo=None)
        try:
            return value if zone is None else value.astimezone(zone)
        except OverflowError:
            return value

    return None if how is DatetimeConversion.DATETIME_AUTO and zone is None else make


def _binary_maker(representation: int) -> Callable[[bytes, int], Any]:
    def make(data: bytes, subtype: int) -> Any:
        binary = Binary(data, subtype)
        is_one = len(data) == 16 and subtype == (4 if representation == UuidRepresentation.STANDARD else 3)
        return binary.as_uuid(representation) if is_one else binary

    return make


def _int64_of(decoder: Callable[[Any], Any]) -> Callable[[int], Any]:
    return lambda number: decoder(Int64(number))


def _undefined(value: Any) -> None:
    return None


def _pointer_of(value: Any) -> DBRef:
    return DBRef(value.namespace, value.id)


def _code_of(value: Code) -> Code:
    scope = value.scope
    return Code(value.code, dict(scope) if isinstance(scope, Pairs) else scope)


def _makers(options: CodecOptions) -> Tuple[Any, ...]:
    """By the tags of BSON what makes a value of what bsonraw reads."""
    makers: Dict[int, Any] = {
        ElementType.DOCUMENT: reference_of,
        ElementType.UNDEFINED: _undefined,
        ElementType.DB_POINTER: _pointer_of,
        ElementType.SYMBOL: str.__str__,
    }
    time = _time_maker(options)
    if time is not None:
        makers[ElementType.DATETIME] = time
    if options.uuid_representation not in (UuidRepresentation.UNSPECIFIED, UuidRepresentation.STANDARD):
        makers[ElementType.BINARY] = _binary_maker(options.uuid_representation)
    for kind, decoder in options.type_registry.decoders.items():
        tag = _CLASSES.get(kind)
        if tag is None:
            continue
        first = makers.get(tag)
        if tag is ElementType.INT64:
            makers[tag] = _int64_of(decoder)
        elif tag is ElementType.DECIMAL128:
            makers[tag] = _then(Decimal128.from_bid, decoder)
        elif tag is ElementType.TIMESTAMP:
            makers[tag] = _then(Timestamp, decoder)
        elif tag is ElementType.BINARY:
            makers[tag] = _then(first or Binary, decoder)
        else:
            makers[tag] = decoder if first is None else _then(first, decoder)
    return tuple(makers.get(tag) for tag in range(256))


def _then(first: Callable[..., Any], second: Callable[[Any], Any]) -> Callable[..., Any]:
    return lambda *parts: second(first(*parts))


def _as_it_is(document: Any) -> Any:
    return document


def _whole(document_class: Any) -> Callable[[Any], Any]:
    """A document itself is none of its references."""
    return lambda document: document_class(document.as_doc()) if isinstance(document, DBRef) else document


def _hook(document_class: Any) -> Callable[[Dict[str, Any]], Any]:
    def make(document: Dict[str, Any]) -> Any:
        found = reference_of(document) if "$ref" in document else document
        return found if found is not document else document_class(document)

    return make


@lru_cache(maxsize=64)
def asked(options: CodecOptions) -> Tuple[Dict[str, Any], Callable[[Any], Any]]:
    """The options of bsonraw.decode, and what is made of what it returns."""
    call: Dict[str, Any] = {"types": _makers(options), "tz_aware": options.tz_aware}
    if options.uuid_representation == UuidRepresentation.STANDARD:
        call["uuid"] = True
    if options.document_class is dict:
        return call, _as_it_is
    return {**call, "object_hook": _hook(options.document_class)}, _whole(options.document_class)
