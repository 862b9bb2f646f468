"""The names of MongoDB's package bson, over bsonraw: a program changes one import.

    >>> import bsonraw.compat as bson
    >>> data = bson.encode({"_id": bson.ObjectId("5f2b00000000000000000001"), "n": 1})
    >>> bson.decode(data, bson.CodecOptions(document_class=bson.SON))["n"]
    1

The calls, classes and errors are those of version 4 of that package, with its
modules `json_util`, `objectid`, `codec_options` and so on. docs/PYTHON.md says
what differs.
"""

from __future__ import annotations

from datetime import datetime, timezone
from typing import Any, Iterator, List, Mapping, Optional

from .. import _native
from .. import documents as _documents
from .._native import Int64, first_fault
from .._types import BSONError, BsonError
from .._values import (
    Binary,
    Code,
    DatetimeMS,
    Decimal128,
    InvalidId,
    MaxKey,
    MinKey,
    ObjectId,
    Regex,
    Timestamp,
)
from ._classes import SON, BSON, DBRef, RawBSONDocument
from ._encoding import InvalidDocument, InvalidStringData, encoded
from ._options import (
    DEFAULT_CODEC_OPTIONS,
    CodecOptions,
    DatetimeConversion,
    TypeCodec,
    TypeDecoder,
    TypeEncoder,
    TypeRegistry,
    UuidRepresentation,
    asked,
)

InvalidBSON = BsonError
EPOCH_AWARE = datetime(1970, 1, 1, tzinfo=timezone.utc)
EPOCH_NAIVE = datetime(1970, 1, 1)
BSON_MAX_BYTES = 0x7FFFFFFF
"""How many bytes a document may have that is read."""

__all__ = [
    "BSON",
    "BSONError",
    "Binary",
    "Code",
    "CodecOptions",
    "DBRef",
    "DEFAULT_CODEC_OPTIONS",
    "DatetimeConversion",
    "DatetimeMS",
    "Decimal128",
    "EPOCH_AWARE",
    "EPOCH_NAIVE",
    "Int64",
    "InvalidBSON",
    "InvalidDocument",
    "InvalidId",
    "InvalidStringData",
    "MaxKey",
    "MinKey",
    "ObjectId",
    "RawBSONDocument",
    "Regex",
    "SON",
    "Timestamp",
    "TypeCodec",
    "TypeDecoder",
    "TypeEncoder",
    "TypeRegistry",
    "UuidRepresentation",
    "decode",
    "decode_all",
    "decode_file_iter",
    "decode_iter",
    "encode",
    "has_c",
    "is_valid",
]


def _checked(codec_options: Optional[CodecOptions]) -> CodecOptions:
    options = DEFAULT_CODEC_OPTIONS if codec_options is None else codec_options
    if not isinstance(options, CodecOptions):
        raise TypeError(f"codec_options must be an instance of CodecOptions, not {type(options).__name__}")
    return options


def encode(document: Mapping[str, Any], check_keys: bool = False, codec_options: Optional[CodecOptions] = None) -> bytes:
    """The bytes of a document. Its _id comes first. Raises InvalidDocument for what can't be written."""
    return encoded(document, check_keys, _checked(codec_options))


def decode(data: Any, codec_options: Optional[CodecOptions] = None) -> Any:
    """A document's values. Raises InvalidBSON for damage."""
    options = _checked(codec_options)
    if options.document_class is RawBSONDocument:
        return RawBSONDocument(data, options)
    call, finish = asked(options)
    return finish(_native.decode(data, max_bytes=BSON_MAX_BYTES, **call))


def decode_all(data: Any, codec_options: Optional[CodecOptions] = None) -> List[Any]:
    """The values of all documents of a dump."""
    return list(decode_iter(data, codec_options))


def decode_iter(data: Any, codec_options: Optional[CodecOptions] = None) -> Iterator[Any]:
    """The values of each document of a dump, one after the other."""
    options = _checked(codec_options)
    return _each(_native.documents(None, data, BSON_MAX_BYTES), options)


def decode_file_iter(file_obj: Any, codec_options: Optional[CodecOptions] = None) -> Iterator[Any]:
    """The same of a file that is open for reading bytes."""
    options = _checked(codec_options)
    return _each(_documents(file_obj, max_bytes=BSON_MAX_BYTES), options)


def _each(cut: Any, options: CodecOptions) -> Iterator[Any]:
    if options.document_class is RawBSONDocument:
        for _, data in cut:
            yield RawBSONDocument(data, options)
        return
    call, finish = asked(options)
    yield from map(finish, _native.decode_iter(cut, max_bytes=BSON_MAX_BYTES, **call))


def is_valid(bson: bytes) -> bool:
    """Whether bytes are a document without damage."""
    if not isinstance(bson, bytes):
        raise TypeError(f"BSON data must be an instance of a subclass of bytes, not {type(bson).__name__}")
    return first_fault(bson, max_bytes=BSON_MAX_BYTES) is None


def has_c() -> bool:
    """That the calls are in C."""
    return True
