"""Documents as MongoDB's package writes them."""

from __future__ import annotations

import uuid
from typing import Any, Callable, Mapping, Optional

from .. import _native
from .._edit import RawDocument
from .._types import BSONError, BsonError
from .._values import Binary, Code, Pairs
from ._classes import RawBSONDocument
from ._options import CodecOptions


# The marks of classes, ours and MongoDB's: of a code, of a DBRef, and of documents as bytes.
_CODE, _REFERENCE, _RAW = 13, 100, 101


class InvalidDocument(BSONError):
    """A document can't be written."""


class InvalidStringData(BSONError):
    """A text can't be written."""


def _checked(value: Any) -> Any:
    """The value, after a look for keys that servers of old refuse."""
    if isinstance(value, Mapping):
        for key, one in value.items():
            if isinstance(key, str) and key.startswith("$"):
                raise InvalidDocument(f"key {key!r} must not start with '$'")
            if isinstance(key, str) and "." in key:
                raise InvalidDocument(f"key {key!r} must not contain '.'")
            _checked(one)
    elif isinstance(value, (list, tuple)):
        for one in value:
            _checked(one)
    return value


def _changed(value: Any, change: Callable[[Any], Any]) -> Any:
    """A value with each one inside changed."""
    made = change(value)
    if made is not value:
        return _changed(made, change) if type(made) is not type(value) else made
    mark = getattr(value, "_type_marker", None)
    if mark == _REFERENCE:
        return _changed(value.as_doc(), change)
    if mark == _CODE:
        return value if value.scope is None else Code(str(value), _changed(value.scope, change))
    if isinstance(value, Pairs):
        return Pairs((key, _changed(one, change)) for key, one in value)
    if isinstance(value, Mapping) and mark != _RAW:
        return {key: _changed(one, change) for key, one in value.items()}
    return [_changed(one, change) for one in value] if isinstance(value, (list, tuple)) else value


def _changer(options: CodecOptions) -> Optional[Callable[[Any], Any]]:
    encoders, representation = options.type_registry.encoders, options.uuid_representation
    if not encoders and representation in (0, 4):
        return None

    def change(value: Any) -> Any:
        encoder = encoders.get(type(value))
        if encoder is not None:
            return encoder(value)
        return Binary.from_uuid(value, representation) if representation not in (0, 4) and isinstance(value, uuid.UUID) else value

    return change


def _default(options: CodecOptions) -> Optional[Callable[[Any], Any]]:
    return options.type_registry.fallback


def _id_first(document: Any) -> Any:
    """A document whose _id comes first."""
    if isinstance(document, Mapping) and "_id" in document and next(iter(document)) != "_id":
        return {"_id": document["_id"], **document}
    return document


def encoded(document: Any, check_keys: bool, options: CodecOptions) -> bytes:
    """The bytes of a document."""
    if isinstance(document, (RawBSONDocument, RawDocument)):
        return document.raw
    if not isinstance(document, (Mapping, Pairs)) and not hasattr(document, "raw"):
        raise TypeError(f"document must be an instance of dict, bson.son.SON, or other type that inherits from collections.MutableMapping, not {type(document)!r}")
    if check_keys:
        _checked(document)
    change = _changer(options)
    try:
        given = _id_first(document if change is None else _changed(document, change))
        return _native.encode(given, default=_default(options))
    except (TypeError, UnicodeEncodeError) as error:
        raise InvalidDocument(str(error)) from error
    except BsonError as error:
        raise InvalidDocument(str(error)) from error
