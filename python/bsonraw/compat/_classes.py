"""Classes of MongoDB's package that bsonraw doesn't have."""

from __future__ import annotations

import copy
from typing import Any, Dict, Iterator, List, Mapping, Optional, Tuple

from .._edit import RawDocument
from .._native import elements


class SON(Dict[str, Any]):
    """A dict: two of them are equal where the order is the same, too."""

    def to_dict(self) -> Dict[str, Any]:
        """The same as plain dicts, inside, too."""

        def plain(value: Any) -> Any:
            if isinstance(value, list):
                return [plain(one) for one in value]
            return {key: plain(one) for key, one in value.items()} if isinstance(value, Mapping) else value

        made: Dict[str, Any] = plain(self)
        return made

    def has_key(self, key: str) -> bool:
        """Whether a key is there."""
        return key in self

    iterkeys = dict.keys
    itervalues = dict.values

    def copy(self) -> SON:
        return SON(self)

    def __eq__(self, other: object) -> bool:
        if isinstance(other, SON):
            return len(self) == len(other) and list(self.items()) == list(other.items())
        return isinstance(other, Mapping) and self.to_dict() == (other.to_dict() if hasattr(other, "to_dict") else dict(other))

    def __ne__(self, other: object) -> bool:
        return not self == other

    __hash__ = None

    def __repr__(self) -> str:
        return f"SON([{', '.join(f'({key!r}, {value!r})' for key, value in self.items())}])"

    def __deepcopy__(self, memo: Dict[int, Any]) -> SON:
        made = memo[id(self)] = SON()
        made.update((key, copy.deepcopy(value, memo)) for key, value in self.items())
        return made

    def __reduce__(self) -> Tuple[Any, ...]:
        return SON, (list(self.items()),)


class DBRef:
    """A reference to a document of a collection."""

    __slots__ = ("_collection", "_id", "_database", "_kwargs")
    _type_marker = 100

    def __init__(self, collection: str, id: Any, database: Optional[str] = None, _extra: Optional[Mapping[str, Any]] = None, **kwargs: Any) -> None:
        if not isinstance(collection, str):
            raise TypeError("collection must be an instance of str")
        if database is not None and not isinstance(database, str):
            raise TypeError("database must be an instance of str")
        self._collection, self._id, self._database = collection, id, database
        self._kwargs = {**kwargs, **(_extra or {})}

    @property
    def collection(self) -> str:
        """The collection's name."""
        return self._collection

    @property
    def id(self) -> Any:
        """The document's _id."""
        return self._id

    @property
    def database(self) -> Optional[str]:
        """The database's name, or None."""
        return self._database

    def __getattr__(self, key: str) -> Any:
        if key.startswith("_"):
            raise AttributeError(key)
        try:
            return self._kwargs[key]
        except KeyError:
            raise AttributeError(key) from None

    def as_doc(self) -> SON:
        """The document that it is written as."""
        document = SON([("$ref", self.collection), ("$id", self.id)])
        if self.database is not None:
            document["$db"] = self.database
        document.update(self._kwargs)
        return document

    def __repr__(self) -> str:
        extra = "".join(f", {key}={value!r}" for key, value in self._kwargs.items())
        database = "" if self.database is None else f", {self.database!r}"
        return f"DBRef({self.collection!r}, {self.id!r}{database}{extra})"

    def _parts(self) -> Tuple[Any, ...]:
        return self._database, self._collection, self._id, self._kwargs

    def __eq__(self, other: object) -> bool:
        return isinstance(other, DBRef) and self._parts() == other._parts()

    def __hash__(self) -> int:
        return hash((self._collection, self._id, self._database, tuple(sorted(self._kwargs.items()))))

    def __reduce__(self) -> Tuple[Any, ...]:
        return DBRef, (self._collection, self._id, self._database, self._kwargs)


def reference_of(value: Dict[str, Any]) -> Any:
    """The DBRef of a document that is one, else the document."""
    if not isinstance(value.get("$ref"), str) or "$id" not in value or not isinstance(value.get("$db", ""), (str, type(None))):
        return value
    rest = {key: of for key, of in value.items() if key not in ("$ref", "$id", "$db")}
    return DBRef(value["$ref"], value["$id"], value.get("$db"), rest)


# ---- bytes -----------------------------------------------------------------------------------------------------------


class RawBSONDocument(Mapping[str, Any]):
    """A document as a mapping over its bytes: the values of its first level are read when one is asked for."""

    __slots__ = ("_raw", "_options", "_values")
    _type_marker = 101

    def __init__(self, bson_bytes: Any, codec_options: Any = None) -> None:
        from . import DEFAULT_CODEC_OPTIONS

        self._raw = RawDocument(bson_bytes).raw
        self._options = codec_options or DEFAULT_CODEC_OPTIONS
        self._values: Optional[Dict[str, Any]] = None

    @property
    def raw(self) -> bytes:
        """The bytes."""
        return self._raw

    def _inflated(self) -> Dict[str, Any]:
        if self._values is None:
            from ._options import asked

            options: Any = self._options
            call, _ = asked(options.with_options(document_class=dict))
            self._values = {one.key: self._value(one, call) for one in elements(self._raw)}
        return self._values

    def _value(self, one: Any, call: Dict[str, Any]) -> Any:
        if one.kind == 3:
            return RawBSONDocument(one.payload, self._options)
        return self._values_of(one.payload, call) if one.kind == 4 else one.decode(max_bytes=0x7FFFFFFF, **call)

    def _values_of(self, array: Any, call: Dict[str, Any]) -> List[Any]:
        """The values of an array, of any depth."""
        made: List[Any] = []
        open_ones = [(made, elements(array))]
        while open_ones:
            into, rest = open_ones[-1]
            one = next(rest, None)
            if one is None:
                open_ones.pop()
            elif one.kind == 4:
                inner: List[Any] = []
                into.append(inner)
                open_ones.append((inner, elements(one.payload)))
            else:
                into.append(self._value(one, call))
        return made

    def items(self) -> Any:
        return self._inflated().items()

    def __getitem__(self, key: str) -> Any:
        return self._inflated()[key]

    def __iter__(self) -> Iterator[str]:
        return iter(self._inflated())

    def __len__(self) -> int:
        return len(self._inflated())

    def __eq__(self, other: object) -> bool:
        return isinstance(other, RawBSONDocument) and self.raw == other.raw

    __hash__ = None  # type: ignore[assignment]

    def __repr__(self) -> str:
        return f"RawBSONDocument({self.raw!r}, codec_options={self._options!r})"

    def __reduce__(self) -> Tuple[Any, ...]:
        return RawBSONDocument, (self._raw, self._options)


class BSON(bytes):
    """The bytes of a document, with the calls of old."""

    @classmethod
    def encode(cls, document: Mapping[str, Any], check_keys: bool = False, codec_options: Any = None) -> BSON:
        from . import encode

        return cls(encode(document, check_keys, codec_options))

    def decode(self, codec_options: Any = None) -> Any:  # type: ignore[override]
        from . import decode

        return decode(bytes(self), codec_options)
