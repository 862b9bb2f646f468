"""Documents changed at a few places, and read at a few, without being decoded."""

from __future__ import annotations

import copyreg
from operator import index
from typing import TYPE_CHECKING, Any, List, Mapping, SupportsIndex, Tuple, Type, Union

from ._native import Lazy

if TYPE_CHECKING:
    Path = Union[str, Tuple[Union[str, SupportsIndex], ...]]


class _Remove:
    """In place of a value, that the element goes."""

    def __repr__(self) -> str:
        return "bsonraw.REMOVE"

    def __reduce__(self) -> str:
        return "REMOVE"


REMOVE = _Remove()


def _key_of(step: Any) -> str:
    if isinstance(step, bool):
        raise TypeError("a step of a path is a key or a number")
    return str.__str__(step) if isinstance(step, str) else str(index(step))


def steps_of(path: Any) -> List[str]:
    """The keys of a path: a text, or a tuple."""
    try:
        steps = list(map(_key_of, path.split(".") if isinstance(path, str) else path))
    except TypeError:
        steps = []
    if not steps:
        raise TypeError(f"a path is a text, or a tuple of keys and numbers, not {path!r}")
    return steps


class RawDocument(Lazy, Mapping[str, Any]):
    """A document as a mapping that reads a value when it is asked for.

        >>> import bsonraw
        >>> document = bsonraw.RawDocument(bsonraw.encode({"a": {"b": 1}, "c": [2]}))
        >>> document["a"]["b"], document["c"], list(document)
        (1, [2], ['a', 'c'])

    A document in it is one like it, over the same bytes. Of a repeated key it
    has the first value, as `get`. At the second look-up an index of its keys is
    made. `encode` copies its bytes, once it was found to have no damage, and
    MongoDB's encoder takes it, too.
    Raises BsonError where the bytes are no document, and where a value is read
    that is damaged or that damage is before. Its offset and path are from the
    outermost document on. A copy or a pickle of a document in another one has
    that one's bytes alone, so that they are from there on.
    """

    __slots__ = ()
    _type_marker = 101

    def __reduce__(self) -> Tuple[Any, ...]:
        """What a copy and a pickle have: the bytes of this document alone, and what a class over this one has beside."""
        if type(self) is RawDocument:
            return RawDocument, (self.raw,)
        names: List[str] = getattr(copyreg, "_slotnames")(type(self))
        slots = {name: getattr(self, name) for name in names if hasattr(self, name)}
        return _again, (type(self), self.raw), (getattr(self, "__dict__", None), slots)

    def __repr__(self) -> str:
        return f"RawDocument({self.raw!r})"


def _again(kind: Type[RawDocument], data: bytes) -> RawDocument:
    """A document of a class over RawDocument, of what its pickle has."""
    document = kind.__new__(kind)
    RawDocument.__init__(document, data)
    return document
