"""Values of classes that BSON has no kind for."""

from __future__ import annotations

import dataclasses
from datetime import date, datetime, timezone
from decimal import Decimal
from enum import Enum
from pathlib import PurePath
from typing import Any, Callable, Dict, Mapping, Optional

from ._values import Decimal128


def _midnight(value: date) -> datetime:
    return datetime(value.year, value.month, value.day, tzinfo=timezone.utc)


def _fields(value: Any) -> Dict[str, Any]:
    return {field.name: getattr(value, field.name) for field in dataclasses.fields(value)}


_MAKERS: Dict[type, Callable[[Any], Any]] = {
    Enum: lambda value: value.value,
    set: list,
    frozenset: list,
    Decimal: Decimal128,
    date: _midnight,
    PurePath: str,
}


class Codec:
    """What `encode(default=)` makes of values of other classes.

        >>> import bsonraw
        >>> from decimal import Decimal
        >>> codec = bsonraw.Codec({complex: lambda value: [value.real, value.imag]})
        >>> data = bsonraw.encode({"price": Decimal("9.90"), "at": 1 + 2j}, default=codec)
        >>> bsonraw.decode(data)
        {'price': Decimal128('9.90'), 'at': [1.0, 2.0]}

    It knows dataclasses (a document of their fields), Enum (its value), set and
    frozenset (an array), Decimal (a Decimal128), date (its midnight in UTC) and
    paths (their text), and the classes that it is given, with what makes a
    value of one. A class over another is taken as that one. It is asked
    only for values that encode doesn't know by itself.
    """

    def __init__(self, makers: Optional[Mapping[type, Callable[[Any], Any]]] = None) -> None:
        self._makers = {**_MAKERS, **(makers or {})}

    def register(self, kind: type, make: Callable[[Any], Any]) -> None:
        """Has values of a class made by a call."""
        self._makers[kind] = make

    def __call__(self, value: Any) -> Any:
        """What is written for a value, or NotImplemented."""
        for kind in type(value).__mro__:
            if kind in self._makers:
                return self._makers[kind](value)
        is_one = dataclasses.is_dataclass(value) and not isinstance(value, type)
        return _fields(value) if is_one else NotImplemented
