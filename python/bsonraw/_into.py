"""Decoded values as objects of classes: dataclasses, TypedDicts, and classes of attrs and pydantic."""

from __future__ import annotations

import dataclasses
from datetime import date, datetime
from decimal import Decimal
from enum import Enum
from functools import lru_cache
from importlib import import_module
from pathlib import PurePath
from typing import Any, Callable, Dict, List, Literal, Mapping, Sequence, Tuple, TypeVar, Union, get_args, get_origin, get_type_hints
from uuid import UUID

from ._values import Binary, Decimal128

Keys = Tuple[str, ...]
Maker = Callable[[Any, Keys], Any]
Variables = Mapping[Any, Any]
"""The types that are in the place of a generic class's variables."""


class MismatchError(ValueError):
    """A decoded value doesn't fit the type that was asked for.

    keys: where it is, as a path for find; wanted: the type there.
    """

    keys: Keys
    wanted: Any

    def __init__(self, text: str, keys: Keys = (), wanted: Any = None) -> None:
        self.text, self.keys, self.wanted = text, keys, wanted
        super().__init__(f"at key {'.'.join(keys)!r}: {text}" if keys else text)

    def __reduce__(self) -> Tuple[Any, ...]:
        return type(self), (self.text, self.keys)


def _name(of: Any) -> str:
    return str(getattr(of, "__name__", of))


def _refuse(value: Any, keys: Keys, wanted: Any) -> Any:
    raise MismatchError(f"{_name(type(value))} in place of {_name(wanted)}", keys, wanted)


# ---- kinds of types --------------------------------------------------------------------------------------------------


def _as_it_is(value: Any, keys: Keys) -> Any:
    return value


def _of_class(kind: Any) -> Maker:
    """A value of a class, as it was decoded; an int for a float, too."""

    def make(value: Any, keys: Keys) -> Any:
        if isinstance(value, kind) and not (isinstance(value, bool) and kind is not bool and kind is not object):
            return value
        return _refuse(value, keys, kind)

    return make


def _float(value: Any, keys: Keys) -> float:
    if isinstance(value, (int, float)) and not isinstance(value, bool) and float(value) == value or value != value:
        return float(value)
    return _refuse(value, keys, float)  # type: ignore[no-any-return]


def _plain_int(value: Any, keys: Keys) -> int:
    return int(value) if isinstance(value, int) and not isinstance(value, bool) else _refuse(value, keys, int)  # type: ignore[no-any-return]


def _decimal(value: Any, keys: Keys) -> Decimal:
    return value.to_decimal() if isinstance(value, Decimal128) else _refuse(value, keys, Decimal)  # type: ignore[no-any-return]


def _date(value: Any, keys: Keys) -> date:
    return value.date() if isinstance(value, datetime) else _refuse(value, keys, date)  # type: ignore[no-any-return]


def _uuid(value: Any, keys: Keys) -> UUID:
    """A UUID, or the binary that one is stored as; of older subtypes nothing says in which order the bytes are."""
    if isinstance(value, Binary) and value.subtype == 4 and len(value) == 16:
        return UUID(bytes=bytes(value))
    return value if isinstance(value, UUID) else _refuse(value, keys, UUID)  # type: ignore[no-any-return]


def _called(kind: Any) -> Maker:
    """What a class makes of a value, such as a path of its text."""

    def make(value: Any, keys: Keys) -> Any:
        try:
            return kind(value)
        except (ValueError, TypeError, KeyError) as error:
            raise MismatchError(f"{value!r} is no {_name(kind)}: {error}", keys, kind) from error

    return make


def _literal(choices: Tuple[Any, ...]) -> Maker:
    def make(value: Any, keys: Keys) -> Any:
        if any(value == one and type(value) is type(one) for one in choices):
            return value
        raise MismatchError(f"{value!r} is none of {', '.join(map(repr, choices))}", keys, Literal)

    return make


def _either(kinds: Tuple[Any, ...]) -> Maker:
    makers = [_maker(one) for one in kinds if one is not type(None)]
    may_be_none = type(None) in kinds

    def make(value: Any, keys: Keys) -> Any:
        if value is None and may_be_none:
            return None
        errors = []
        for one in makers:
            try:
                return one(value, keys)
            except MismatchError as error:
                errors.append(error)
        if len(errors) == 1:
            raise errors[0]
        deepest = max(errors, key=lambda error: len(error.keys))
        if len(deepest.keys) > len(keys):
            raise deepest
        return _refuse(value, keys, " or ".join(map(_name, kinds)))

    return make


def _many(build: Callable[[List[Any]], Any], kind: Any) -> Maker:
    one = _maker(kind)

    def make(value: Any, keys: Keys) -> Any:
        if not isinstance(value, list):
            return _refuse(value, keys, "an array")
        return build([one(each, (*keys, str(number))) for number, each in enumerate(value)])

    return make


def _tuple(kinds: Tuple[Any, ...]) -> Maker:
    makers = [_maker(one) for one in kinds]

    def make(value: Any, keys: Keys) -> Any:
        if not isinstance(value, list) or len(value) != len(makers):
            return _refuse(value, keys, f"an array of {len(makers)}")
        return tuple(one(each, (*keys, str(number))) for number, (one, each) in enumerate(zip(makers, value)))

    return make


def _mapping(kind: Any) -> Maker:
    one = _maker(kind)

    def make(value: Any, keys: Keys) -> Any:
        if not isinstance(value, dict):
            return _refuse(value, keys, "a document")
        return {key: one(each, (*keys, key)) for key, each in value.items()}

    return make


# ---- classes with fields ---------------------------------------------------------------------------------------------


def _fields(kind: Any, hints: Mapping[str, Any], needed: Sequence[str], names: Mapping[str, str], build: Callable[[Dict[str, Any]], Any]) -> Maker:
    """Of a document whose keys are the fields' names; others are passed over."""
    makers = {key: (name, _maker(hints[name])) for key, name in names.items()}

    def make(value: Any, keys: Keys) -> Any:
        if not isinstance(value, dict):
            return _refuse(value, keys, kind)
        found = {}
        for key, each in value.items():
            if key in makers:
                name, one = makers[key]
                found[name] = one(each, (*keys, key))
        for name in needed:
            if name not in found:
                raise MismatchError(f"a {_name(kind)} lacks {name!r}", keys, kind)
        try:
            return build(found)
        except MismatchError:
            raise
        except (ValueError, TypeError) as error:
            raise MismatchError(f"no {_name(kind)} is made: {error}", keys, kind) from error

    return make


def _filled(hint: Any, variables: Variables) -> Any:
    """A type with types in the place of its variables."""
    if isinstance(hint, TypeVar):
        return variables.get(hint, hint)
    inside = getattr(hint, "__parameters__", ()) if get_origin(hint) is not None else ()
    return hint[tuple(variables.get(one, one) for one in inside)] if variables and inside else hint


def _hints(kind: Any, variables: Variables) -> Dict[str, Any]:
    return {name: _filled(hint, variables) for name, hint in get_type_hints(kind).items()}


def _dataclass(kind: Any, variables: Variables) -> Maker:
    fields = [field for field in dataclasses.fields(kind) if field.init]
    needed = [field.name for field in fields if field.default is dataclasses.MISSING and field.default_factory is dataclasses.MISSING]
    return _fields(kind, _hints(kind, variables), needed, {field.name: field.name for field in fields}, lambda found: kind(**found))


def _attrs(kind: Any, variables: Variables) -> Maker:
    attr: Any = import_module("attr")
    fields = [field for field in attr.fields(kind) if field.init]
    hints = {**{field.name: Any if field.type is None else field.type for field in fields}, **_hints(kind, variables)}
    names = {field.name: field.name for field in fields}
    given = {field.name: getattr(field, "alias", None) or field.name.lstrip("_") for field in fields}
    needed = [field.name for field in fields if field.default is attr.NOTHING]
    return _fields(kind, hints, needed, names, lambda found: kind(**{given[name]: value for name, value in found.items()}))


def _typed_dict(kind: Any, variables: Variables) -> Maker:
    hints = _hints(kind, variables)
    needed = sorted(kind.__required_keys__) if hasattr(kind, "__required_keys__") else list(hints) if kind.__total__ else []
    return _fields(kind, hints, needed, {key: key for key in hints}, dict)


def _pydantic(kind: Any) -> Maker:
    """Its own validation, whose first error says the place."""
    refused: Any = import_module("pydantic").ValidationError
    validate = getattr(kind, "model_validate", None) or kind.parse_obj

    def make(value: Any, keys: Keys) -> Any:
        try:
            return validate(value)
        except refused as error:
            first = error.errors()[0]
            raise MismatchError(first["msg"], (*keys, *map(str, first["loc"])), kind) from error

    return make


_KNOWN: Dict[Any, Maker] = {Any: _as_it_is, object: _as_it_is, float: _float, Decimal: _decimal, int: _plain_int, date: _date, UUID: _uuid}
_ARRAYS: Dict[Any, Callable[[List[Any]], Any]] = {list: list, set: set, frozenset: frozenset}


_CLASSES = ("__dataclass_fields__", "__attrs_attrs__", "__total__")
"""What a class has whose fields are of types."""


def _class_maker(kind: Any, variables: Variables) -> Maker:
    """Of a class with fields, which is made when it is first used: it may have a field of its own class."""
    made: List[Maker] = []

    def first(value: Any, keys: Keys) -> Any:
        if not made:
            make = _dataclass if dataclasses.is_dataclass(kind) else _attrs if hasattr(kind, "__attrs_attrs__") else _typed_dict
            made.append(make(kind, variables))
        return made[0](value, keys)

    return first


def _has_fields(kind: Any) -> bool:
    return isinstance(kind, type) and any(hasattr(kind, mark) for mark in _CLASSES)


def _plain_maker(kind: Any) -> Maker:
    """Of what is no generic type."""
    if kind in (None, type(None)):
        return _of_class(type(None))
    if isinstance(kind, TypeVar):
        return _maker(kind.__bound__ or Any)
    if not isinstance(kind, type):
        if callable(getattr(kind, "__supertype__", None)):  # NewType
            return _maker(kind.__supertype__)
        raise TypeError(f"type is {kind!r}, which isn't known")
    if _has_fields(kind):
        return _class_maker(kind, {})
    if hasattr(kind, "model_validate") or (hasattr(kind, "parse_obj") and hasattr(kind, "__fields__")):
        return _pydantic(kind)
    if issubclass(kind, (Enum, PurePath)):
        return _called(kind)
    if kind in _ARRAYS:
        return _many(_ARRAYS[kind], Any)
    return _tuple_of(()) if kind is tuple else _of_class(kind)


def _tuple_of(kinds: Tuple[Any, ...]) -> Maker:
    if not kinds:
        return _many(tuple, Any)
    return _many(tuple, kinds[0]) if kinds[1:] == (...,) else _tuple(kinds)


_UNIONS = {Union, getattr(__import__("types"), "UnionType", Union)}
_ABSTRACT = {"Sequence": list, "Iterable": list, "Collection": list, "MutableSequence": list, "Set": frozenset, "MutableSet": set}


@lru_cache(maxsize=None)
def _maker(kind: Any) -> Maker:
    """What makes a value of a type of a decoded one, or raises MismatchError."""
    if kind in _KNOWN:
        return _KNOWN[kind]
    origin, parts = get_origin(kind), get_args(kind)
    if origin is None:
        return _plain_maker(kind)
    if origin in _UNIONS:
        return _either(parts)
    if origin is Literal:
        return _literal(parts)
    if getattr(kind, "__metadata__", None) is not None or _name(origin) in ("Required", "NotRequired", "ReadOnly", "ClassVar", "Final"):
        return _maker(parts[0] if _name(origin) in ("Required", "NotRequired", "ReadOnly", "ClassVar", "Final") else kind.__origin__)
    if origin is tuple:
        return _tuple_of(parts)
    array = _ARRAYS.get(origin) or _ARRAYS.get(_ABSTRACT.get(_name(origin)))
    if array is not None:
        return _many(array, parts[0])
    if isinstance(origin, type) and issubclass(dict, origin):
        return _mapping(parts[1])
    if _has_fields(origin):
        return _class_maker(origin, dict(zip(getattr(origin, "__parameters__", ()), parts)))
    if isinstance(origin, type):
        return _plain_maker(origin)
    raise TypeError(f"type is {kind!r}, which isn't known")


def into_of(kind: Any) -> Callable[[Any], Any]:
    """What makes an object of a type of a decoded document."""
    try:
        make = _maker(kind)
    except TypeError as error:
        if "unhashable" not in str(error):
            raise
        raise TypeError(f"type is {kind!r}, which is no type") from None
    return lambda value: make(value, ())

