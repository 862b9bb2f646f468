"""BSON documents: read, written, checked, and brought to canonical form.

    >>> import bsonraw
    >>> data = bsonraw.encode({"name": "Ada", "born": 1815, "tags": ["maths"]})
    >>> bsonraw.decode(data)
    {'name': 'Ada', 'born': 1815, 'tags': ['maths']}
    >>> bsonraw.find(data, "tags.0").value
    'maths'
    >>> bsonraw.to_json(data)
    '{"name":"Ada","born":1815,"tags":["maths"]}'
    >>> bsonraw.canonical(data) == data
    True

Whole documents: `decode` and `encode`; `canonical`, `check` and `first_fault`;
`to_json`, `from_json` and `loads`. Parts of one: `find` by a path, `get` by a key, `elements` of one
level, `walk` of all. Dumps, which are documents one after the other:
`documents` cuts them, `decode_all` and `decode_iter` read them, `columns` has them as a table,
`canonical_all` brings them to their forms, and `partitions` says where to cut
one for many workers.

Values are those of Python: float, str, dict, list, bytes, bool, None, int,
aware datetimes. An int that is stored in 64 bits comes as Int64, a class over
int, so that it stays one when it is written again. The other kinds of BSON
have small classes here. MongoDB's own are taken by `encode`, and given by
`decode(data, types="bson")`.

Data is any bytes-like object whose bytes lie one after the other: bytes,
bytearray, memoryview, mmap, an array. A bytes object, or a view of one, is
not copied. Others may write any other buffer meanwhile, so that a document of
one is copied first. A call over more than 64 KiB lets go of the interpreter's
lock.

Damage raises BsonError, with the place, and does no harm. MemoryError comes
where memory runs out. The library below is proved; this package is tested.
"""

from __future__ import annotations

import io
import os
from typing import TYPE_CHECKING, Any, Callable, Dict, Iterable, List, Literal, Optional, Tuple, Union, overload

from . import _edit, _native, _types, _values
from ._native import (
    Decoded,
    Documents,
    Element,
    Elements,
    Int64,
    Walk,
    canonical,
    check,
    decode,
    edit,
    elements,
    encode,
    find,
    first_fault,
    get,
    to_json,
    walk,
)
from ._codec import Codec
from ._columns import Column
from ._edit import REMOVE, RawDocument, steps_of
from ._into import MismatchError
from ._json import from_json, from_json_array, loads, to_json_array
from ._streams import documents_async
from ._types import Breach, BsonError, Cause, DamagedError, ElementType, ErrorKind, Forms, LimitError, Reason
from ._values import (
    Binary,
    Code,
    DatetimeMS,
    DBPointer,
    Decimal128,
    MaxKey,
    MinKey,
    ObjectId,
    Pairs,
    Regex,
    Symbol,
    Timestamp,
    Undefined,
)

if TYPE_CHECKING:
    from ._edit import Path
    from ._native import Buffer, Errors, Types
    from ._types import Source

__all__ = [
    "Binary",
    "Breach",
    "BsonError",
    "Cause",
    "Code",
    "Codec",
    "Column",
    "DBPointer",
    "DamagedError",
    "DatetimeMS",
    "Decimal128",
    "Decoded",
    "Documents",
    "Element",
    "ElementType",
    "Elements",
    "ErrorKind",
    "Forms",
    "Int64",
    "LimitError",
    "MAX_BYTES",
    "MAX_DEPTH",
    "MaxKey",
    "MismatchError",
    "MinKey",
    "ObjectId",
    "Pairs",
    "REMOVE",
    "RawDocument",
    "Reason",
    "Regex",
    "Symbol",
    "Timestamp",
    "Undefined",
    "Walk",
    "canonical",
    "canonical_all",
    "check",
    "columns",
    "decode",
    "decode_all",
    "decode_iter",
    "documents",
    "documents_async",
    "edit",
    "elements",
    "encode",
    "find",
    "first_fault",
    "from_json",
    "from_json_array",
    "get",
    "loads",
    "partitions",
    "to_json",
    "to_json_array",
    "walk",
]

__version__ = str.join(".", (str(_native.VERSION // unit % 100) for unit in (10_000, 100, 1)))

MAX_BYTES = 16_777_216
"""How many bytes a document may have, unless told otherwise: 16 MiB."""
MAX_DEPTH = 500
"""How many levels it may have, the outermost counted, unless told otherwise."""


for _name in __all__:
    if getattr(globals().get(_name), "__module__", "").startswith(f"{__name__}._"):
        globals()[_name].__module__ = __name__  # where a reader of help, of a traceback or of a pickle looks for it


class _Parts:
    """What the compiled module makes, and calls."""

    def __getattr__(self, name: str) -> Any:
        from . import _foreign, _into

        return next(getattr(module, name) for module in (_values, _types, _edit, _foreign, _into) if hasattr(module, name))


_native.use(_Parts())


def _read_of(source: Any) -> Any:
    """What reads a block of an open file: of a pipe or a socket what is there, without waiting for more."""
    if isinstance(source, (str, os.PathLike)):
        raise TypeError("source is a path, not an open file: use open(path, 'rb')")
    if isinstance(source, io.TextIOBase):
        raise TypeError("source is a file that is open for text, not for bytes: use open(path, 'rb')")
    try:
        memoryview(source).release()
        return None
    except TypeError:
        read = getattr(source, "read1", None) or getattr(source, "read", None)
        if read is None:
            name = type(source).__name__
            raise TypeError(f"source is of type {name}, and neither an open file nor bytes-like") from None
        return read


def _whole_of(source: Any) -> bytes:
    """What is left of an open file, or a buffer as bytes that nobody writes."""
    read = _read_of(source)
    if read:
        return bytes.join(b"", iter(lambda: bytes(read(1 << 20)), b""))
    return source if type(source) is bytes else bytes(source)


def documents(source: Source, *, max_bytes: int = MAX_BYTES, resync: bool = False) -> Documents:
    """The documents of a dump, one after the other, each with its offset.

    The dump is a file that is open for reading bytes, or a buffer. Each comes
    as a bytes object; of a pipe or a socket as soon as its last byte is there.

    They are cut by their length alone: what is inside, and the 0 at the end,
    is for who reads them. Raises BsonError, with the offset, where no document
    can be: its length is under 5 or more than what is left. Nothing says then
    where a next document would begin. It is raised, too, where a length is
    more than max_bytes, before more of the document is read. A path, or a file
    that is open for text, raises TypeError at the call.

    With resync=True only documents without damage are given, at most 500
    levels deep, and none of these errors is raised. After damage it goes on at
    the end, or where one without damage of over 8 bytes begins, unless the tag
    and the key of a document, an array or an int32 are right before it.
    A damaged document is passed over at its length, if its elements follow one
    another up to there; or if no such document is inside, and one, or the end,
    is right after it. What was passed over is what no offset covers.
    A file is read whole for that, and a buffer that isn't bytes is copied.
    """
    if resync:
        return _native.documents(None, _whole_of(source), max_bytes, True)
    read = _read_of(source)
    return _native.documents(read, None if read else source, max_bytes)  # type: ignore[arg-type]


def decode_all(
    data: Source,
    codec_options: None = None,
    *,
    type: Any = None,
    pairs: bool = False,
    types: Types = None,
    tz_aware: Optional[bool] = None,
    uuid: bool = False,
    object_hook: Optional[Callable[[Dict[str, Any]], Any]] = None,
    object_pairs_hook: Optional[Callable[[Pairs], Any]] = None,
    errors: Errors = "strict",
    resync: bool = False,
    max_bytes: int = MAX_BYTES,
    max_depth: int = MAX_DEPTH,
) -> List[Any]:
    """All documents of a dump, each as `decode` gives it.

    The dump is an open file, or bytes. With type= each is made an object of that
    type, as by `decode`; a MismatchError ends the call. Raises BsonError at the first document
    with a fault, with the offset in the dump. With errors="skip" such a
    document is left out, and the next one follows; a call for errors is given
    the BsonError of each, and goes on. Where no document can be cut, it ends.
    With resync=True, too, it goes on after damage where `documents` does, also
    where no document can be cut, or where the length of a damaged one would
    have others passed over.
    """
    return _native.decode_all(
        documents(data, resync=resync),
        codec_options=codec_options,
        type=type,
        pairs=pairs,
        types=types,
        tz_aware=tz_aware,
        uuid=uuid,
        object_hook=object_hook,
        object_pairs_hook=object_pairs_hook,
        errors=errors,
        max_bytes=max_bytes,
        max_depth=max_depth,
    )


def decode_iter(
    data: Source,
    codec_options: None = None,
    *,
    type: Any = None,
    pairs: bool = False,
    types: Types = None,
    tz_aware: Optional[bool] = None,
    uuid: bool = False,
    object_hook: Optional[Callable[[Dict[str, Any]], Any]] = None,
    object_pairs_hook: Optional[Callable[[Pairs], Any]] = None,
    errors: Errors = "strict",
    resync: bool = False,
    max_bytes: int = MAX_BYTES,
    max_depth: int = MAX_DEPTH,
) -> Decoded:
    """The documents of a dump one by one, each as `decode` gives it.

    The options are those of `decode_all`. A dump of any size takes the memory
    of one document.
    """
    return _native.decode_iter(
        documents(data, resync=resync),
        codec_options=codec_options,
        type=type,
        pairs=pairs,
        types=types,
        tz_aware=tz_aware,
        uuid=uuid,
        object_hook=object_hook,
        object_pairs_hook=object_pairs_hook,
        errors=errors,
        max_bytes=max_bytes,
        max_depth=max_depth,
    )


@overload
def columns(
    source: Source,
    *,
    paths: Optional[Iterable[Path]] = ...,
    missing: Any = ...,
    typed: Literal[False] = ...,
    types: Types = ...,
    tz_aware: Optional[bool] = ...,
    uuid: bool = ...,
    errors: Errors = ...,
    resync: bool = ...,
    max_bytes: int = ...,
    max_depth: int = ...,
) -> Dict[Any, List[Any]]: ...
@overload
def columns(
    source: Source,
    *,
    paths: Optional[Iterable[Path]] = ...,
    typed: Literal[True],
    types: Types = ...,
    tz_aware: Optional[bool] = ...,
    uuid: bool = ...,
    errors: Errors = ...,
    resync: bool = ...,
    max_bytes: int = ...,
    max_depth: int = ...,
) -> Dict[Any, Union[Column, List[Any]]]: ...
def columns(
    source: Source,
    *,
    paths: Optional[Iterable[Path]] = None,
    missing: Any = None,
    typed: bool = False,
    types: Types = None,
    tz_aware: Optional[bool] = None,
    uuid: bool = False,
    errors: Errors = "strict",
    resync: bool = False,
    max_bytes: int = MAX_BYTES,
    max_depth: int = MAX_DEPTH,
) -> Any:
    """A dump as a table, for pandas.DataFrame and its like.

    By each key of the first level it has the list of its values, with a place
    for each document; or by each of paths, which are texts as "user.name" and
    "tags.0", or tuples. Where a document lacks the key, missing is there.

    The keys come in the order in which they are first met, and the table takes
    memory for each key and document. Of a repeated key the last value counts.
    Values are those of `decode`, and errors and resync those of `decode_all`;
    a document that is left out has no place.

    With typed=True a column whose values are all ints, doubles, bools, dates
    or strings is a Column, which keeps them in buffers. Ints among doubles are
    doubles, where each is one exactly. A null counts as a value that is
    missing, and an int64 comes as an int. Other columns are lists, with None
    for what is missing.
    """
    if typed and missing is not None:
        raise ValueError("with typed=True nothing else is in the place of what is missing")
    named = None if paths is None else [(path if isinstance(path, str) else tuple(path), tuple(steps_of(path))) for path in paths]
    found = _native.columns(
        documents(source, resync=resync),
        paths=named,
        missing=missing,
        typed=typed,
        types=types,
        tz_aware=tz_aware,
        uuid=uuid,
        errors=errors,
        max_bytes=max_bytes,
        max_depth=max_depth,
    )
    if not typed:
        return found
    is_naive = tz_aware is False or (tz_aware is None and types is not None)
    return {key: column if isinstance(column, list) else Column((column[0], column[1], column[2], column[3], is_naive)) for key, column in found.items()}


def canonical_all(
    data: Buffer, *, before: int = 0, max_bytes: int = MAX_BYTES, max_depth: int = MAX_DEPTH
) -> Forms:
    """The canonical forms of all documents of a dump, in one call.

    Each is as `canonical` gives it. A document with a fault is left out, and
    the next one follows. Where data is a part of a dump, before is how many
    bytes are before it, so that the offsets of faults are from the dump's
    first byte. Of a `bytes` object, or a view of one, over 64 KiB the lock is
    let go of for the whole dump, so that threads bring several to their forms
    at a time.
    """
    return Forms(*_native.canonical_all(data, before=before, max_bytes=max_bytes, max_depth=max_depth))


def partitions(data: Buffer, size: int) -> Tuple[List[int], Optional[BsonError]]:
    """Where a dump is cut into parts of this many bytes or a little more.

    Each part is of whole documents. There is the offset of each, and the end
    of the last one; beside these the error where no document can be cut, which
    ends the last part, or None.

    Only the documents' lengths are read. data[a:b] of two offsets one after
    the other is a dump for `canonical_all`.
    """
    return _native.partitions(data, size)


def __dir__() -> List[str]:
    return sorted([*__all__, "__doc__", "__file__", "__name__", "__path__", "__version__"])
