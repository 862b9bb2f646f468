"""Documents from Extended JSON, and arrays of them."""

from __future__ import annotations

from typing import TYPE_CHECKING, Any, List, Union

from . import _native
from ._types import LimitError

if TYPE_CHECKING:
    from ._native import Buffer, Hook, PairsHook, Style, Types
    from ._types import Source

_MAX_BYTES = 16_777_216
_MAX_DEPTH = 500
_MOST_BYTES = 0x7FFFFFFF
_BEFORE, _BEHIND = b'{"":', b"}"  # around an array, which is no document


def _utf8_of(text: Union[str, Buffer]) -> bytes:
    given: Any = text
    return text.encode() if isinstance(text, str) else bytes(memoryview(given))


def _made(data: bytes, max_bytes: int, max_depth: int) -> bytes:
    """The document of a text."""
    made = _native.from_json(data, max_bytes, max_depth)
    if isinstance(made, bytes):
        return made
    message, offset = made
    raise _error(_with_limit(message, max_bytes, max_depth), data, offset)


def _with_limit(message: str, max_bytes: int, max_depth: int) -> str:
    limits = {"more bytes than allowed": f": max_bytes is {max_bytes}", "deeper than allowed": f": max_depth is {max_depth}"}
    return message + limits.get(message, "")


def _error(message: str, data: bytes, offset: int) -> ValueError:
    from json import JSONDecodeError

    return JSONDecodeError(message, data.decode(), len(data[:offset].decode()))


def from_json(text: Union[str, Buffer], *, max_bytes: int = _MAX_BYTES, max_depth: int = _MAX_DEPTH) -> bytes:
    """The document that a text of MongoDB Extended JSON v2 writes.

    The text is canonical or relaxed, a str, or bytes of UTF-8. A number
    without a wrapper is an int32 or else an int64 where it is an integer, and
    else a double. An object with the key of a wrapper, as $oid, is its value;
    only the whole text and a scope are documents whatever their keys. Keys
    that repeat are kept, in order.

    Raises json.JSONDecodeError where the text isn't read, with msg, doc, pos,
    lineno and colno as json.loads has them; also where the document would have
    more than max_bytes bytes, or be deeper than max_depth levels.
    """
    return _made(_utf8_of(text), max_bytes, max_depth)


def _is_array(data: bytes) -> bool:
    return data.lstrip(b" \t\r\n")[:1] == b"["


def _documents_of(data: bytes, max_bytes: int, max_depth: int) -> List[bytes]:
    """The documents of the text of an array."""
    if not _is_array(data):
        raise _error("expected an array", data, len(data) - len(data.lstrip(b" \t\r\n")))
    whole = _native.from_json(_BEFORE + data + _BEHIND, _MOST_BYTES, max_depth + 2)
    if not isinstance(whole, bytes):
        message, offset = whole
        at = min(offset - len(_BEFORE), len(data))
        if at == len(data) and message.startswith("text after"):  # the text's own last brace ended what is around the array
            at = data.rindex(b"}")
        raise _error(_with_limit(message, _MOST_BYTES, max_depth), data, at)
    first, *others = _native.elements(whole)
    if others:
        from json import JSONDecodeError, JSONDecoder

        written = data.decode()
        behind = len(written) - len(written.lstrip())
        raise JSONDecodeError("text after the array", written, JSONDecoder().raw_decode(written, behind)[1])
    made = []
    for number, element in enumerate(_native.elements(first.payload)):
        if element.kind != 3:
            raise ValueError(f"element {number} of the array is no document")
        if len(element.payload) > max_bytes:
            raise LimitError(4, 23, element.key, number=max_bytes)
        made.append(bytes(element.payload))
    return made


def from_json_array(text: Union[str, Buffer], *, max_bytes: int = _MAX_BYTES, max_depth: int = _MAX_DEPTH) -> bytes:
    """The dump of the documents that an array of Extended JSON has, as mongoexport --jsonArray writes it.

    It is read as `from_json` reads a document, of which each has at most
    max_bytes bytes. Here an object with the key of a wrapper is its value, so
    that it is no document, which raises ValueError.
    """
    return b"".join(_documents_of(_utf8_of(text), max_bytes, max_depth))


def to_json_array(source: Source, *, style: Style = "relaxed", max_bytes: int = _MAX_BYTES, max_depth: int = _MAX_DEPTH) -> str:
    """The array of Extended JSON of a dump's documents, one in a line, as mongoexport --jsonArray writes it.

    Each is printed as `to_json` prints it. Raises BsonError for the first fault.
    """
    from . import documents

    texts = []
    for offset, data in documents(source, max_bytes=max_bytes):
        try:
            texts.append(_native.to_json(data, style=style, max_bytes=max_bytes, max_depth=max_depth))
        except ValueError:
            fault = _native.first_fault(data, max_bytes=max_bytes, max_depth=max_depth)
            if fault is None:
                raise
            raise fault.behind(offset) from None
    return "[" + ",\n".join(texts) + "]"


def loads(
    text: Union[str, Buffer],
    *,
    type: Any = None,
    pairs: bool = False,
    types: Types = None,
    tz_aware: Union[bool, None] = None,
    uuid: bool = False,
    object_hook: Hook = None,
    object_pairs_hook: PairsHook = None,
    max_bytes: int = _MAX_BYTES,
    max_depth: int = _MAX_DEPTH,
    json_options: None = None,
) -> Any:
    """The values of the document that a text of Extended JSON v2 writes.

    The text is read as `from_json` does, and the document as `decode` does,
    which has the same options. Of a repeated key the last value counts. An
    array of documents, as `from_json_array` reads it, gives a list.
    json_options, of MongoDB's loads, raises TypeError unless it is None.
    """
    if json_options is not None:
        raise TypeError('json_options aren\'t taken: in their place use tz_aware, uuid, types="bson" and object_hook')
    data = _utf8_of(text)
    is_array = _is_array(data)
    documents = _documents_of(data, max_bytes, max_depth) if is_array else [_made(data, max_bytes, max_depth)]
    values = [
        _native.decode(
            document,
            type=type,
            pairs=pairs,
            types=types,
            tz_aware=tz_aware,
            uuid=uuid,
            object_hook=object_hook,
            object_pairs_hook=object_pairs_hook,
            max_bytes=max_bytes,
            max_depth=max_depth,
        )
        for document in documents
    ]
    return values if is_array else values[0]
