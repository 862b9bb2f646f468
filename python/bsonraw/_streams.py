"""Documents of a stream that is waited for."""

from __future__ import annotations

from typing import Any, AsyncIterator, Protocol, Tuple

from . import _native
from ._types import BsonError, ErrorKind, Reason

_BLOCK = 1 << 16


class AsyncReader(Protocol):
    """What asyncio.StreamReader does."""

    async def read(self, size: int, /) -> bytes: ...


def _error(data: bytes, offset: int) -> BsonError:
    """Why no document is cut from these bytes, which are all that there are."""
    try:
        next(_native.documents(None, data, 0x7FFFFFFF))
    except BsonError as error:
        return BsonError(error.kind, error.reason, offset=offset)
    raise AssertionError("a document was passed over")


async def documents_async(reader: AsyncReader, *, max_bytes: int = 16_777_216) -> AsyncIterator[Tuple[int, bytes]]:
    """The documents of an asyncio.StreamReader, each with its offset, as `documents` gives those of a file.

    Each comes as soon as its last byte is there.
    """
    left, at, before, is_at_end = bytearray(), 0, 0, False
    while True:
        size = int.from_bytes(left[at : at + 4], "little", signed=True) if len(left) - at >= 4 else 0
        if size > max_bytes:
            raise BsonError(ErrorKind.REFUSED, Reason.TOO_MANY_BYTES, offset=before + at, number=max_bytes)
        if 5 <= size <= len(left) - at:
            yield before + at, bytes(left[at : at + size])
            at += size
        elif is_at_end or (len(left) - at >= 5 and size < 5):
            if at < len(left):
                raise _error(bytes(left[at:]), before + at)
            return
        else:
            del left[:at]
            before, at = before + at, 0
            block: Any = await reader.read(_BLOCK)
            is_at_end = not block
            left += block
