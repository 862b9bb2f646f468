"""What a caller with annotations writes; `mypy --strict` takes it (checks/python.txt)."""

import gzip
import io
import mmap
from array import array
from asyncio import StreamReader
from decimal import Decimal
from typing import Any, Dict, Iterator, List, Optional, Tuple

import bsonraw

try:
    import numpy
except ImportError:
    pass


def names(path: str) -> Iterator[str]:
    with gzip.open(path) as dump:
        for _, document in bsonraw.documents(dump):
            found = bsonraw.find(document, ["people", 0, "name"])
            if found is not None and isinstance(found.value, str):
                yield found.value


def table(path: str) -> Dict[str, List[Any]]:
    with open(path, "rb") as dump:
        return bsonraw.columns(dump, missing=0)


def buffers_of(path: str) -> Dict[str, List[int]]:
    with open(path, "rb") as dump:
        columns = bsonraw.columns(dump, paths=["a.b", ("c", 0)], typed=True)
    return {key: column.values.tolist() for key, column in columns.items() if isinstance(column, bsonraw.Column)}


def texts(text: str) -> List[bytes]:
    values = bsonraw.loads(text, pairs=True, tz_aware=True)
    return [bsonraw.from_json(text), bsonraw.from_json(text.encode(), max_depth=10), bsonraw.encode(values)]


def whole(data: bytes) -> List[Any]:
    return bsonraw.decode_all(io.BytesIO(data), pairs=True) + bsonraw.decode_all(bytearray(data))


def forms(path: str) -> List[memoryview]:
    with open(path, "rb") as dump, mmap.mmap(dump.fileno(), 0, access=mmap.ACCESS_READ) as data:
        return list(bsonraw.canonical_all(data, max_depth=100).each())


def place(data: memoryview) -> Optional[Tuple[int, ...]]:
    breach = bsonraw.check(data)
    fault: Optional[bsonraw.BsonError] = bsonraw.first_fault(data)
    return None if breach is None and fault is None else fault.path if fault is not None else ()


def again(value: bsonraw.Pairs) -> Tuple[bytes, str]:
    data = bsonraw.encode(value) + bsonraw.encode({"a": bsonraw.Int64(5), "b": [bsonraw.ObjectId("0" * 24), None]})
    return data, bsonraw.to_json(data, style="canonical", indent=2)


def iterators(data: bytes) -> Tuple[bsonraw.Documents, bsonraw.Elements, bsonraw.Walk]:
    with bsonraw.elements(data=data) as elements, bsonraw.walk(data) as walk:
        elements.close()
        walk.close()
    return bsonraw.documents(data, max_bytes=5), elements, walk


def kept(data: bytes) -> List[Any]:
    faults: List[bsonraw.BsonError] = []
    return bsonraw.decode_all(data, errors=faults.append) + bsonraw.decode_all(data, errors="skip", uuid=True, tz_aware=False)


def buffers(numbers: "array[int]") -> List[Any]:
    return [bsonraw.decode(numbers), bsonraw.decode(numpy.frombuffer(b"", "u1")), bsonraw.decode(memoryview(b""), types="bson")]


def other(data: bytes) -> Any:
    bsonraw.decode(data, object_hook=len, object_pairs_hook=dict)
    bsonraw.edit(data, {"a.b": bsonraw.REMOVE, ("c", 0): 5})
    codec = bsonraw.Codec({complex: str})
    return bsonraw.encode({"a": Decimal(1)}, default=codec, max_bytes=None), bsonraw.RawDocument(data)["a"]


async def waited(reader: StreamReader) -> List[bytes]:
    return [document async for _, document in bsonraw.documents_async(reader, max_bytes=50)]
