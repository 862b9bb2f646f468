"""Ten daily jobs by MongoDB's package; daily_bsonraw.py has the same ones by bsonraw."""

import dataclasses
import io
from collections import Counter
from decimal import Decimal
from typing import Any, Dict, Iterable, List, Tuple

import bson
import pandas


@dataclasses.dataclass
class Order:
    """A class of one's own, which is stored."""

    number: int
    price: Decimal
    tags: List[str]


def write(path: str, documents: Iterable[Dict[str, Any]]) -> None:
    """A dump of documents."""
    with open(path, "wb") as dump:
        dump.writelines(map(bson.encode, documents))


def read(path: str) -> Any:
    """All documents of a dump."""
    with open(path, "rb") as dump:
        return bson.decode_all(dump.read())


def count(path: str, key: str) -> Dict[Any, int]:
    """How often each value of a key is there."""
    with open(path, "rb") as dump:
        return Counter(document.get(key) for document in bson.decode_file_iter(dump))


def look_up(data: bytes, path: str) -> Any:
    """The value at a path such as "user.tags.0", or None."""
    value = bson.decode(data)
    for step in path.split("."):
        try:
            value = value[int(step) if isinstance(value, list) else step]
        except (LookupError, TypeError, ValueError):
            return None
    return value


def change(data: bytes, path: str, value: Any) -> Any:
    """The document with another value at a path of keys."""
    document = inner = bson.decode(data)
    *steps, last = path.split(".")
    for step in steps:
        inner = inner.setdefault(step, {})
    inner[last] = value
    return bson.encode(document)


def print_json(path: str, out: io.StringIO) -> None:
    """Each document of a dump in a line of Extended JSON."""
    from bson.json_util import RELAXED_JSON_OPTIONS, dumps  # which needs all of PyMongo

    with open(path, "rb") as dump:
        for document in bson.decode_file_iter(dump):
            print(dumps(document, json_options=RELAXED_JSON_OPTIONS, separators=(",", ":"), ensure_ascii=False), file=out)


def table(path: str, paths: List[str]) -> Any:
    """A DataFrame of the values at some paths."""
    with open(path, "rb") as dump:
        return pandas.json_normalize(bson.decode_all(dump.read()))[paths]


def sound(path: str) -> Tuple[List[Any], int]:
    """The documents of a dump that have no fault, and how many have one."""
    found, faults = [], 0
    with open(path, "rb") as dump:
        while head := dump.read(4):
            try:
                found.append(bson.decode(head + dump.read(int.from_bytes(head, "little") - 4)))
            except bson.errors.InvalidBSON:
                faults += 1
    return found, faults


def unique(path: str) -> List[bytes]:
    """The documents of a dump, each once, in the order in which they are first there."""
    with open(path, "rb") as dump:
        return list(dict.fromkeys(bson.encode(document) for document in bson.decode_file_iter(dump)))


def plain(value: Any) -> Any:
    return bson.Decimal128(value) if isinstance(value, Decimal) else dataclasses.asdict(value)


def store(order: Order) -> Any:
    """A document of a class of one's own."""
    registry = bson.codec_options.TypeRegistry(fallback_encoder=plain)
    return bson.encode({"order": order}, codec_options=bson.codec_options.CodecOptions(type_registry=registry))
