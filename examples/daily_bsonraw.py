"""Ten daily jobs by bsonraw; daily_mongodb.py has the same ones by MongoDB's package."""

import dataclasses
import io
from collections import Counter
from decimal import Decimal
from typing import Any, Dict, Iterable, List, Tuple

import bsonraw
import pandas


@dataclasses.dataclass
class Order:
    """A class of one's own, which is stored."""

    number: int
    price: Decimal
    tags: List[str]


def write(path: str, documents: Iterable[Dict[str, Any]]) -> None:
    """A dump of documents."""
    with open(path, "wb") as dump:
        dump.writelines(map(bsonraw.encode, documents))


def read(path: str) -> List[Any]:
    """All documents of a dump."""
    with open(path, "rb") as dump:
        return bsonraw.decode_all(dump)


def count(path: str, key: str) -> Dict[Any, int]:
    """How often each value of a key is there."""
    with open(path, "rb") as dump:
        return Counter(bsonraw.columns(dump, paths=[key])[key])


def look_up(data: bytes, path: str) -> Any:
    """The value at a path such as "user.tags.0", or None."""
    found = bsonraw.find(data, path)
    return found and found.value


def change(data: bytes, path: str, value: Any) -> bytes:
    """The document with another value at a path of keys."""
    return bsonraw.edit(data, {path: value})


def print_json(path: str, out: io.StringIO) -> None:
    """Each document of a dump in a line of Extended JSON."""
    with open(path, "rb") as dump:
        for _, document in bsonraw.documents(dump):
            print(bsonraw.to_json(document), file=out)


def table(path: str, paths: List[str]) -> Any:
    """A DataFrame of the values at some paths."""
    with open(path, "rb") as dump:
        return pandas.DataFrame(bsonraw.columns(dump, paths=paths, typed=True))


def sound(path: str) -> Tuple[List[Any], int]:
    """The documents of a dump that have no fault, and how many have one."""
    faults: List[bsonraw.BsonError] = []
    with open(path, "rb") as dump:
        return bsonraw.decode_all(dump, errors=faults.append), len(faults)


def unique(path: str) -> List[bytes]:
    """The documents of a dump, each once, in the order in which they are first there."""
    with open(path, "rb") as dump:
        return list(dict.fromkeys(bsonraw.canonical(document) for _, document in bsonraw.documents(dump)))


def store(order: Order) -> bytes:
    """A document of a class of one's own."""
    return bsonraw.encode({"order": order}, default=bsonraw.Codec())
