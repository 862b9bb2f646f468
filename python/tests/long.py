"""Calls with memory and reference counts watched: what grows is a leak. checks/python_long.txt makes a million of them, and
checks/python.txt a few.

    python3 long.py [CALLS]
"""

import collections
import gc
import io
import random
import resource
import sys
from typing import Any, Callable, Dict, List

import bsonraw
import bsonraw.compat as compat
from made import all_made

REPEATED = bytes.fromhex("13000000 106100 01000000 106100 02000000 00")
CALLS = int(sys.argv[1]) if len(sys.argv) > 1 else 1_000_000


def quietly(call: Callable[[Any], Any], data: Any) -> None:
    try:
        call(data)
    except (ValueError, TypeError, BufferError):
        pass


def values(data: Any) -> None:
    for _, element in bsonraw.walk(data):
        element.value, element.kind, bytes(element.payload), hash(element)


def half(data: Any) -> None:
    """Iterators that are left before their end."""
    next(bsonraw.elements(data), None)
    next(bsonraw.walk(data), None)
    next(bsonraw.documents(bytes(data) * 2), None)


STEPS: List[Callable[[Any], Any]] = [
    bsonraw.decode,
    lambda data: bsonraw.decode(data, pairs=True),
    lambda data: bsonraw.encode(bsonraw.decode(data)),
    lambda data: bsonraw.encode({"k": bsonraw.decode(data), "s": {1}}),
    lambda data: bsonraw.decode(data, max_depth=1),
    lambda data: bsonraw.decode(data, depth=1),
    bsonraw.canonical,
    bsonraw.check,
    bsonraw.first_fault,
    bsonraw.to_json,
    lambda data: bsonraw.to_json(data, style="canonical", indent=True),
    lambda data: bsonraw.to_json(data, max_depth=1, indent=3),
    lambda data: [element.value for element in bsonraw.elements(bytearray(data))],
    lambda data: [bsonraw.find(data, path) for path, _ in bsonraw.walk(data)][:0],
    lambda data: bsonraw.get(data, "a"),
    lambda data: bsonraw.find(data, ["a", 0, None]),
    values,
    half,
    lambda data: bsonraw.decode_all(io.BytesIO(data * 2)),
    lambda data: bsonraw.columns(data * 3, missing=data),
    lambda data: bsonraw.columns(data + REPEATED, max_depth=2),
    lambda data: list(bsonraw.documents(io.BytesIO(data + b"x"))),
    lambda data: list(bsonraw.documents(memoryview(data))),
    lambda data: bsonraw.decode_all(bytearray(data * 3), errors="skip", uuid=True),
    lambda data: bsonraw.columns(io.BytesIO(data * 3), errors=repr, max_bytes=60),
    lambda data: [list(column) for column in bsonraw.columns(data * 9, typed=True, errors="skip").values()],
    lambda data: [numbers.__arrow_c_array__() for numbers in bsonraw.columns(data * 2, typed=True).values() if type(numbers) is not list],
    lambda data: bsonraw.columns(data * 9, paths=["a", ("b", 0), "c"], typed=True),
    lambda data: bsonraw.decode(data, object_hook=dict, tz_aware=False),
    lambda data: bsonraw.decode(data, object_pairs_hook=len, uuid=True),
    lambda data: [element.decode(pairs=True) for element in bsonraw.elements(data)],
    lambda data: bsonraw.encode({"k": {1}, "d": bsonraw.RawDocument(data)}, default=bsonraw.Codec(), max_bytes=300),
    lambda data: bsonraw.encode(collections.OrderedDict(a=[1, {2}])),
    lambda data: bsonraw.edit(data, {"a": 1, "b.c": bsonraw.REMOVE}),
    lambda data: [bsonraw.edit(data, {path: 1, ("x", *path): [data], "new": {}}) for path, _ in list(bsonraw.walk(data))[:5]],
    lambda data: bsonraw.edit(data, {f"k{number}.a": number for number in range(20)}),
    lambda data: bsonraw.edit(data, {"a": 1, "b": object()}),
    lambda data: dict(bsonraw.RawDocument(data)),
    lambda data: [bsonraw.RawDocument(bytearray(data)).get(key) for key in "aba"],
    lambda data: [raw[key] for raw in [bsonraw.RawDocument(data)] for key in [*raw, *raw]],
    lambda data: bsonraw.encode({"a": [bsonraw.RawDocument(data)]}, max_depth=4),
    lambda data: list(bsonraw.decode_iter(data * 3, errors="skip", object_hook=dict)),
    lambda data: next(bsonraw.decode_iter(io.BytesIO(data * 2), types=None)),
    lambda data: bsonraw.decode(data, type=Dict[str, int]),
    lambda data: bsonraw.loads(bsonraw.to_json_array(data * 2)),
    lambda data: compat.decode(data, compat.CodecOptions(document_class=compat.SON)),
    lambda data: bsonraw.to_json(data, indent=4),
    lambda data: bsonraw.ObjectId(data[:12]) == bsonraw.MinKey(),
    lambda data: bsonraw.canonical_all(data * 3 + b"x", max_depth=3),
    lambda data: bsonraw.partitions(data * 3, len(data)),
]


def run(made: List[bytes], calls: int) -> None:
    rng = random.Random(1)
    for _ in range(calls):
        quietly(rng.choice(STEPS), rng.choice(made))


def kept() -> List[int]:
    """How many blocks of memory and objects there are, and how often some that are shared are referred to."""
    gc.collect()
    shared = [bsonraw.ObjectId, bsonraw.Int64, bsonraw.Element, bsonraw.ElementType.STRING, bsonraw.MinKey()]
    if sys.version_info < (3, 12):  # which a build for the stable interface counts, and later interpreters don't
        shared += [None, True]
    return [sys.getallocatedblocks(), len(gc.get_objects()), *map(sys.getrefcount, shared)]


def main() -> int:
    made = list(all_made(77, 400))
    run(made, max(CALLS // 4, 75_000))  # until then the interpreter fills tables of its own
    before, used = kept(), resource.getrusage(resource.RUSAGE_SELF).ru_maxrss
    run(made, CALLS)
    after, more = kept(), resource.getrusage(resource.RUSAGE_SELF).ru_maxrss - used
    grown = [two - one for one, two in zip(before, after)]
    print(f"{CALLS} calls: blocks, objects and references grew by {grown}, the peak of memory by {more} kB")
    return 1 if grown[0] > 200 or max(grown[1:]) > 20 or more > 2000 else 0


if __name__ == "__main__":
    sys.exit(main())
