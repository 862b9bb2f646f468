"""Many levels on little stack: what comes is right or an error, and the interpreter lives."""

import subprocess
import sys
import unittest

SCRIPT = """
import sys, threading
import bsonraw
from bsonraw import BsonError, Code
from made import framed

def levels(count, head):
    data = framed(b"\\x08" + head[1:] + b"\\1")
    for _ in range(count - 1):
        data = framed(head + data)
    return data

def scopes(count):
    data = framed(b"")
    for _ in range(count - 1):
        code = b"\\2\\0\\0\\0f\\0" + data
        data = framed(b"\\x0fa\\0" + (len(code) + 4).to_bytes(4, "little") + code)
    return data

def again(data, **options):
    value = bsonraw.decode(data, **options)
    return bsonraw.encode(value, max_depth=options["max_depth"]) == data

def typed(data, step, count):
    path = [step] * (count - 1)
    return bsonraw.columns(data, paths=[path, [*path, step]], typed=True, max_depth=count)

def calls(data, step, count):
    limit = {"max_depth": count}
    path = [step] * (count - 1)
    yield lambda: again(data, **limit)
    yield lambda: step != "a" or again(data, pairs=True, **limit)
    yield lambda: again(data, types="bson", **limit) if "bson" in sys.modules else True
    yield lambda: bsonraw.decode(data, object_hook=len, **limit)
    yield lambda: len(bsonraw.decode_all(data * 3, **limit))
    yield lambda: len(bsonraw.columns(bytearray(data * 3), **limit))
    yield lambda: len(bsonraw.to_json(data, **limit)) > count
    yield lambda: len(bsonraw.to_json(data, style="canonical", indent=1, **limit)) > count
    yield lambda: bsonraw.canonical(data, **limit) == data
    yield lambda: bsonraw.check(data, **limit) is None
    yield lambda: bsonraw.first_fault(data, **limit) is None
    yield lambda: bytes(bsonraw.canonical_all(data * 2, **limit).data) == data * 2
    yield lambda: sum(len(element.key) for _, element in bsonraw.walk(data, **limit)) >= count - 1
    yield lambda: bsonraw.find(data, path).kind
    yield lambda: bsonraw.find(data, [step]).decode(**limit) is not None
    yield lambda: len(bsonraw.columns(data, paths=[path[:499]], **limit))
    yield lambda: len(typed(data, step, min(count, 499)) if count < 500 else [1])
    yield lambda: count > 500 or bsonraw.decode(bsonraw.edit(data, {(step, "1"): 5}), **limit) is not None
    yield lambda: bsonraw.RawDocument(data)
    for call in (bsonraw.decode, bsonraw.canonical, bsonraw.to_json, bsonraw.walk, bsonraw.decode_all):
        yield lambda call=call: refused(call, data, max_depth=count - 1)
    yield lambda: refused(bsonraw.encode, bsonraw.decode(data, **limit), max_depth=count - 1)
    yield lambda: refused(bsonraw.decode, data[:len(data) // 2] + b"\\xff" + data[len(data) // 2 + 1:], **limit)

def refused(call, value, **options):
    try:
        call(value, **options)
    except BsonError as error:
        return len(error.keys) > 0

def run(data, step, count, told):
    for number, call in enumerate(calls(data, step, count)):
        try:
            result = call()
            told.append((number, "false" if result is False else "right"))
        except (MemoryError, RecursionError, BsonError) as error:
            told.append((number, type(error).__name__))

try:
    import bson
except ImportError:
    pass
for kibibytes, data, step, count in (
    (256, levels(500, b"\\3a\\0"), "a", 500), (256, levels(500, b"\\x040\\0"), "0", 500), (512, scopes(900), "a", 900),
):
    threading.stack_size(kibibytes << 10)
    told = []
    thread = threading.Thread(target=run, args=(data, step, count, told))
    thread.start()
    thread.join()
    print(kibibytes, count, *(f"{number}:{what}" for number, what in told if what != "right"))
"""


class Stack(unittest.TestCase):
    def test_many_levels(self) -> None:
        done = subprocess.run([sys.executable, "-W", "ignore", "-c", SCRIPT], stdout=subprocess.PIPE, stderr=subprocess.PIPE, timeout=120)
        self.assertEqual((done.returncode, done.stdout.decode(), done.stderr), (0, "256 500\n256 500\n512 900\n", b""))


if __name__ == "__main__":
    unittest.main()
