"""What the calls take and give: kinds of buffers, no copies, limits, errors, threads, and callers who mean harm."""

import array
import collections
import gc
import mmap
import os
import pickle
import random
import subprocess
import sys
import tempfile
import threading
import time
import unittest
from typing import Any, Callable, List

import bsonraw
from bsonraw import Breach, BsonError, Cause, ElementType, ErrorKind, Int64, Reason
from lines import check_line, list_lines
from made import Maker, all_made, framed

GREETING = bytes.fromhex("13000000 02686900 06000000 7927616c6c00 00")
REPEATED = bytes.fromhex("13000000 106100 01000000 106100 02000000 00")
ONE_NULL = bytes.fromhex("08000000 0a6100 00")
CALLS = (
    lambda data: list(bsonraw.elements(data)),
    lambda data: list(bsonraw.walk(data)),
    lambda data: bsonraw.get(data, "a"),
    lambda data: bsonraw.find(data, "a"),
    bsonraw.decode,
    bsonraw.canonical,
    bsonraw.check,
    bsonraw.first_fault,
    bsonraw.to_json,
)


def mapped(data: bytes, access: int) -> mmap.mmap:
    with tempfile.TemporaryFile() as file:
        file.write(data)
        file.flush()
        return mmap.mmap(file.fileno(), len(data), access=access)


def buffers(data: bytes) -> List[Any]:
    """The same bytes in each kind of buffer."""
    return [
        bytearray(data),
        memoryview(data),
        memoryview(bytearray(b"x" + data))[1:],
        array.array("B", data),
        mapped(data, mmap.ACCESS_WRITE),
        mapped(data, mmap.ACCESS_READ),
    ]


def wide_buffers(data: bytes) -> List[Any]:
    """The same bytes in buffers whose items are four bytes, or that have two dimensions."""
    return [array.array("i", data), memoryview(data).cast("B", (len(data) // 4, 4)), memoryview(data).cast("i")]


def answers(data: Any) -> List[Any]:
    items = [(item.key, item.kind, bytes(item.payload), item.value) for item in bsonraw.elements(data)]
    walked = [(path, bytes(item.payload), item.value) for path, item in bsonraw.walk(data)]
    found = bytes(bsonraw.get(data, "a").payload), bytes(bsonraw.find(data, "a").payload)
    whole = bsonraw.decode(data), bsonraw.canonical(data), bsonraw.check(data), bsonraw.first_fault(data), bsonraw.to_json(data)
    return [items, walked, found, *whole]


class Buffers(unittest.TestCase):
    def test_each_kind_of_buffer_is_read(self) -> None:
        wanted = [("a", ElementType.NULL, b"", None)], [(("a",), b"", None)], (b"", b""), {"a": None}, ONE_NULL, None, None, '{"a":null}'
        self.assertEqual(answers(ONE_NULL), list(wanted))
        for data, some in ((REPEATED, buffers(REPEATED)), (ONE_NULL, buffers(ONE_NULL) + wide_buffers(ONE_NULL))):
            for buffer in some:
                with self.subTest(data, buffer=type(buffer)):
                    self.assertEqual(answers(buffer), answers(data))
                    self.assertEqual(bytes(memoryview(buffer).cast("B")), data)

    def test_length_0_is_no_document(self) -> None:
        for buffer in (b"", bytearray(), memoryview(b""), memoryview(b"x")[1:], array.array("B")):
            for call in CALLS:
                with self.subTest(type(buffer)):
                    try:
                        error = call(buffer)
                    except BsonError as raised:
                        error = raised
                    self.assertEqual((error.kind, error.reason), (ErrorKind.NO_DOCUMENT, Reason.TOO_SHORT))

    def test_the_empty_key(self) -> None:
        self.assertEqual(bsonraw.get(framed(b"\x0a\0"), "").kind, ElementType.NULL)
        self.assertIsNone(bsonraw.get(ONE_NULL, ""))

    def test_what_is_no_buffer_is_refused(self) -> None:
        for data in ("text", 5, None, [19, 0]):
            for call in CALLS:
                self.assertRaises(TypeError, call, data)
        for call in CALLS:
            self.assertRaises((BufferError, TypeError), call, memoryview(b"x" * 40)[::2])

    def test_arguments_that_are_none(self) -> None:
        for key, name in ((b"hi", "bytes"), (None, "NoneType"), (1, "int")):
            with self.assertRaises(TypeError) as caught:
                bsonraw.get(GREETING, key)
            self.assertEqual(str(caught.exception), f"key is of type {name}, and not str")
        for path in (None, 5, [None], ["a", b"b"]):
            self.assertRaises(TypeError, bsonraw.find, GREETING, path)
        self.assertRaises(ValueError, bsonraw.find, GREETING, [])
        for call in (bsonraw.decode, bsonraw.encode, bsonraw.canonical, bsonraw.check, bsonraw.get, bsonraw.find):
            self.assertRaises(TypeError, call)
            self.assertRaises(TypeError, call, GREETING, 1, 2)
            self.assertRaises(TypeError, call, GREETING, depth=2)
        self.assertRaises(TypeError, bsonraw.Element)
        for kind in (type(bsonraw.elements(GREETING)), type(bsonraw.walk(GREETING)), type(bsonraw.documents(b""))):
            self.assertRaises(TypeError, kind)

    def test_payloads_are_read_only_and_of_bytes_no_copies(self) -> None:
        for data, is_copied in ((GREETING, False), (memoryview(GREETING), False), (bytearray(GREETING), True)):
            (item,) = bsonraw.elements(data)
            for element in (item, bsonraw.get(data, "hi"), bsonraw.find(data, "hi")):
                self.assertTrue(element.payload.readonly)
                self.assertEqual(bytes(element.payload), GREETING[8:18])
                self.assertIs(element.payload.obj is GREETING, not is_copied)

    def test_a_buffer_is_let_go(self) -> None:
        data = bytearray(REPEATED)
        for call in CALLS:
            kept = call(data)
            data += b"x"
            del data[-1]
            del kept

    def test_elements_come_before_the_stop(self) -> None:
        steps = bsonraw.elements(bytes.fromhex("0b000000 0a6e00 006200 00"))
        self.assertEqual(next(steps).key, "n")
        with self.assertRaises(BsonError) as caught:
            next(steps)
        error = caught.exception
        self.assertEqual((error.kind, error.reason, error.key, error.offset), (1, Reason.INVALID_TAG, "b", 7))
        self.assertRaises(StopIteration, next, steps)

    def test_many_elements(self) -> None:
        data = framed(b"".join(b"\x10%d\0" % number + number.to_bytes(4, "little") for number in range(1000)))
        self.assertEqual([item.value for item in bsonraw.elements(data)], list(range(1000)))
        self.assertEqual([item.offset for item in bsonraw.elements(data)][:3], [4, 11, 18])

    def test_kinds(self) -> None:
        tags = [*range(1, 20), 0x7F, 0xFF]
        self.assertEqual([int(kind) for kind in ElementType], tags)
        maker = Maker(random.Random(1))
        for tag in tags:
            value = maker.document(4) if tag in (3, 4) else maker.payload(tag, 4)
            (item,) = bsonraw.elements(framed(bytes([tag]) + b"k\0" + value))
            self.assertIs(item.kind, ElementType(tag))
            self.assertEqual(bytes(item.payload), value)

    def test_names_of_arguments(self) -> None:
        data = bsonraw.encode(document={"a": [1]})
        self.assertEqual(bsonraw.decode(data=data), {"a": [1]})
        self.assertEqual((bsonraw.get(key="a", data=data).value, bsonraw.find(data, path="a.0").value), ([1], 1))
        for call in (bsonraw.elements, bsonraw.walk, bsonraw.canonical, bsonraw.check, bsonraw.first_fault, bsonraw.to_json):
            self.assertEqual(type(call(data=data)), type(call(data)))
            self.assertRaises(TypeError, call, data, data=data)
            self.assertRaises(TypeError, call, max_bytes=5)
        self.assertEqual(list(bsonraw.documents(source=data, max_bytes=50)), [(0, data)])

    def test_indents(self) -> None:
        for data in all_made(17, 150):
            if bsonraw.first_fault(data) is None:
                text = bsonraw.to_json(data, style="canonical", indent=2)
                for width in (0, 1, 4):
                    lines = [" " * ((len(line) - len(line.lstrip(" "))) // 2 * width) + line.lstrip(" ") for line in text.split("\n")]
                    self.assertEqual(bsonraw.to_json(data, style="canonical", indent=width), "\n".join(lines))
                self.assertEqual(bsonraw.to_json(data, style="canonical", indent=True), text)
                self.assertNotIn("\n", bsonraw.to_json(data, indent=None))
        for indent in (-1, 17, "2", 2.0):
            self.assertRaises(ValueError, bsonraw.to_json, ONE_NULL, indent=indent)

    def test_names_of_the_package(self) -> None:
        self.assertEqual([name for name in dir(bsonraw) if not name.startswith("__")], sorted(bsonraw.__all__))

    def test_paths(self) -> None:
        data = bsonraw.encode({"a": {"b.c": [{"d": 1}, {"d": 2}], "b": 0}, "e": [[5]]})
        for path, value in (("a.b", 0), (["a", "b.c", 1, "d"], 2), (["a", "b.c", "0", "d"], 1), ("e.0.0", 5)):
            self.assertEqual(bsonraw.find(data, path).value, value)
        for path in ("a.b.c", "a.x", "e.1", "e.0.0.0", "e.x", ["a.b"], "", ["a", "b.c", "01"], ["a", "b.c", -1], ["a", "b.c", 1 << 70]):
            self.assertIsNone(bsonraw.find(data, path))

    def test_a_key_with_a_0_is_in_no_document(self) -> None:
        data = bsonraw.encode({"user": {"admin": 1}})
        for path in (["user\0admin"], ["user", "admin\0"], "user\0admin", "user.admin\0", ["user\0", "admin"]):
            self.assertIsNone(bsonraw.find(data, path))
        self.assertEqual(bsonraw.find(data, ["user", "admin"]).value, 1)

    def test_find_takes_the_paths_of_walk_and_of_errors(self) -> None:
        walked = failed = 0
        for data in all_made(23, 800):
            if bsonraw.first_fault(data) is None:
                counted = collections.Counter(path for path, _ in bsonraw.walk(data))
                for path, element in bsonraw.walk(data):
                    if all(counted[path[:size]] == 1 for size in range(1, len(path) + 1)):
                        self.assertEqual(bsonraw.find(data, path).offset, element.offset)
                        walked += len(path) > 1
                    if element.kind is ElementType.BOOLEAN:
                        at = element.offset + 2 + len(element.key.encode())
                        damaged = data[:at] + b"\7" + data[at + 1 :]
                        fault = bsonraw.first_fault(damaged)
                        self.assertEqual((fault.offset, len(fault.keys)), (element.offset, len(path)))
                        if all(counted[path[:size]] == 1 for size in range(1, len(path) + 1)):
                            self.assertEqual(bsonraw.find(damaged, fault.keys).offset, fault.offset)
                            failed += len(path) > 1
        self.assertGreater(min(walked, failed), 100, (walked, failed))

    def test_an_error_of_a_value_says_the_path_from_the_document_on(self) -> None:
        count = 0
        for data in all_made(27, 2000):
            fault = bsonraw.first_fault(data)
            if fault is None or not fault.path:
                continue
            try:
                for element in bsonraw.elements(data):
                    element.value
            except BsonError as error:
                self.assertEqual(
                    (str(error), error.path, error.keys, error.key, error.offset),
                    (str(fault), fault.path, fault.keys, fault.key, fault.offset),
                )
                count += 1
        self.assertGreater(count, 150)
        inner = framed(b"\x04b\0" + framed(b"\x080\0\1" + b"\x081\0\7"))
        data = framed(b"\x10x\0\1\0\0\0" + b"\x03a\0" + inner)
        for read in (lambda: bsonraw.get(data, "a").value, lambda: bsonraw.find(data, "a").value, lambda: bsonraw.find(data, "a.b.1").value):
            with self.assertRaises(BsonError) as caught:
                read()
            self.assertEqual((caught.exception.path, caught.exception.keys), ((1, 0, 1), ("a", "b", "1")))

    def test_an_element_has_the_limits_of_its_walk(self) -> None:
        value: Any = {}
        for _ in range(700):
            value = {"a": value}
        data = bsonraw.encode(value, max_depth=800)
        walked = list(bsonraw.walk(data, max_depth=701))
        self.assertEqual(len(walked), 700)
        self.assertEqual(bsonraw.encode({"a": walked[0][1].value}, max_depth=800), data)
        self.assertRaises(BsonError, lambda: bsonraw.get(data, "a").value)
        self.assertEqual(bsonraw.get(data, "a").decode(max_depth=700), value["a"])
        self.assertRaises(BsonError, walked[0][1].decode, max_depth=699)
        element = bsonraw.get(REPEATED, "a")
        self.assertEqual(element.decode(pairs=True, max_bytes=5), 1)
        pairs = bsonraw.get(framed(b"\x03a\0" + REPEATED), "a").decode(pairs=True)
        self.assertEqual((type(pairs), pairs), (bsonraw.Pairs, [("a", 1), ("a", 2)]))
        self.assertRaises(TypeError, element.decode, 5)


class Limits(unittest.TestCase):
    def test_bytes(self) -> None:
        self.assertEqual(bsonraw.canonical(GREETING, max_bytes=19), GREETING)
        for call in (bsonraw.canonical, bsonraw.check, bsonraw.decode, bsonraw.walk, bsonraw.to_json):
            with self.assertRaises(BsonError) as caught:
                call(GREETING, max_bytes=18)
            error = caught.exception
            self.assertEqual((error.kind, error.reason, error.key), (ErrorKind.REFUSED, Reason.TOO_MANY_BYTES, None))
        self.assertEqual(str(bsonraw.first_fault(GREETING, max_bytes=18)), str(error))
        over = framed(b"\x05\0" + (1 << 24).to_bytes(4, "little") + b"\0" + b"x" * (1 << 24))
        self.assertEqual(bsonraw.first_fault(over).reason, Reason.TOO_MANY_BYTES)
        self.assertEqual(bsonraw.canonical(over, max_bytes=len(over)), over)
        self.assertEqual(bsonraw.MAX_BYTES, 1 << 24)

    def test_levels(self) -> None:
        data = framed(b"\x03\0" + framed(b"\x04a\0" + framed(b"")))
        for call in (bsonraw.canonical, bsonraw.check, bsonraw.decode, bsonraw.walk, bsonraw.to_json):
            call(data, max_depth=3)
            with self.assertRaises(BsonError) as caught:
                call(data, max_depth=2)
            error = caught.exception
            self.assertEqual((error.kind, error.reason, error.offset), (ErrorKind.REFUSED, Reason.TOO_DEEP, 10))
            self.assertEqual((error.path, error.keys, error.key), ((0, 0), ("", "a"), "a"))

    def test_limits_that_are_none(self) -> None:
        for call in (bsonraw.canonical, bsonraw.first_fault, bsonraw.check, bsonraw.decode, bsonraw.walk, bsonraw.to_json):
            for name in ("max_bytes", "max_depth"):
                for limit in (-1, 1 << 63, 1 << 64):
                    self.assertRaises(ValueError, call, GREETING, **{name: limit})
                for limit in (1.5, "1", None):
                    self.assertRaises(TypeError, call, GREETING, **{name: limit})

    def test_no_depth_fills_the_stack(self) -> None:
        count = 200_000

        def inside_of_levels(document: bytes) -> bytes:
            lengths = range(len(document) + 7 * count, len(document), -7)
            opened = b"".join(length.to_bytes(4, "little") + b"\x03\0" for length in lengths)
            return opened + document + b"\0" * count

        data = inside_of_levels(framed(b"\x0aa\0\x0aa\0"))
        form = inside_of_levels(framed(b"\x0aa\0"))
        forms = [bsonraw.canonical(data, max_depth=count + 1)]
        thread = threading.Thread(target=lambda: forms.append(bsonraw.canonical(data, max_depth=count + 1)))
        thread.start()
        thread.join()
        self.assertTrue(forms == [form, form])

    def test_values_of_many_levels(self) -> None:
        count = 400
        value: Any = {}
        for _ in range(count - 1):
            value = {"a": value}
        data = bsonraw.encode(value)
        self.assertEqual(bsonraw.encode(bsonraw.decode(data)), data)
        self.assertRaises(BsonError, bsonraw.encode, value, max_depth=count - 1)
        scoped = framed(b"")
        for _ in range(count - 1):
            code = b"\1\0\0\0\0" + scoped
            scoped = framed(b"\x0fa\0" + (len(code) + 4).to_bytes(4, "little") + code)
        self.assertEqual(bsonraw.encode(bsonraw.decode(scoped)), scoped)

    def test_large_documents(self) -> None:
        """Which are read in another way than others: each part has its value, and the first fault is returned."""
        made = [data for data in all_made(29, 1200) if len(data) > 4 and int.from_bytes(data[:4], "little") == len(data) and not data[-1]]
        sound = [data for data in made if bsonraw.first_fault(data) is None]
        scoped = bsonraw.encode({"s": [bsonraw.Code("f", {"x": [1, {"y": 2}]})]})

        def one_of(parts: List[bytes]) -> bytes:
            return framed(b"\x04a\0" + framed(b"".join(b"\3%d\0" % number + part for number, part in enumerate(parts))))

        parts = (sound + [scoped]) * (1 + 600_000 // sum(map(len, sound)))
        data = one_of(parts)
        self.assertGreater(len(data), 524_288)
        for options in ({}, {"pairs": True}, {"tz_aware": False, "uuid": True}, {"object_hook": lambda document: sorted(document)}):
            found = bsonraw.decode(data, **{**options, "object_hook": None})
            self.assertEqual(list(map(repr, dict(found)["a"])), [repr(bsonraw.decode(part, **{**options, "object_hook": None})) for part in parts])
            if "object_hook" in options:
                self.assertEqual(bsonraw.decode(data, **options), ["a"])
        for damaged in [data for data in made if bsonraw.first_fault(data) is not None][:15]:
            whole = one_of([*parts, damaged])
            fault = bsonraw.first_fault(whole)
            with self.assertRaises(BsonError) as caught:
                bsonraw.decode(whole)
            self.assertEqual((str(caught.exception), caught.exception.path), (str(fault), fault.path))
        for limits, reason in (({"max_bytes": len(data) - 1}, Reason.TOO_MANY_BYTES), ({"max_depth": 2}, Reason.TOO_DEEP), ({"max_depth": 0}, Reason.TOO_DEEP)):
            with self.assertRaises(BsonError) as caught:
                bsonraw.decode(data, **limits)
            self.assertEqual(caught.exception.reason, reason)
        self.assertRaises(BsonError, bsonraw.decode, data[:-1])
        self.assertEqual(bsonraw.encode(bsonraw.decode(data, max_depth=20)), bsonraw.canonical(data))

    def test_a_form_longer_than_its_document(self) -> None:
        values = b"\x0a\0" * 50_000
        data = framed(b"\x04a\0" + framed(values))
        keys = b"".join(b"\x0a%d\0" % number for number in range(50_000))
        self.assertEqual(bsonraw.canonical(data), framed(b"\x04a\0" + framed(keys)))
        self.assertEqual(bsonraw.decode(data), {"a": [None] * 50_000})


class Errors(unittest.TestCase):
    def test_pickled(self) -> None:
        error = bsonraw.first_fault(bytes.fromhex("0c000000 026100 06000000 00"))
        again = pickle.loads(pickle.dumps(error))
        said = "at offset 4: at key 'a': a string is longer than what is left: 10 where 5 are left"
        self.assertEqual(str(again), said)
        self.assertEqual((again.kind, again.reason, again.key, again.offset), (1, Reason.STRING_PAST_END, "a", 4))
        self.assertEqual((again.path, again.keys), ((0,), ("a",)))
        breach = bsonraw.check(REPEATED)
        self.assertEqual(pickle.loads(pickle.dumps(breach)), Breach(Cause.REPEATED_KEY, (1,), ("a",), 11))
        for element in bsonraw.elements(bytearray(REPEATED)):
            again = pickle.loads(pickle.dumps(element))
            self.assertEqual((again, again.value, again.offset), (element, element.value, 4))
            self.assertEqual((hash(again), repr(again)), (hash(element), "<Element 'a': INT32 of 4 bytes>"))

    def test_an_element_by_hand_is_one(self) -> None:
        make = bsonraw.elements(ONE_NULL).__next__().__reduce__()[0]
        self.assertEqual(make("a", 16, b"\1\0\0\0").value, 1)
        for key, tag, payload in (("a", 16, b""), ("a", 99, b""), ("a\0b", 16, b"12"), ("a", 10, b"\x0a\0"), ("", 0, b"")):
            self.assertRaises(ValueError, make, key, tag, payload)

    def test_a_long_key_and_a_long_path(self) -> None:
        for size in (255, 256, 257, 100_000):
            error = bsonraw.first_fault(framed(b"\x08" + b"k" * size + b"\0\2"))
            self.assertEqual((error.reason, error.key), (Reason.BAD_BOOLEAN, "k" * size))

    def test_a_key_that_no_document_has(self) -> None:
        self.assertRaises(ValueError, bsonraw.get, GREETING, "\ud800")
        self.assertIsNone(bsonraw.get(GREETING, "hi\0"))


class Lent(bytes):
    """Bytes that lend others, where Python lets a class do that (3.12)."""

    def __buffer__(self, flags: int) -> memoryview:
        return memoryview(bytearray(REPEATED))


class Hostile(unittest.TestCase):
    def test_bytes_with_a_buffer_of_their_own(self) -> None:
        data = Lent(GREETING)
        wanted = REPEATED if sys.version_info >= (3, 12) else GREETING
        self.assertEqual(bsonraw.decode(data), bsonraw.decode(wanted))
        self.assertEqual([item.key for item in bsonraw.elements(data)], [item.key for item in bsonraw.elements(wanted)])
        self.assertEqual(bsonraw.canonical(data), bsonraw.canonical(wanted))

    def test_bytes_written_while_elements_are_kept(self) -> None:
        rng = random.Random(3)
        for data in all_made(7, 300):
            room = bytearray(data)
            try:
                items = [item for item in bsonraw.elements(room)]
                items += [item for _, item in bsonraw.walk(room)]
                walk = bsonraw.walk(room)
            except BsonError:
                continue
            for at in range(len(room)):
                room[at] = rng.randrange(256)
            wanted = [(item.offset, bytes(item.payload)) for item in (*bsonraw.elements(data), *(item for _, item in bsonraw.walk(data)))]
            self.assertEqual([(item.offset, bytes(item.payload)) for item in items], wanted)
            self.assertEqual([item.offset for _, item in walk], [item.offset for _, item in bsonraw.walk(data)])

    def test_a_closed_map(self) -> None:
        data = mapped(REPEATED, mmap.ACCESS_READ)
        item = bsonraw.get(data, "a")
        data.close()
        self.assertEqual(item.value, 1)
        for call in CALLS:
            self.assertRaises(ValueError, call, data)

    def test_calls_out_of_the_collector(self) -> None:
        """While values are made, the collector calls code that decodes, and goes on with the same iterators."""
        data = next(made for made in all_made(9, 50) if len(made) > 200 and bsonraw.check(made) is None)
        wanted = bsonraw.decode(data)
        seen: List[Any] = []
        running: List[Any] = []

        def meddle(phase: str, _: Any) -> None:
            for one in running:
                try:
                    next(one)
                except (ValueError, StopIteration):
                    pass
            seen.append(bsonraw.encode(bsonraw.decode(data)) if len(seen) < 2000 else None)

        before = gc.get_threshold()
        gc.set_threshold(1)
        gc.callbacks.append(meddle)
        try:
            for _ in range(20):
                running[:] = [bsonraw.walk(data), bsonraw.documents(data * 3)]
                self.assertEqual(len(list(bsonraw.walk(data))), len(list(bsonraw.walk(data))))
                list(running[0]), list(running[1])
                self.assertEqual(bsonraw.decode(data), wanted)
        finally:
            gc.callbacks.remove(meddle)
            gc.set_threshold(*before)
        self.assertGreater(len(seen), 10)

    @unittest.skipIf(sys.version_info >= (3, 12), "the collector runs between steps of Python alone")
    def test_closed_by_the_collector(self) -> None:
        """While the error of damage is made, the collector closes the iterator, which is all that has the bytes."""
        data = bytearray(framed(b"\x08a\0\1" + b"\x14" + b"k" * 200000 + b"\0"))
        items = bsonraw.elements(data)
        next(items)

        def close(*_: Any) -> None:
            items.close()

        before, found = gc.get_threshold(), None
        gc.disable()
        held: List[Any] = [[] for _ in range(400)]
        gc.callbacks.append(close)
        gc.set_threshold(1)
        try:
            gc.enable()
            next(items)
        except BsonError as error:
            gc.disable()
            found = error
        finally:
            gc.callbacks.remove(close)
            gc.set_threshold(*before)
            gc.enable()
        assert found is not None and held
        self.assertEqual((found.key, found.path, found.offset), ("k" * 200000, (1,), 8))
        self.assertEqual(list(items), [])

    def test_what_the_collector_shows_stays_as_it_is(self) -> None:
        """Whatever an earlier call has left is others' once they have it."""
        for number in range(3):
            data = bsonraw.encode({"a": Int64(number), "b": Int64(1 << 62)})
            shown = [(one, list(one)) for one in gc.get_objects() if type(one) is tuple]
            self.assertEqual(bsonraw.decode(data), {"a": number, "b": 1 << 62})
            self.assertEqual([one for one, before in shown if list(one) != before], [])

    def test_fork(self) -> None:
        child = os.fork()
        if child == 0:
            good = bsonraw.decode(REPEATED) == {"a": 2} and bsonraw.encode({"a": 2}) == bsonraw.canonical(REPEATED)
            os._exit(0 if good else 1)
        self.assertEqual(os.waitpid(child, 0)[1], 0)


IN_LITTLE_MEMORY = """
import resource
import bsonraw
from made import framed

data = framed(b"".join(b"\\x0a%d\\0" % number for number in range(300_000)))
with open("/proc/self/statm") as state:
    used = int(state.read().split()[0]) * resource.getpagesize()
resource.setrlimit(resource.RLIMIT_AS, (used + (7 << 20),) * 2)
for call in (bsonraw.decode, bsonraw.walk, bsonraw.to_json):
    try:
        call(data)
    except MemoryError:
        print("MemoryError")
print(sum(1 for _ in bsonraw.elements(data)), bsonraw.get(data, "299999").kind.name)
"""


class Memory(unittest.TestCase):
    @unittest.skipUnless(os.path.exists("/proc/self/statm"), "/proc isn't there")
    def test_no_memory(self) -> None:
        done = subprocess.run([sys.executable, "-c", IN_LITTLE_MEMORY], stdout=subprocess.PIPE, stderr=subprocess.PIPE)
        self.assertEqual(
            (done.stdout, done.stderr, done.returncode), (b"MemoryError\n" * 3 + b"300000 NULL\n", b"", 0)
        )


class Threads(unittest.TestCase):
    def test_threads_on_the_same_bytes_and_on_others(self) -> None:
        made = [(data, check_line(data), list_lines(data)) for data in all_made(5, 300)]
        shared = memoryview(bytearray(GREETING * 3))[19:38]
        large = bsonraw.encode({"a": ["text"] * 20_000})
        wrong: List[Any] = []

        def work(first: int) -> None:
            for data, verdict, lines in made[first:] + made[:first]:
                if check_line(data) != verdict or list_lines(data) != lines:
                    wrong.append(data)
                if bsonraw.canonical(shared) != GREETING:
                    wrong.append(shared)
            if bsonraw.canonical(large) is not large or bsonraw.encode(bsonraw.decode(large)) != large:
                wrong.append(large)

        threads = [threading.Thread(target=work, args=(first,)) for first in range(0, 300, 40)]
        for thread in threads:
            thread.start()
        for thread in threads:
            thread.join()
        self.assertEqual(wrong, [])

    def test_a_long_call_lets_others_run(self) -> None:
        """Another thread counts on while a large document of bytes is read."""
        elements = b"".join(b"\x0a%07d\0" % number for number in range(1_500_000, 0, -1))
        data = framed(elements)
        longer = framed(elements * 4)
        calls = (
            lambda: bsonraw.check(data, max_bytes=1 << 30),
            lambda: bsonraw.get(longer, "x"),
            lambda: bsonraw.find(longer, "x.0"),
        )
        counted = [0]
        is_on = [True]

        def count() -> None:
            while is_on[0]:
                time.sleep(0.0005)
                counted[0] += 1

        def counted_during(call: Callable[[], Any]) -> int:
            before = counted[0]
            call()
            return counted[0] - before

        # The lock changes hands once before a call and once after it in any case.
        thread = threading.Thread(target=count)
        thread.start()
        try:
            for call in calls:
                end = time.monotonic() + 60
                while counted_during(call) < 4:
                    self.assertLess(time.monotonic(), end)
        finally:
            is_on[0] = False
            thread.join()


if __name__ == "__main__":
    unittest.main()
