"""Documents changed and read without being decoded."""

import copy
import pickle
import random
import struct
import time
import unittest
from typing import Any, Callable, List

import bsonraw
from bsonraw import REMOVE, BsonError, Code, Int64, LimitError, Pairs, RawDocument, Reason, Regex
from made import all_made, framed


class Edit(unittest.TestCase):
    def test_changes(self) -> None:
        document = {"a": {"b": 1, "c": [{"d": 2}, 3]}, "e": Code("f", {"g": 1}), "h": True}
        data = bsonraw.encode(document)
        for changes, wanted in (
            ({}, document),
            ({"a.b": "new"}, {**document, "a": {"b": "new", "c": [{"d": 2}, 3]}}),
            ({"a.c.0.d": None, "a.c.1": Int64(4)}, {**document, "a": {"b": 1, "c": [{"d": None}, Int64(4)]}}),
            ({"a.c.2": 5, ("a", "c", 3): 6}, {**document, "a": {"b": 1, "c": [{"d": 2}, 3, 5, 6]}}),
            ({"e.g": 7}, {**document, "e": Code("f", {"g": 7})}),
            ({"h": REMOVE, "a": REMOVE, "x": REMOVE, "y.z": REMOVE}, {"e": document["e"], "y": {}}),
            ({"x.y.z": 1, ("x", "a.b"): 2}, {**document, "x": {"y": {"z": 1}, "a.b": 2}}),
            ({"h": {"new": []}}, {**document, "h": {"new": []}}),
        ):
            edited = bsonraw.edit(data, changes)
            self.assertEqual(edited, bsonraw.encode(wanted))
        self.assertEqual(bsonraw.edit(bytearray(data), {"h": {1}}, default=list), bsonraw.edit(data, {"h": [1]}))

    def test_copies_of_what_removes_and_of_elements_are_the_same(self) -> None:
        self.assertEqual(bsonraw.edit(bsonraw.encode({"a": 1}), copy.deepcopy({"a": REMOVE})), bsonraw.encode({}))
        self.assertIs(pickle.loads(pickle.dumps(REMOVE)), REMOVE)
        self.assertIs(copy.copy(REMOVE), REMOVE)
        element = bsonraw.find(bsonraw.encode({"a": {"b": 1}, "c": 2}), "a.b")
        self.assertEqual([copy.copy(element) is element, copy.deepcopy([element])[0] is element], [True, True])

    def test_all_other_bytes_are_kept(self) -> None:
        loose = framed(b"\x04a\0" + framed(b"\x0ax\0\x0ax\0") + b"\x08b\0\7" + b"\x10c\0\1\0\0\0" + b"\x10c\0\2\0\0\0")
        self.assertEqual(bsonraw.edit(loose, {}), loose)
        self.assertEqual(bsonraw.edit(loose, {"c": 9}), loose[:-5] + b"\x09\0\0\0\0")
        self.assertEqual(bsonraw.edit(loose, {"c": REMOVE}), framed(loose[4:-15]))
        self.assertEqual(bsonraw.edit(loose, {"a.1": None}), loose)

    def test_each_path_of_made_documents(self) -> None:
        rng, count = random.Random(4), 0
        for data in all_made(31, 300):
            if bsonraw.first_fault(data) is not None:
                continue
            for path, element in bsonraw.walk(data):
                found = bsonraw.find(data, path)
                if rng.random() < 0.3 and found.offset == element.offset:
                    edited = bsonraw.edit(data, {path: "changed"})
                    last = [one for one in bsonraw.walk(edited) if one[0] == path][-1][1]
                    if last.offset == element.offset:
                        end = element.offset + 2 + len(element.key.encode()) + len(element.payload)
                        self.assertEqual(last.value, "changed")
                        self.assertEqual(edited[last.offset + 2 + len(element.key.encode()) + 12 :], data[end:])
                        count += 1
        self.assertGreater(count, 200)

    def test_what_it_refuses(self) -> None:
        data = bsonraw.encode({"a": 1, "b": [1]})
        for changes in (
            {"a.b": 1}, {"a": 1, ("a",): 2}, {"b": 1, "b.0": 2}, {"b.0": 2, "b": 1}, {"b.5": 1}, {"b.x": 1}, {"b.0": REMOVE},
        ):
            self.assertRaises(ValueError, bsonraw.edit, data, changes)
        for changes in ({5: 1}, {(): 1}, {(None,): 1}, {(True,): 1}, {"a": object()}):
            self.assertRaises(TypeError, bsonraw.edit, data, changes)
        self.assertRaises(BsonError, bsonraw.edit, data[:-1], {})
        self.assertRaises(BsonError, bsonraw.edit, data, {"x\0": 1})


    def test_many_changes_at_once(self) -> None:
        """They are found by a dict, and those of an array in its order."""
        rng = random.Random(5)
        value: Any = {f"k{number}": number for number in range(300)}
        value["list"] = list(range(200))
        data = bsonraw.encode(value)
        for count in (1, 8, 9, 10, 100):
            changes: Any = {}
            wanted = copy.deepcopy(value)
            for number in rng.sample(range(300), count):
                changes[f"k{number}"] = wanted[f"k{number}"] = str(number)
            for number in rng.sample(range(200), count):
                changes["list", number] = wanted["list"][number] = [number]
            for number in range(count):
                changes[f"list.{200 + number}"] = -number
                wanted["list"].append(-number)
            for number in range(count):
                changes[f"new{number}.a.b"] = number
                wanted[f"new{number}"] = {"a": {"b": number}}
            self.assertEqual(bsonraw.decode(bsonraw.edit(data, changes)), wanted)

    def test_places_of_errors(self) -> None:
        data = bsonraw.encode({"a": {"b": [1]}})
        with self.assertRaisesRegex(TypeError, "at key 'a.b.0.c': "):
            bsonraw.edit(data, {"a.b.0": {"c": object()}})
        with self.assertRaises(BsonError) as caught:
            bsonraw.edit(data, {("a", "x"): {"y": {"z\0": 1}}})
        self.assertEqual((caught.exception.keys, caught.exception.key), (("a", "x", "y"), "z\0"))
        stop = framed(b"\x0ay\0" + b"\x03a\0" + framed(b"\x10b\0\1\0\0\0" + b"\x14d\0"))
        with self.assertRaises(BsonError) as caught:
            bsonraw.edit(stop, {"a.b": 1})
        self.assertEqual(caught.exception.__reduce__(), bsonraw.first_fault(stop).__reduce__())
        self.assertEqual(bsonraw.edit(stop, {"y": 1})[:11], struct.pack("<i", len(stop) + 4) + b"\x10y\0\1\0\0\0")
        self.assertRaises(ValueError, bsonraw.edit, data, {".".join("a" * 501): 1})
        self.assertRaises(ValueError, bsonraw.edit, data, {tuple("a" * 501): 1})
        deep = bsonraw.edit(data, {".".join("d" * 500): 1})
        self.assertEqual(bsonraw.find(deep, ["d"] * 500).value, 1)

    def test_it_takes_no_longer_than_decoding_and_encoding(self) -> None:
        small = {"_id": bsonraw.ObjectId(), "name": "Ada Lovelace", "born": 1815, "tags": ["maths", "poetry"], "address": {"city": "London", "zip": "W1"},
                 "score": 2.5, "ok": True, "note": "x" * 40}
        large = {f"key{number}": [number, str(number)] for number in range(1000)}
        array = {"a": list(range(20_000)), "b": 1}
        many = {f"key{number}": number for number in range(1000)}

        def whole(data: bytes, changes: Any) -> bytes:
            document = bsonraw.decode(data)
            for path, value in changes.items():
                *front, last = path.split(".")
                inner = document
                for step in front:
                    inner = inner[int(step) if isinstance(inner, list) else step]
                inner[int(last) if isinstance(inner, list) else last] = value
            return bsonraw.encode(document)

        for value, changes in ((small, {"born": 1816}), (small, {"address.city": "Paris", "tags.0": "logic"}), (large, {"key999.1": None}),
                               (array, {"a.19999": 1}), (array, {"b": 2}), (many, {f"key{number}": str(number) for number in range(0, 1000, 3)})):
            data = bsonraw.encode(value)
            self.assertEqual(bsonraw.edit(data, changes), whole(data, changes))
            ours, theirs = (least(lambda call=call: call(data, changes)) for call in (bsonraw.edit, whole))
            self.assertLess(ours, theirs, (len(data), changes if len(changes) < 9 else len(changes)))


def least(call: Callable[[], Any], rounds: int = 15) -> float:
    """The least time of a processor of some rounds."""
    spent = []
    for _ in range(rounds):
        start = time.process_time()
        for _ in range(20):
            call()
        spent.append(time.process_time() - start)
    return min(spent)


class Named(RawDocument):
    __slots__ = ("note",)


class Kept(RawDocument):
    def __init__(self, data: Any, name: str) -> None:
        super().__init__(data)
        self.name = name


class Raw(unittest.TestCase):
    def test_as_a_mapping(self) -> None:
        value: Any = {"a": {"b": [1, {"c": 2}]}, "d": None}
        data = bsonraw.encode(value)
        for source in (data, bytearray(data), memoryview(data)):
            document = RawDocument(source)
            self.assertEqual((document.raw, len(document), list(document)), (data, 2, ["a", "d"]))
            self.assertEqual((document["d"], document["a"]["b"], type(document["a"])), (None, [1, {"c": 2}], RawDocument))
            self.assertEqual(("a" in document, "x" in document, 5 in document, document.get("x", 7)), (True, False, False, 7))
            self.assertEqual((document == value, document == {"a": 1}, dict(document) == value), (True, False, True))
            self.assertRaises(KeyError, document.__getitem__, "x")
            self.assertEqual(bsonraw.encode(document), data)
            self.assertEqual(bsonraw.encode({"k": [document]}), bsonraw.encode({"k": [value]}))
        self.assertRaises(BsonError, RawDocument, data[:-1])

    def test_time_grows_with_the_size_alone(self) -> None:
        """A stranger's document of many keys takes no more than some times the time of decode."""
        data = bsonraw.encode({f"k{number}": None for number in range(40_000)})
        whole = least(lambda: bsonraw.decode(data), 3)
        for read in (lambda: list(RawDocument(data).items()), lambda: dict(RawDocument(data)), lambda: RawDocument(data) == RawDocument(data),
                     lambda: [RawDocument(data).get("none"), RawDocument(data).get("k39999")], lambda: list(RawDocument(data).values())):
            start = time.process_time()
            read()
            self.assertLess(time.process_time() - start, max(10 * whole, 2.0))

    def test_it_is_written_as_it_is(self) -> None:
        loose = framed(b"\x0br\0a\0mi\0" + b"\x04l\0" + framed(b"\x10" + b"5\0\1\0\0\0") + b"\x10c\0\1\0\0\0\x10c\0\2\0\0\0")
        for document in (RawDocument(loose), RawDocument(bsonraw.encode({"in": Pairs([("x", RawDocument(loose))])}))["in"]["x"], Named(loose)):
            self.assertEqual(bsonraw.encode({"x": document}), framed(b"\x03x\0" + loose))
            self.assertEqual(bsonraw.encode({"x": [1, document]})[14 + 4 :], b"\x031\0" + loose + b"\0\0")
            self.assertEqual(bsonraw.encode(document), loose)
        self.assertEqual(bsonraw.decode(loose)["r"], Regex("a", "mi"))
        deep: Any = RawDocument(bsonraw.encode({"a": {"b": {}}}))
        self.assertEqual(bsonraw.decode(bsonraw.encode({"x": deep}, max_depth=4)), {"x": {"a": {"b": {}}}})
        for document, depth in (({"x": deep}, 3), (deep, 2), ({"x": [deep]}, 4)):
            with self.assertRaisesRegex(LimitError, f"max_depth is {depth}"):
                bsonraw.encode(document, max_depth=depth)
        self.assertRaises(LimitError, bsonraw.encode, deep, max_bytes=len(deep.raw) - 1)
        self.assertRaises(LimitError, bsonraw.encode, {"x": deep}, max_bytes=len(deep.raw) + 7)
        self.assertEqual(len(bsonraw.encode({"x": deep}, max_bytes=len(deep.raw) + 8)), len(deep.raw) + 8)

    def test_keys_and_odd_calls(self) -> None:
        document = RawDocument(bsonraw.encode({"a": 1, "b": {"c": 2}}))
        for _ in range(3):
            self.assertEqual((document.get("\ud800", 7), "\ud800" in document, document.get(Named.__name__)), (7, False, None))
            self.assertRaises(TypeError, document.__getitem__, 5)
            self.assertEqual(document[type("Key", (str,), {})("a")], 1)
        self.assertRaises(TypeError, document.__init__, document.raw)
        empty = RawDocument.__new__(RawDocument)
        for call in (lambda: empty["a"], lambda: empty.raw, lambda: len(empty), lambda: list(empty), lambda: "a" in empty, lambda: bsonraw.encode({"x": empty})):
            self.assertRaises(ValueError, call)
        self.assertRaises(TypeError, hash, document)
        self.assertEqual((list(document.keys()), list(document.values()), document.items() >= {("a", 1)}), (["a", "b"], [1, {"c": 2}], True))

    def test_repeated_keys(self) -> None:
        document = RawDocument(framed(b"\x10c\0\1\0\0\0" + b"\x10c\0\2\0\0\0"))
        self.assertEqual((document["c"], len(document), list(document)), (1, 1, ["c"]))
        self.assertEqual(bsonraw.encode(document), document.raw)
        self.assertEqual(bsonraw.encode(Pairs(RawDocument(document.raw).items())), bsonraw.encode({"c": 1}))

    def test_places_of_errors(self) -> None:
        """They are from the outermost document's first byte on, as first_fault has them; in a copy from that one's."""
        bad = framed(b"\x10x\0\1\0\0\0" + b"\x08c\0\2" + b"\x14d\0")
        data = framed(b"\x0ay\0" + b"\x03\xc3\xa9\0" + framed(b"\x0az\0" + b"\x0az\0" + b"\x03b\0" + bad))
        fault = bsonraw.first_fault(data)
        self.assertEqual((fault.offset, fault.path, fault.keys), (data.index(b"\x08c\0"), (1, 2, 1), ("é", "b", "c")))
        inner: Any = RawDocument(data)["é"]["b"]
        self.assertEqual(inner["x"], 1)
        with self.assertRaises(BsonError) as caught:
            inner["c"]
        self.assertEqual((caught.exception.args, caught.exception.__reduce__()), (fault.args, fault.__reduce__()))
        stop = ("at offset 39: at key 'é.b.d': no kind has this tag: 20", 39, (1, 2, 2), ("é", "b", "d"), Reason.INVALID_TAG)
        self.assertEqual(data[39:], b"\x14d\0" + bytes(3))
        for read in (lambda: inner["q"], lambda: "q" in inner, lambda: list(inner), lambda: len(inner), lambda: dict(inner), lambda: inner == {}):
            with self.assertRaises(BsonError) as caught:
                read()
            error = caught.exception
            self.assertEqual((str(error), error.offset, error.path, error.keys, error.reason), stop)
        for own in (copy.copy(inner), pickle.loads(pickle.dumps(inner)), RawDocument(inner.raw)):
            with self.assertRaises(BsonError) as caught:
                own["c"]
            fault = bsonraw.first_fault(bad)
            self.assertEqual((caught.exception.__reduce__(), fault.offset), (fault.__reduce__(), 11))

    def test_copies_and_pickles(self) -> None:
        """A copy is of the same class and has the same bytes and attributes; one of a nested document has that one's bytes alone."""
        inner = bsonraw.encode({"b": 1})
        data = bsonraw.encode({"a": Pairs([("b", 1)]), "c": "x" * 1000})
        named, kept = Named(bytearray(data)), Kept(memoryview(data), name="n")
        named.note = ["note"]
        ways: List[Any] = [copy.copy, copy.deepcopy]
        ways += [lambda value, number=number: pickle.loads(pickle.dumps(value, number)) for number in range(pickle.HIGHEST_PROTOCOL + 1)]
        for way in ways:
            for document, raw in ((RawDocument(data), data), (RawDocument(data)["a"], inner), (named, data), (kept, data)):
                found = way(document)
                self.assertEqual((type(found), found.raw, found == document, list(found)), (type(document), raw, True, list(document)))
            self.assertEqual((way(named).note, way(kept).name, way(kept)["a"]["b"]), (["note"], "n", 1))
        self.assertEqual((copy.copy(named).note is named.note, copy.deepcopy(named).note is named.note), (True, False))
        self.assertLess(len(pickle.dumps(RawDocument(data)["a"])), 200)
        self.assertIs(RawDocument(data).raw, data)


if __name__ == "__main__":
    unittest.main()
