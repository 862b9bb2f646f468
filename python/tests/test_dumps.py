"""Documents one after the other: cut out of buffers and files, decoded all at once, with damage among them."""

import gc
import gzip
import io
import itertools
import os
import pickle
import tempfile
import unittest
import weakref
from pathlib import Path
from typing import Any, Iterator, List, Optional, Tuple

import bsonraw
from bsonraw import BsonError, ErrorKind, Reason
from made import all_made, framed

EMPTY = bytes.fromhex("05000000 00")
REPEATED = bytes.fromhex("13000000 106100 01000000 106100 02000000 00")
UNENDED = bytes.fromhex("05000000 01")
DUMP = EMPTY + REPEATED + UNENDED + EMPTY
WANTED = [(0, EMPTY), (5, REPEATED), (24, UNENDED), (29, EMPTY)]


class Trickle(io.RawIOBase):
    """A file that gives a few bytes at a time."""

    def __init__(self, data: bytes, sizes: Iterator[int]) -> None:
        self.data, self.sizes = data, sizes

    def read(self, size: int = -1) -> bytes:
        count = min(next(self.sizes), size)
        part, self.data = self.data[:count], self.data[count:]
        return part


def cut(source: Any) -> Tuple[List[Tuple[int, bytes]], Optional[BsonError]]:
    """The documents, and the error at which they end."""
    found: List[Tuple[int, bytes]] = []
    try:
        for offset, document in bsonraw.documents(source, max_bytes=1 << 31):
            found.append((offset, document))
    except BsonError as error:
        return found, error
    return found, None


def sources(data: bytes) -> Iterator[Any]:
    yield data
    yield bytearray(data)
    yield memoryview(data)
    yield io.BytesIO(data)
    for sizes in ((1,), (2, 3, 5), (4,), (7, 1)):
        yield Trickle(data, itertools.cycle(sizes))
    yield gzip.GzipFile(fileobj=io.BytesIO(gzip.compress(data)))


class Cut(unittest.TestCase):
    def test_from_each_kind_of_source(self) -> None:
        for source in sources(DUMP):
            self.assertEqual(cut(source), (WANTED, None))

    def test_where_no_document_can_stand(self) -> None:
        for tail, reason in ((b"\4\0\0\0\0", "LENGTH_INCORRECT"), (b"\5", "TOO_SHORT"), (b"\6\0\0\0\0", "LENGTH_INCORRECT"),
                             (b"\xff\xff\xff\x7f\0", "LENGTH_INCORRECT"), (b"\xff\xff\xff\xff\0", "LENGTH_INCORRECT")):
            for source in sources(DUMP + tail):
                found, error = cut(source)
                assert error is not None
                self.assertEqual((found, error.kind, error.offset), (WANTED, ErrorKind.NO_DOCUMENT, 34))
                self.assertEqual(error.reason, Reason[reason], tail)

    def test_documents_larger_than_a_block(self) -> None:
        large = framed(b"\x05\0" + (3 << 20).to_bytes(4, "little") + b"\0" + bytes(3 << 20))
        data = EMPTY + large + REPEATED + large
        wanted = [0, 5, 5 + len(large), 24 + len(large)]
        for source in (data, io.BytesIO(data), Trickle(data, itertools.cycle((700_000, 1)))):
            found, error = cut(source)
            self.assertEqual(([offset for offset, _ in found], error), (wanted, None))
            self.assertTrue(b"".join(document for _, document in found) == data)

    def test_a_length_that_is_made_up_takes_no_memory(self) -> None:
        found, error = cut(io.BytesIO(b"\xff\xff\xff\x7f" + bytes(1000)))
        self.assertEqual((found, error and error.offset), ([], 0))

    def test_many(self) -> None:
        made = [data for data in all_made(11, 3000) if data[:4] == len(data).to_bytes(4, "little")]
        data = b"".join(made)
        with tempfile.TemporaryDirectory() as folder:
            path = Path(folder, "dump.bson")
            path.write_bytes(data * 3)
            with open(path, "rb") as dump:
                found, error = cut(dump)
        self.assertIsNone(error)
        self.assertTrue([document for _, document in found] == made * 3)

    def test_what_is_no_source(self) -> None:
        for source in ("dump.bson", Path("dump.bson"), io.StringIO(""), 5, None):
            self.assertRaises(TypeError, bsonraw.documents, source)
        for read in (lambda size: "text", lambda size: None):
            source = io.BytesIO()
            source.read1 = read  # type: ignore[method-assign]
            self.assertRaises(TypeError, list, bsonraw.documents(source))

    def test_an_error_of_the_file_goes_through(self) -> None:
        with open(os.devnull, "rb") as dump:
            documents = bsonraw.documents(dump)
        self.assertRaises(ValueError, next, documents)
        self.assertRaises(StopIteration, next, documents)

    def test_close(self) -> None:
        data = bytearray(DUMP)
        documents = bsonraw.documents(data)
        next(documents)
        documents.close()
        data += b"x"
        self.assertRaises(StopIteration, next, documents)


def table_of(documents: List[Any], missing: Any = None) -> Any:
    """The columns of decoded documents, plainly."""
    keys = dict.fromkeys(key for document in documents for key in document)
    return {key: [document.get(key, missing) for document in documents] for key in keys}


class Columns(unittest.TestCase):
    def test_a_place_for_each_document(self) -> None:
        rows = [{"a": 1, "b": "x"}, {}, {"b": [{"c": None}], "d": {}}, {"d": 2.5, "a": bsonraw.Int64(7)}, {"e": True}]
        dump = b"".join(map(bsonraw.encode, rows))
        wanted = {"a": [1, None, None, 7, None], "b": ["x", None, [{"c": None}], None, None]}
        wanted.update(d=[None, None, {}, 2.5, None], e=[None, None, None, None, True])
        for source in sources(dump):
            found = bsonraw.columns(source)
            self.assertEqual((found, list(found)), (wanted, ["a", "b", "d", "e"]))
        self.assertEqual(bsonraw.columns(dump, missing=0)["e"], [0, 0, 0, 0, True])
        self.assertEqual((bsonraw.columns(b""), bsonraw.columns(EMPTY)), ({}, {}))

    def test_repeated_keys_and_other_orders(self) -> None:
        ab, ba = framed(b"\x0aa\0\x08b\0\1"), framed(b"\x08b\0\0\x0aa\0")
        self.assertEqual(bsonraw.columns(REPEATED + ab + ba + REPEATED), {"a": [2, None, None, 2], "b": [None, True, False, None]})

    def test_by_paths(self) -> None:
        rows = [{"a": {"b": 1, "c.d": [5, {"e": "x"}]}, "f": 2}, {}, {"a": [7, {"b": 3}]}, {"a": {"b": {"g": None}}}, {"f": [4]}]
        dump = b"".join(map(bsonraw.encode, rows))
        paths = ["f", "a.b", ("a", "c.d", 1, "e"), "a.1.b", ("a", 0), "a", "a.b.g", "f.0", ("x", "y")]
        wanted = {}
        for path in paths:
            found = [bsonraw.find(bsonraw.encode(row), path) for row in rows]
            wanted[path] = ["-" if one is None else one.value for one in found]
        for source in sources(dump):
            table = bsonraw.columns(source, paths=paths, missing="-")
            self.assertEqual((table, list(table)), (wanted, paths))
        self.assertEqual(bsonraw.columns(REPEATED + REPEATED, paths=["a"]), {"a": [2, 2]})
        self.assertEqual(bsonraw.columns(dump, paths=[]), {})
        scoped = bsonraw.encode({"c": bsonraw.Code("f", {"x": [1]})})
        self.assertEqual(bsonraw.columns(scoped, paths=["c.x.0", "c.y"]), {"c.x.0": [1], "c.y": [None]})
        self.assertRaises(ValueError, bsonraw.columns, dump, paths=["a.b", ("a", "b")])
        self.assertRaises(ValueError, bsonraw.columns, dump, paths=["a" + ".a" * 500])
        for paths in ([5], [()], [None], [("a", True)], 5):
            self.assertRaises(TypeError, bsonraw.columns, dump, paths=paths)
        self.assertRaises(BsonError, bsonraw.columns, UNENDED, paths=["a"])
        self.assertEqual(bsonraw.columns(UNENDED + dump, paths=["f"], errors="skip")["f"], [2, None, None, None, [4]])

    def test_as_decode_gives_them(self) -> None:
        made = [data for data in all_made(13, 600) if bsonraw.first_fault(data) is None]
        documents = bsonraw.decode_all(io.BytesIO(b"".join(made)))
        found = bsonraw.columns(io.BytesIO(b"".join(made)), missing=self)
        wanted = table_of(documents, self)
        self.assertEqual(list(found), list(wanted))
        for key, values in wanted.items():
            self.assertEqual(list(map(repr, found[key])), list(map(repr, values)))

    def test_errors(self) -> None:
        damaged = framed(b"\x08a\0\1" + b"\x08b\0\2")
        with self.assertRaises(BsonError) as caught:
            bsonraw.columns(DUMP[:24] + damaged)
        self.assertEqual((caught.exception.reason, caught.exception.offset), (Reason.BAD_BOOLEAN, 32))
        self.assertRaises(BsonError, bsonraw.columns, REPEATED, max_bytes=18)
        self.assertRaises(BsonError, bsonraw.columns, b"\5")
        self.assertRaises(TypeError, bsonraw.columns, REPEATED, pairs=True)
        self.assertRaises(TypeError, bsonraw.columns, "dump.bson")


class Decoded(unittest.TestCase):
    def test_all_of_a_dump(self) -> None:
        data = EMPTY + REPEATED + EMPTY
        for source in sources(data):
            self.assertEqual(bsonraw.decode_all(source), [{}, {"a": 2}, {}])
        self.assertEqual(bsonraw.decode_all(data, pairs=True)[1], [("a", 1), ("a", 2)])
        self.assertEqual(bsonraw.decode_all(b""), [])
        self.assertRaises(BsonError, bsonraw.decode_all, data, max_bytes=18)

    def test_each_as_decode_gives_it(self) -> None:
        made = [data for data in all_made(12, 2000) if bsonraw.first_fault(data) is None]
        values = bsonraw.decode_all(io.BytesIO(b"".join(made)))
        self.assertEqual([bsonraw.encode(value) for value in values], [bsonraw.canonical(data) for data in made])

    def test_documents_with_faults_are_passed_over(self) -> None:
        damaged = framed(b"\x08a\0\1" + b"\x08b\0\2")
        reasons = [Reason.BAD_BOOLEAN, Reason.NOT_TERMINATED, Reason.TOO_MANY_BYTES, Reason.BAD_BOOLEAN, Reason.TOO_MANY_BYTES]
        for size in (3_000, 3_000_000):
            large = bsonraw.encode({"z": "x" * size})
            dump = damaged + EMPTY + UNENDED + REPEATED + large + REPEATED + damaged + large + EMPTY
            front, behind = len(damaged), 48 + len(large)
            places = [8, front + 5, front + 29, front + behind + 8, 2 * front + behind]
            for source in sources(dump) if size == 3_000 else (dump, io.BytesIO(dump), Trickle(dump, itertools.cycle((700_000, 1, 99)))):
                told: List[BsonError] = []
                found = bsonraw.decode_all(source, errors=told.append, max_bytes=1000)
                self.assertEqual(found, [{}, {"a": 2}, {"a": 2}, {}])
                self.assertEqual([(error.reason, error.offset) for error in told], list(zip(reasons, places)))
        self.assertEqual(bsonraw.decode_all(dump, errors="skip", max_bytes=1000), [{}, {"a": 2}, {"a": 2}, {}])
        self.assertEqual(bsonraw.columns(dump, errors="skip", max_bytes=1000), {"a": [None, 2, 2, None]})

    def test_where_passing_over_ends(self) -> None:
        for tail, count in ((b"\4\0\0\0\0", 1), (b"\5", 1), (b"\x50\0\0\0" + bytes(50), 1), (b"", 0)):
            for source in sources(REPEATED + tail):
                told: List[BsonError] = []
                self.assertEqual(bsonraw.decode_all(source, errors=told.append), [{"a": 2}])
                self.assertEqual([error.offset for error in told], [19] * count)
        cut = (1 << 30).to_bytes(4, "little") + bytes(100)
        for source in (cut, io.BytesIO(cut)):
            self.assertEqual(bsonraw.decode_all(source, errors="skip"), [])
        for errors in (None, "ignore", 5):
            self.assertRaises(ValueError, bsonraw.decode_all, REPEATED, errors=errors)
        self.assertRaises(ZeroDivisionError, bsonraw.decode_all, UNENDED, errors=lambda error: 1 / 0)
        self.assertRaises(BsonError, bsonraw.decode_all, UNENDED, errors="strict")

    def test_a_first_document_that_is_refused_whole_has_an_offset(self) -> None:
        for data, reason in ((UNENDED, Reason.NOT_TERMINATED), (REPEATED, Reason.TOO_MANY_BYTES), (b"\4\0\0\0\0", Reason.LENGTH_INCORRECT)):
            for read in (bsonraw.decode_all, bsonraw.columns):
                for source in sources(data):
                    with self.assertRaises(BsonError) as caught:
                        read(source, max_bytes=18)
                    self.assertEqual((caught.exception.reason, caught.exception.offset), (reason, 0))
            ((offset, error),) = bsonraw.canonical_all(data, max_bytes=18).faults
            self.assertEqual((offset, error.reason, error.offset), (0, reason, 0))

    def test_a_fault_is_named_by_its_place_in_the_dump(self) -> None:
        damaged = framed(b"\x08a\0\1" + b"\x08b\0\2")
        for source in sources(EMPTY + REPEATED + damaged):
            with self.assertRaises(BsonError) as caught:
                bsonraw.decode_all(source)
            error = caught.exception
            self.assertEqual((error.offset, error.path, error.keys), (24 + 8, (1,), ("b",)))


def mixed(found: int, eight: int) -> int:
    found = (found ^ eight) * 0x9E3779B97F4A7C15 % (1 << 64)
    return found ^ found >> 32


def hash_of(form: bytes) -> int:
    """The hash of a form, plainly: of each 32 bytes eight go into each of four lanes, whose results come first; then eight bytes at
    a time, what is left of them last."""
    found, lanes, whole = len(form), [1, 2, 3, 4], len(form) // 32 * 32
    for at in range(0, whole, 8):
        lanes[at // 8 % 4] = mixed(lanes[at // 8 % 4], int.from_bytes(form[at : at + 8], "little"))
    rest = [int.from_bytes(form[at : at + 8], "little") for at in range(whole, len(form) // 8 * 8 + 1, 8)]
    for eight in lanes + rest:
        found = mixed(found, eight)
    return found


class Forms(unittest.TestCase):
    def test_each_as_canonical_gives_it(self) -> None:
        made = [data for data in all_made(13, 6000) if len(data) > 4 and int.from_bytes(data[:4], "little") == len(data)]
        dump = b"".join(made)
        wanted, places, faults, own, at = [], [], [], 0, 0
        for data in made:
            try:
                wanted.append(bsonraw.canonical(data))
                places.append((at, wanted[-1] == data))
                own += wanted[-1] == data
            except BsonError as error:
                faults.append((at, error))
            at += len(data)
        for source, before in ((dump, 0), (bytearray(dump), 0), (memoryview(b"x" + dump)[1:], 1)):
            forms = bsonraw.canonical_all(source, before=before)
            self.assertEqual(list(map(bytes, forms.each())), wanted)
            self.assertEqual((bytes(forms.data), forms.canonical), (b"".join(wanted), own))
            self.assertEqual(list(zip(forms.starts, forms.own)), [(before + at, is_own) for at, is_own in places])
            self.assertEqual(list(forms.hashes), list(map(hash_of, wanted)))
            self.assertEqual(len(set(forms.hashes)), len(set(wanted)))
            self.assertTrue(forms.data.readonly)
            self.assertEqual([offset for offset, _ in forms.faults], [before + offset for offset, _ in faults])
            for (_, one), (offset, two) in zip(forms.faults, faults):
                self.assertEqual((one.kind, one.reason, one.path, one.keys), (two.kind, two.reason, two.path, two.keys))
                if two.offset is not None:
                    self.assertEqual(one.offset, before + offset + two.offset)
        self.assertGreater(min(own, len(faults), len(wanted) - own), 500)

    def test_what_is_pickled(self) -> None:
        forms = bsonraw.canonical_all(DUMP + b"\4")
        again = pickle.loads(pickle.dumps(forms))
        self.assertEqual(type(again), bsonraw.Forms)
        self.assertEqual([list(part) for part in again[:5]], [list(part) for part in forms[:5]])
        self.assertEqual((again.canonical, list(map(str, again.faults))), (forms.canonical, list(map(str, forms.faults))))
        self.assertEqual([part.format for part in again[:5]], [part.format for part in forms[:5]])
        for source in sources(DUMP):
            self.assertEqual(pickle.loads(pickle.dumps(list(bsonraw.documents(source)))), WANTED)

    def test_forms_that_are_longer_than_their_documents(self) -> None:
        array = framed(b"\x0a\0" * 2000)
        data = framed(b"\4a\0" + array)
        forms = bsonraw.canonical_all(data * 50)
        self.assertEqual(list(map(bytes, forms.each())), [bsonraw.canonical(data)] * 50)
        self.assertGreater(len(forms.data), 2 * len(data) * 50)

    def test_where_no_document_can_be_cut(self) -> None:
        forms = bsonraw.canonical_all(EMPTY + REPEATED + b"\4\0\0\0" + EMPTY, before=100)
        ((offset, error),) = forms.faults
        self.assertEqual((offset, error.offset, error.kind, error.reason), (124, 124, ErrorKind.NO_DOCUMENT, Reason.LENGTH_INCORRECT))
        self.assertEqual((list(forms.ends), forms.canonical), ([5, 17], 1))
        forms = bsonraw.canonical_all(DUMP)
        self.assertEqual([(offset, error.reason) for offset, error in forms.faults], [(24, Reason.NOT_TERMINATED)])
        self.assertEqual(list(forms.ends), [5, 17, 22])
        self.assertEqual(list(bsonraw.canonical_all(b"").each()), [])

    def test_limits(self) -> None:
        deep = bsonraw.encode({"a": {"a": {}}})
        forms = bsonraw.canonical_all(EMPTY + REPEATED + deep, max_bytes=21, max_depth=2)
        self.assertEqual([(at, error.reason, error.keys) for at, error in forms.faults], [(24, Reason.TOO_DEEP, ("a", "a"))])
        forms = bsonraw.canonical_all(EMPTY + REPEATED, max_bytes=18)
        self.assertEqual([(at, error.reason, error.offset) for at, error in forms.faults], [(5, Reason.TOO_MANY_BYTES, 5)])
        self.assertRaises(ValueError, bsonraw.canonical_all, EMPTY, max_bytes=-1)
        self.assertRaises(TypeError, bsonraw.canonical_all, "text")

    def test_partitions(self) -> None:
        self.assertEqual(bsonraw.partitions(DUMP, 20), ([0, 24, 34], None))
        self.assertEqual(bsonraw.partitions(DUMP, 1), ([0, 5, 24, 29, 34], None))
        self.assertEqual(bsonraw.partitions(DUMP, 100), ([0, 34], None))
        self.assertEqual(bsonraw.partitions(b"", 5), ([0], None))
        offsets, error = bsonraw.partitions(DUMP + b"\5\0\0", 20)
        self.assertEqual((offsets, error and error.offset, error and error.reason), ([0, 24, 34], 34, Reason.TOO_SHORT))
        self.assertRaises(TypeError, bsonraw.partitions, "text", 5)
        self.assertRaises(OverflowError, bsonraw.partitions, DUMP, -1)


class OneByOne(unittest.TestCase):
    def test_decode_iter(self) -> None:
        """It gives what decode_all gives, of files and buffers, and ends where that does."""
        for data in (b"", *all_made(5, 60)):
            dump = bsonraw.encode({"a": 1}) + data + bsonraw.encode({"b": [2]}) * 2
            for options in ({}, {"errors": "skip"}, {"errors": "skip", "resync": True}, {"pairs": True, "errors": "skip"}, {"object_hook": len, "errors": "skip"}):
                def read(call: Any, source: Any) -> Any:
                    try:
                        return repr(list(call(source, **options)))
                    except bsonraw.BsonError as error:
                        return error.__reduce__()

                for source in (bytes, bytearray, io.BytesIO):
                    self.assertEqual(read(bsonraw.decode_iter, source(dump)), read(bsonraw.decode_all, source(dump)))

    def test_its_end(self) -> None:
        dump = bsonraw.encode({"a": 1}) * 3
        with bsonraw.decode_iter(dump) as each:
            self.assertEqual(next(each), {"a": 1})
        self.assertEqual(list(each), [])
        each = bsonraw.decode_iter(dump, object_hook=lambda document: next(each))
        self.assertRaises(ValueError, next, each)
        broken = bsonraw.decode_iter(dump + b"\xff" * 8 + dump)
        self.assertEqual([next(broken) for _ in range(3)], [{"a": 1}] * 3)
        self.assertRaises(bsonraw.DamagedError, next, broken)
        self.assertRaises(StopIteration, next, broken)

        class Read:
            def read(self, size: int) -> bytes:
                return b""

        source: Any = Read()
        source.kept = bsonraw.decode_iter(source, object_hook=lambda document: source)
        gone = weakref.ref(source)
        del source
        gc.collect()
        self.assertIsNone(gone())


if __name__ == "__main__":
    unittest.main()
