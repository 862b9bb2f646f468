"""Columns of one kind as buffers: what they hold, and what numpy, pandas and a reader of Arrow's structures make of them."""

import ctypes
import io
import pickle
import struct
import sys
import unittest
from datetime import datetime, timedelta, timezone
from typing import Any, Dict, List

import bsonraw
from bsonraw import BsonError, Column, Int64
from made import all_made, framed

try:
    import numpy
except ImportError:
    numpy = None  # type: ignore[assignment]
try:
    import pandas
except ImportError:
    pandas = None
try:
    import pyarrow
except ImportError:
    pyarrow = None

EPOCH = datetime(1970, 1, 1, tzinfo=timezone.utc)
WHEN = EPOCH + timedelta(milliseconds=1_234_567_890_123)
ROWS: List[Dict[str, Any]] = [
    {"i": 1, "d": 0.5, "b": True, "t": WHEN, "s": "Zürich", "n": None, "m": 1, "x": [1], "u": {"v": 1}},
    {"i": Int64(-(1 << 62)), "d": 2, "b": None, "t": EPOCH, "s": "", "m": "text", "x": [], "u": {"v": 2.25}},
    {"d": float("inf"), "b": False, "s": "東京 😀", "m": Int64(5), "u": {}},
]
DUMP = b"".join(map(bsonraw.encode, ROWS))
WANTED: Dict[str, Any] = {
    "i": ("int64", [1, -(1 << 62), None]),
    "d": ("double", [0.5, 2.0, float("inf")]),
    "b": ("bool", [True, None, False]),
    "t": ("datetime", [WHEN, EPOCH, None]),
    "s": ("text", ["Zürich", "", "東京 😀"]),
    "n": ("list", [None, None, None]),
    "m": ("list", [1, "text", 5]),
    "x": ("list", [[1], [], None]),
    "u.v": ("double", [1.0, 2.25, None]),
}


def told(table: Dict[Any, Any]) -> Dict[Any, Any]:
    return {key: (getattr(column, "kind", "list"), list(column)) for key, column in table.items()}


def shown(value: Any, beside: Any) -> str:
    """A value of a list as it has to come in a column: an Int64 as an int, and one among doubles may be a double."""
    if isinstance(value, int) and type(beside) is float and value == beside:
        return repr(beside)
    return repr(int(value) if type(value) is Int64 else value)


class Typed(unittest.TestCase):
    def test_kinds(self) -> None:
        for source in (DUMP, bytearray(DUMP), io.BytesIO(DUMP)):
            found = told(bsonraw.columns(source, paths=list(WANTED), typed=True))
            self.assertEqual((found, list(found)), (WANTED, list(WANTED)))
        found = told(bsonraw.columns(DUMP, typed=True))
        self.assertEqual({key: found[key] for key in WANTED if key != "u.v"}, {key: WANTED[key] for key in WANTED if key != "u.v"})
        self.assertEqual(found["u"], ("list", [{"v": 1}, {"v": 2.25}, {}]))
        self.assertEqual({type(value) for value in found["i"][1] + found["m"][1]}, {int, str, type(None)})
        self.assertEqual((bsonraw.columns(b"", typed=True), bsonraw.columns(b"", typed=True, paths=["a"])), ({}, {"a": []}))

    def test_ints_among_doubles(self) -> None:
        limit = 1 << 53
        for values, kind in (
            ([1, 2.5], "double"), ([2.5, 1], "double"), ([limit, 2.5], "double"), ([2.5, -limit], "double"), ([limit + 1, 2.5], "list"),
            ([2.5, limit + 1], "list"), ([2.5, -limit - 1], "list"), ([None, 1, 0.5], "double"), ([True, 1], "list"), ([1, True], "list"),
        ):
            dump = b"".join(bsonraw.encode({"a": value}) for value in values)
            column = bsonraw.columns(dump, typed=True)["a"]
            self.assertEqual((getattr(column, "kind", "list"), list(column)), (kind, values))

    def test_repeated_keys(self) -> None:
        """The last value counts, also where an earlier one is of another kind."""
        one, text = b"\x10a\0\1\0\0\0", b"\2a\0\2\0\0\0x\0"
        for documents, kind, values in (
            ([one + text], "text", ["x"]), ([text + one, one], "int64", [1, 1]), ([text, text + text + text], "text", ["x", "x"]),
            ([one, text + one], "list", [1, 1]), ([one, one + text], "list", [1, "x"]), ([one + b"\x0aa\0", one], "int64", [None, 1]),
            ([b"\x0aa\0" * 9 + one] * 9, "int64", [1] * 9), ([b"", one + b"\x0aa\0"], "list", [None, None]),
        ):
            column = bsonraw.columns(b"".join(map(framed, documents)), typed=True)["a"]
            self.assertEqual((getattr(column, "kind", "list"), list(column)), (kind, values), documents)

    def test_as_lists(self) -> None:
        made = [data for data in all_made(17, 1500) if bsonraw.first_fault(data) is None]
        dump, kinds = b"".join(made), set()
        for options in ({}, {"tz_aware": False, "uuid": True}):
            plain, typed = bsonraw.columns(dump, **options), bsonraw.columns(dump, typed=True, **options)
            self.assertEqual(list(plain), list(typed))
            for key, values in plain.items():
                kinds.add(getattr(typed[key], "kind", "list"))
                column = list(typed[key])
                self.assertEqual(list(map(repr, column)), list(map(shown, values, column)))
        for data in made:
            for key, column in bsonraw.columns(data, typed=True).items():
                kinds.add(getattr(column, "kind", "list"))
                self.assertEqual(list(map(repr, column)), list(map(shown, bsonraw.columns(data)[key], column)))
        self.assertEqual(kinds, {"list", "bool", "int64", "double", "datetime", "text"})

    def test_places(self) -> None:
        column = bsonraw.columns(b"".join(bsonraw.encode({"a": f"é{number}"}) for number in range(3000)), typed=True)["a"]
        wanted = [f"é{number}" for number in range(3000)]
        self.assertEqual((len(column), list(column), column.to_list(), column[:]), (3000, wanted, wanted, wanted))
        self.assertEqual((column[0], column[-1], column[5:9], column[9:5], column[::-1][:2]),
                         ("é0", "é2999", wanted[5:9], [], wanted[::-1][:2]))
        self.assertRaises(IndexError, column.__getitem__, 3000)
        self.assertEqual((column.index("é7"), "é" in column, repr(column)), (7, False, "<Column of 3000, text>"))
        self.assertEqual((column.missing, column.valid, column.ends[:3].tolist()), (0, None, [0, 3, 6]))

    def test_buffers(self) -> None:
        table = bsonraw.columns(DUMP, paths=list(WANTED), typed=True)
        self.assertEqual((table["i"].values.tolist(), bytes(table["i"].valid), table["i"].missing, table["i"].ends),
                         ([1, -(1 << 62), 0], b"\3", 1, None))
        self.assertEqual(table["t"].values.tolist(), [1_234_567_890_123, 0, 0])
        self.assertEqual((table["b"].values.tolist(), bytes(table["b"].valid)), ([True, False, False], b"\5"))
        self.assertEqual((bytes(table["s"].values).decode(), table["s"].ends.tolist()), ("Zürich東京 😀", [0, 7, 7, 18]))
        self.assertEqual(table["d"].values.format, "d")
        for column in table.values():
            if isinstance(column, Column):
                self.assertEqual(list(pickle.loads(pickle.dumps(column))), list(column))

    def test_what_is_left_out(self) -> None:
        damaged = framed(b"\x10a\0\7\0\0\0\x08b\0\2")
        dump = damaged + bsonraw.encode({"a": 1}) + damaged + bsonraw.encode({"a": 2})
        self.assertEqual(list(bsonraw.columns(dump, typed=True, errors="skip")["a"]), [1, 2])
        self.assertRaises(BsonError, bsonraw.columns, dump, typed=True)
        self.assertRaises(ValueError, bsonraw.columns, dump, typed=True, missing=0)

    def test_the_first_of_all_times_is_a_value(self) -> None:
        first = framed(b"\x09a\0" + struct.pack("<q", -(1 << 63)))
        self.assertEqual(bsonraw.columns(first, typed=True), {"a": [bsonraw.DatetimeMS(-(1 << 63))]})
        column = bsonraw.columns(framed(b"\x09a\0" + struct.pack("<q", 1 - (1 << 63))), typed=True)["a"]
        self.assertEqual((column.kind, list(column)), ("datetime", [bsonraw.DatetimeMS(1 - (1 << 63))]))

    def test_parts_that_lie(self) -> None:
        for parts in (
            (2, 2, 0, (None, bytes(15), None), False), (1, 5, 0, (None, bytes(4), None), False), (2, 9, 1, (b"\0", bytes(72), None), False),
            (5, 1, 0, (None, b"", bytes(8)), False), (5, 1, 0, (None, b"x", struct.pack("<2q", 0, 2)), False), (2, 1 << 62, 0, (None, b"", None), False),
            (5, 1, 0, (None, b"x", struct.pack("<2q", 1, 0)), False), (5, 1, 0, (None, b"x", struct.pack("<2q", -1, 1)), False),
            (0, 1, 0, (None, bytes(8), None), False), (6, 1, 0, (None, bytes(8), None), False), (2, 1, 2, (b"\0", bytes(8), None), False),
            (2, -1, 0, (None, bytes(8), None), False), (2, 1, 0, (None, bytearray(8), None), False),
        ):
            self.assertRaises((ValueError, OverflowError), Column(parts).to_list)
            self.assertRaises((ValueError, OverflowError), Column(parts).__arrow_c_array__)


class Schema(ctypes.Structure):
    """ArrowSchema of https://arrow.apache.org/docs/format/CDataInterface.html."""

    _fields_ = [("format", ctypes.c_char_p), ("name", ctypes.c_char_p), ("metadata", ctypes.c_char_p), ("flags", ctypes.c_int64),
                ("n_children", ctypes.c_int64), ("children", ctypes.c_void_p), ("dictionary", ctypes.c_void_p),
                ("release", ctypes.c_void_p), ("private_data", ctypes.c_void_p)]


class Array(ctypes.Structure):
    _fields_ = [("length", ctypes.c_int64), ("null_count", ctypes.c_int64), ("offset", ctypes.c_int64), ("n_buffers", ctypes.c_int64),
                ("n_children", ctypes.c_int64), ("buffers", ctypes.POINTER(ctypes.c_void_p)), ("children", ctypes.c_void_p),
                ("dictionary", ctypes.c_void_p), ("release", ctypes.c_void_p), ("private_data", ctypes.c_void_p)]


def pointer_of(capsule: Any, name: bytes, kind: Any) -> Any:
    get = ctypes.pythonapi.PyCapsule_GetPointer
    get.restype, get.argtypes = ctypes.c_void_p, [ctypes.py_object, ctypes.c_char_p]
    return kind.from_address(get(capsule, name))


def read(column: Any) -> Any:
    """The format and the values of a column, by Arrow's pages alone."""
    first, second = column.__arrow_c_array__()
    schema, array = pointer_of(first, b"arrow_schema", Schema), pointer_of(second, b"arrow_array", Array)
    assert (schema.flags & 2, schema.n_children, array.n_children, array.offset, schema.dictionary) == (2, 0, 0, 0, None)
    buffers, count = [array.buffers[number] for number in range(array.n_buffers)], array.length

    def bits(at: int) -> List[bool]:
        data = ctypes.string_at(at, (count + 7) // 8)
        return [bool(data[number // 8] >> number % 8 & 1) for number in range(count)]

    there = bits(buffers[0]) if buffers[0] else [True] * count
    assert there.count(False) == array.null_count
    if schema.format == b"b":
        values: List[Any] = bits(buffers[1])
    elif schema.format == b"U":
        ends = struct.unpack(f"<{count + 1}q", ctypes.string_at(buffers[1], 8 * count + 8))
        values = [ctypes.string_at(buffers[2] + one, two - one).decode() for one, two in zip(ends, ends[1:])]
    else:
        code = "d" if schema.format == b"g" else "q"
        values = list(struct.unpack(f"<{count}{code}", ctypes.string_at(buffers[1], 8 * count)))
    return schema.format.decode(), [value if is_there else None for value, is_there in zip(values, there)]


class Arrow(unittest.TestCase):
    def test_the_structures(self) -> None:
        table = bsonraw.columns(DUMP, paths=list(WANTED), typed=True)
        self.assertEqual(
            {key: read(column) for key, column in table.items() if isinstance(column, Column)},
            {
                "i": ("l", [1, -(1 << 62), None]), "d": ("g", [0.5, 2.0, float("inf")]), "b": ("b", [True, None, False]),
                "t": ("tsm:UTC", [1_234_567_890_123, 0, None]), "s": ("U", ["Zürich", "", "東京 😀"]), "u.v": ("g", [1.0, 2.25, None]),
            },
        )
        self.assertEqual(read(bsonraw.columns(DUMP, typed=True, tz_aware=False)["t"])[0], "tsm:")
        many = [[None, True, False][number % 3] for number in range(1001)]
        column = bsonraw.columns(b"".join(bsonraw.encode({"a": value}) for value in many), typed=True)["a"]
        self.assertEqual(read(column), ("b", many))
        capsule = column.__arrow_c_schema__()
        self.assertEqual(pointer_of(capsule, b"arrow_schema", Schema).format, b"b")

    def test_what_is_owned(self) -> None:
        """The bytes live as long as the array, whether a library takes it out of its capsule or not."""
        column = bsonraw.columns(DUMP, typed=True)["s"]
        values = column._parts[3][1]
        before = sys.getrefcount(values)
        capsules = [column.__arrow_c_array__() for _ in range(3)]
        self.assertEqual(sys.getrefcount(values), before + 3)
        taken = Array.from_buffer_copy(pointer_of(capsules[0][1], b"arrow_array", Array))
        pointer_of(capsules[0][1], b"arrow_array", Array).release = None
        del capsules
        self.assertEqual(sys.getrefcount(values), before + 1)
        ctypes.PYFUNCTYPE(None, ctypes.POINTER(Array))(taken.release)(ctypes.byref(taken))
        self.assertEqual((sys.getrefcount(values), taken.release), (before, None))

    @unittest.skipIf(pyarrow is None, "pyarrow isn't there, which Debian hasn't")
    def test_pyarrow(self) -> None:
        for key, column in bsonraw.columns(DUMP, paths=list(WANTED), typed=True).items():
            self.assertEqual(pyarrow.array(column).to_pylist(), WANTED[key][1])


class Numpy(unittest.TestCase):
    @unittest.skipIf(numpy is None, "numpy isn't there (Debian: python3-numpy)")
    def test_arrays(self) -> None:
        table = bsonraw.columns(DUMP, paths=list(WANTED), typed=True)
        arrays = {key: numpy.asarray(column) for key, column in table.items() if isinstance(column, Column)}
        self.assertEqual({key: array.dtype.str for key, array in arrays.items()},
                         {"i": "|O", "d": "<f8", "b": "|O", "t": "|O", "s": "|O", "u.v": "<f8"})
        self.assertEqual((arrays["i"].tolist(), arrays["b"].tolist()), ([1, -(1 << 62), None], [True, None, False]))
        self.assertEqual((arrays["s"].tolist(), arrays["d"].tolist()), (WANTED["s"][1], WANTED["d"][1]))
        self.assertEqual(arrays["t"].tolist(), WANTED["t"][1])
        naive = bsonraw.columns(DUMP, paths=["t"], typed=True, tz_aware=False)["t"]
        for array in (table["t"].to_numpy(), numpy.asarray(naive), numpy.asarray(table["t"], "<M8[ms]")):
            self.assertEqual((array.dtype.str, array.astype(str).tolist()), ("<M8[ms]", ["2009-02-13T23:31:30.123", "1970-01-01T00:00:00.000", "NaT"]))
        self.assertEqual(numpy.isnan(arrays["u.v"]).tolist(), [False, False, True])
        whole = bsonraw.columns(b"".join(bsonraw.encode({"i": n, "b": n > 1, "h": n} if n else {"i": n, "b": True}) for n in range(3)), typed=True)
        self.assertEqual([numpy.asarray(whole[key]).dtype.str for key in "ibh"], ["<i8", "|b1", "<f8"])
        self.assertEqual((numpy.asarray(whole["i"], "f4").tolist(), numpy.asarray(whole["b"]).tolist()), ([0.0, 1.0, 2.0], [True, False, True]))
        self.assertFalse(numpy.asarray(whole["i"]).flags.writeable)
        for column, kind, is_shared in ((whole["i"], None, True), (whole["i"], "<i8", True), (whole["i"], "f4", False), (table["u.v"], None, False)):
            array = column.__array__(kind, copy=True)
            self.assertTrue(array.flags.writeable)
            array[0] = 5
            self.assertNotEqual(column[0], 5)
            if is_shared:
                self.assertFalse(column.__array__(kind, copy=False).flags.writeable)
            else:
                self.assertRaises(ValueError, column.__array__, kind, copy=False)

    @unittest.skipIf(pandas is None, "pandas isn't there (Debian: python3-pandas)")
    def test_a_frame(self) -> None:
        frame = pandas.DataFrame(bsonraw.columns(DUMP, paths=list(WANTED), typed=True))
        self.assertEqual(list(frame.columns), list(WANTED))
        self.assertEqual((frame["s"].tolist(), frame["d"].dtype, frame["t"].dtype.kind), (WANTED["s"][1], "float64", "M"))
        self.assertEqual((frame["d"].sum(), frame["t"].isna().tolist(), frame["u.v"].mean()), (float("inf"), [False, False, True], 1.625))
        self.assertEqual(frame["t"][0], pandas.Timestamp(WHEN))
        for options in ({}, {"tz_aware": False}):
            lists, typed = (pandas.DataFrame(bsonraw.columns(DUMP, paths=["t"], typed=typed, **options)) for typed in (False, True))
            self.assertTrue(lists["t"].dtype.kind == "M" and lists.equals(typed), (lists.dtypes, typed.dtypes))
        made = [{"n": number, "s": str(number), "b": number % 2 == 0} for number in range(100)]
        frame = pandas.DataFrame(bsonraw.columns(b"".join(map(bsonraw.encode, made)), typed=True))
        self.assertTrue(frame.equals(pandas.DataFrame(made)))
        self.assertEqual([str(kind) for kind in frame.dtypes], ["int64", "object", "bool"])


if __name__ == "__main__":
    unittest.main()
