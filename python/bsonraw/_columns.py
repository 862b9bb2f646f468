"""Columns of one kind, in buffers that numpy, pandas and Arrow's libraries read."""

from __future__ import annotations

from collections.abc import Sequence
from typing import TYPE_CHECKING, Any, Iterator, List, Optional, Tuple, Union, overload

from . import _native

if TYPE_CHECKING:
    import numpy

    Parts = Tuple[int, int, int, Tuple[Optional[bytes], bytes, Optional[bytes]], bool]

_KINDS = ("", "bool", "int64", "double", "datetime", "text")
_FORMATS = {"bool": "?", "int64": "q", "double": "d", "datetime": "q", "text": "B"}
_BLOCK = 1024


class Column(Sequence):  # type: ignore[type-arg]
    """A column of `columns(.., typed=True)`: values of one kind, and None where there is none.

    numpy.asarray and pandas take one; so does a library that reads Arrow's
    PyCapsule interface, as pyarrow.array does, without a copy of the values.
    It can be pickled. An array of dates that have a time zone has objects,
    since numpy has no zones: pandas makes a column of dates in UTC of it.
    """

    __slots__ = ("_parts",)

    def __init__(self, parts: Parts) -> None:
        self._parts = parts

    @property
    def kind(self) -> str:
        """What the values are: "bool", "int64", "double", "datetime" or "text"."""
        return _KINDS[self._parts[0]]

    @property
    def missing(self) -> int:
        """How many places have no value."""
        return self._parts[2]

    @property
    def values(self) -> memoryview:
        """The values, with a 0 where there is none: of a datetime the milliseconds since 1970, of texts all UTF-8 in a row."""
        return memoryview(self._parts[3][1]).cast("B").cast(_FORMATS[self.kind])

    @property
    def ends(self) -> Optional[memoryview]:
        """Of texts where each begins, and the end of the last one; else None."""
        ends = self._parts[3][2]
        return None if ends is None else memoryview(ends).cast("B").cast("q")

    @property
    def valid(self) -> Optional[memoryview]:
        """A bit for each place, the lowest of a byte first, which is 1 where a value is; None where there is one everywhere."""
        valid = self._parts[3][0]
        return None if valid is None else memoryview(valid)

    def __len__(self) -> int:
        return self._parts[1]

    def __repr__(self) -> str:
        return f"<Column of {len(self)}, {self.kind}>"

    @overload
    def __getitem__(self, place: int) -> Any: ...
    @overload
    def __getitem__(self, place: slice) -> List[Any]: ...
    def __getitem__(self, place: Union[int, slice]) -> Any:
        places = range(len(self))[place]
        if isinstance(places, int):
            return _native.listed(*self._parts, places, places + 1)[0]
        if places.step == 1:
            return _native.listed(*self._parts, places.start, max(places.start, places.stop))
        return [self[one] for one in places]

    def __iter__(self) -> Iterator[Any]:
        for at in range(0, len(self), _BLOCK):
            yield from self[at : at + _BLOCK]

    def to_list(self) -> List[Any]:
        """The values as `decode` gives them, but an int64 as an int."""
        return self[:]

    def to_numpy(self) -> numpy.ndarray[Any, Any]:
        """An array of bool, int64, float64 or datetime64[ms], which is in UTC; of texts one of str.

        Where a value is missing it is NaN or NaT, and None in an array of
        objects, which bools are then, and ints that a float64 isn't exactly.
        """
        import numpy

        types = {"bool": "?", "int64": "<i8", "double": "<f8", "datetime": "<M8[ms]"}
        if self.kind == "text" or (self.kind == "bool" and self.missing):
            return numpy.array(self.to_list(), dtype=object)
        array: numpy.ndarray[Any, Any] = numpy.frombuffer(self._parts[3][1], types[self.kind])
        if not self.missing:
            return array
        if self.kind == "int64":
            if len(array) and max(int(array.max()), -int(array.min())) > 1 << 53:
                return numpy.array(self.to_list(), dtype=object)
            array = array.astype("<f8")
        else:
            array = array.copy()
        bits = numpy.frombuffer(self._parts[3][0] or b"", "u1")
        array[numpy.unpackbits(bits, count=len(self), bitorder="little") == 0] = "NaT" if self.kind == "datetime" else numpy.nan
        return array

    def __array__(self, dtype: Any = None, copy: Optional[bool] = None) -> numpy.ndarray[Any, Any]:
        if dtype is None and self.kind == "datetime" and not self._parts[4]:
            import numpy

            array: numpy.ndarray[Any, Any] = numpy.array(self.to_list(), dtype=object)
        else:
            array = self.to_numpy()
        if dtype is not None:
            array = array.astype(dtype, copy=copy is not False)
        if copy is False and array.base is None:
            raise ValueError("an array of these values isn't made without a copy")
        return array.copy() if copy and array.base is not None else array

    def __arrow_c_schema__(self) -> object:
        return _native.arrow(*self._parts, 0, len(self))[0]

    def __arrow_c_array__(self, requested_schema: object = None) -> Tuple[object, object]:
        return _native.arrow(*self._parts, 0, len(self))
