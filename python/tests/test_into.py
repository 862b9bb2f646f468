"""Decoding into types."""

import dataclasses
import datetime
import enum
import io
import pathlib
import pickle
import unittest
from decimal import Decimal
from typing import Any, Dict, FrozenSet, Generic, List, Mapping, NewType, Optional, Sequence, Set, Tuple, TypedDict, TypeVar, Union
from uuid import UUID

import bsonraw
from bsonraw import Binary, Decimal128, Int64, MismatchError, ObjectId

try:
    import attr
except ImportError:
    attr = None  # type: ignore[assignment]
try:
    import pydantic
except ImportError:
    pydantic = None  # type: ignore[assignment]


class Colour(enum.Enum):
    RED = "red"


UserId = NewType("UserId", int)


@dataclasses.dataclass
class Address:
    city: str
    zip: Optional[str] = None


class Point(TypedDict):
    x: float
    y: float


class Some(TypedDict, total=False):
    x: float


T = TypeVar("T")


@dataclasses.dataclass
class Box(Generic[T]):
    item: T
    items: List[T] = dataclasses.field(default_factory=list)
    inner: "Optional[Box[T]]" = None


@dataclasses.dataclass
class Person:
    name: str
    age: int
    address: Address
    places: List[Address] = dataclasses.field(default_factory=list)
    score: float = 0.0
    point: Optional[Point] = None
    tags: Set[str] = dataclasses.field(default_factory=set)
    by: Dict[str, Address] = dataclasses.field(default_factory=dict)
    pair: Optional[Tuple[int, str]] = None
    price: Optional[Decimal] = None
    colour: Optional[Colour] = None
    path: Optional[pathlib.Path] = None
    day: Optional[datetime.date] = None
    either: Union[int, str, None] = None
    user: Optional[UserId] = None
    parent: "Optional[Person]" = None
    anything: Any = None
    frozen: FrozenSet[int] = frozenset()
    numbers: Sequence[int] = ()
    more: Mapping[str, int] = dataclasses.field(default_factory=dict)


ADA: Dict[str, Any] = {"name": "Ada", "age": 36, "address": {"city": "London", "unknown": 1}}


class Into(unittest.TestCase):
    def test_a_dataclass(self) -> None:
        when = datetime.datetime(2020, 1, 2, tzinfo=datetime.timezone.utc)
        document = {
            **ADA, "places": [{"city": "a"}, {"city": "b", "zip": "c"}], "score": 2, "point": {"x": 1, "y": 2.5}, "tags": ["x", "y"],
            "by": {"k": {"city": "d"}}, "pair": [1, "two"], "price": Decimal128("1.50"), "colour": "red", "path": "/a/b", "day": when, "either": "text",
            "user": Int64(5), "parent": ADA, "anything": [1, {}], "frozen": [1, 2], "numbers": [3], "more": {"n": 1},
        }  # fmt: skip
        found = bsonraw.decode(bsonraw.encode(document), type=Person)
        plain = Person("Ada", 36, Address("London"))
        self.assertEqual(found, Person(
            "Ada", 36, Address("London"), [Address("a"), Address("b", "c")], 2.0, {"x": 1.0, "y": 2.5}, {"x", "y"}, {"k": Address("d")}, (1, "two"),
            Decimal("1.50"), Colour.RED, pathlib.Path("/a/b"), when.date(), "text", UserId(5), plain, [1, {}], frozenset({1, 2}), [3], {"n": 1},
        ))  # fmt: skip
        self.assertEqual((type(found.score), type(found.user), bsonraw.decode(bsonraw.encode(ADA), type=Person)), (float, int, plain))
        dump = bsonraw.encode(ADA) * 3
        self.assertEqual(bsonraw.decode_all(dump, type=Person), [plain] * 3)
        self.assertEqual(bsonraw.decode_all(io.BytesIO(dump), type=Person), [plain] * 3)
        self.assertEqual(bsonraw.loads('{"name": "Ada", "age": 36, "address": {"city": "London"}}', type=Person), plain)
        self.assertEqual(bsonraw.decode(bsonraw.encode(ADA), type=None), ADA)

    def test_what_does_not_fit(self) -> None:
        for changes, keys, text in (
            ({"age": "36"}, ("age",), "at key 'age': str in place of int"), ({"age": True}, ("age",), "at key 'age': bool in place of int"),
            ({"address": {}}, ("address",), "at key 'address': a Address lacks 'city'"), ({"address": 5}, ("address",), "at key 'address': int in place of Address"),
            ({"places": [{"city": "a"}, {"city": 1}]}, ("places", "1", "city"), "at key 'places.1.city': int in place of str"),
            ({"by": {"a.b": {"city": None}}}, ("by", "a.b", "city"), "at key 'by.a.b.city': NoneType in place of str"),
            ({"pair": [1]}, ("pair",), "at key 'pair': list in place of an array of 2"), ({"colour": "blue"}, ("colour",), "at key 'colour': 'blue' is no Colour"),
            ({"parent": {**ADA, "age": None}}, ("parent", "age"), "at key 'parent.age': NoneType in place of int"),
            ({"point": {"x": 1}}, ("point",), "at key 'point': a Point lacks 'y'"), ({"tags": "x"}, ("tags",), "at key 'tags': str in place of an array"),
        ):
            with self.assertRaises(MismatchError) as caught:
                bsonraw.decode(bsonraw.encode({**ADA, **changes}), type=Person)
            self.assertEqual(caught.exception.keys, keys)
            self.assertTrue(str(caught.exception).startswith(text), caught.exception)
            self.assertEqual(str(pickle.loads(pickle.dumps(caught.exception))), str(caught.exception))
        with self.assertRaisesRegex(MismatchError, "^a Person lacks 'name'$"):
            bsonraw.decode(bsonraw.encode({}), type=Person)
        for wrong in (5, "Person", [], lambda: None):
            self.assertRaises(TypeError, bsonraw.decode, bsonraw.encode(ADA), type=wrong)
        self.assertRaises(MismatchError, bsonraw.decode_all, bsonraw.encode(ADA) + bsonraw.encode({}), type=Person)

    def test_values_of_bson(self) -> None:
        @dataclasses.dataclass
        class Kinds:
            id: ObjectId
            at: datetime.datetime
            data: bytes

        kinds = Kinds(ObjectId(bytes(12)), datetime.datetime(2020, 1, 1, tzinfo=datetime.timezone.utc), b"x")
        data = bsonraw.encode({"id": kinds.id, "at": kinds.at, "data": kinds.data})
        self.assertEqual(bsonraw.decode(data, type=Kinds), kinds)
        self.assertEqual(bsonraw.decode(data, type=Kinds, tz_aware=False).at.tzinfo, None)

    def test_uuids(self) -> None:
        @dataclasses.dataclass
        class Holder:
            id: UUID

        value = UUID("00112233-4455-6677-8899-aabbccddeeff")
        for uuid in (False, True):
            self.assertEqual(bsonraw.decode(bsonraw.encode({"id": value}), type=Holder, uuid=uuid), Holder(value))
        for wrong in (Binary(value.bytes, 3), Binary(value.bytes[1:], 4), value.bytes, str(value)):
            with self.assertRaises(MismatchError):
                bsonraw.decode(bsonraw.encode({"id": wrong}), type=Holder)

    def test_generic_classes(self) -> None:
        data = bsonraw.encode({"item": 1, "items": [2], "inner": {"item": 3, "inner": {"item": 4}}})
        self.assertEqual(bsonraw.decode(data, type=Box[int]), Box(1, [2], Box(3, [], Box(4))))
        self.assertEqual(bsonraw.decode(bsonraw.encode({"item": {"city": "a"}}), type=Box[Address]), Box(Address("a")))
        self.assertEqual(bsonraw.decode(bsonraw.encode({"item": "x"}), type=Box), Box("x"))
        for changes, keys in (({"item": "x"}, ("item",)), ({"items": [1, "x"]}, ("items", "1")), ({"inner": {"item": "x"}}, ("inner", "item"))):
            with self.assertRaises(MismatchError) as caught:
                bsonraw.decode(bsonraw.encode({"item": 1, **changes}), type=Box[int])
            self.assertEqual(caught.exception.keys, keys)

    def test_a_typed_dict_that_may_lack_keys(self) -> None:
        self.assertEqual(bsonraw.decode(bsonraw.encode({}), type=Some), {})
        self.assertEqual(bsonraw.decode(bsonraw.encode({"x": 1, "y": 2}), type=Some), {"x": 1.0})

    @unittest.skipIf(attr is None, "attrs isn't there (Debian: python3-attr)")
    def test_attrs(self) -> None:
        @attr.s(auto_attribs=True)
        class Inner:
            n: int

        @attr.s(auto_attribs=True)
        class Outer:
            inner: Inner
            _hidden: str = "h"
            many: List[Inner] = attr.Factory(list)

        data = bsonraw.encode({"inner": {"n": 1}, "_hidden": "x", "many": [{"n": 2}]})
        with self.assertRaisesRegex(MismatchError, "at key 'inner.n': str in place of int"):
            bsonraw.decode(bsonraw.encode({"inner": {"n": "1"}}), type=Outer)
        self.assertEqual(bsonraw.decode(data, type=Outer), Outer(Inner(1), "x", [Inner(2)]))

    @unittest.skipIf(pydantic is None, "pydantic isn't there (Debian: python3-pydantic)")
    def test_pydantic(self) -> None:
        class Model(pydantic.BaseModel):
            name: str
            numbers: List[int] = []

        @dataclasses.dataclass
        class Holder:
            model: Any

        self.assertEqual(bsonraw.decode(bsonraw.encode({"name": "a", "numbers": [1]}), type=Model), Model(name="a", numbers=[1]))
        with self.assertRaises(MismatchError) as caught:
            bsonraw.decode(bsonraw.encode({"name": "a", "numbers": [1, "x"]}), type=Model)
        self.assertEqual(caught.exception.keys, ("numbers", "1"))


if __name__ == "__main__":
    unittest.main()
