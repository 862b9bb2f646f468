"""What _native.pyi says is there is what the compiled module has: names, members of classes, and arguments."""

import ast
import inspect
import unittest
from pathlib import Path
from typing import Any, Dict, List, Set, Union

import bsonraw
from bsonraw import _native

STUB = ast.parse(Path(bsonraw.__file__).with_name("_native.pyi").read_text())
Named = Union[ast.FunctionDef, ast.ClassDef]


def named(body: List[ast.stmt]) -> Dict[str, Any]:
    """The functions, classes and attributes of a body; without classes that are for annotations alone."""
    found: Dict[str, Any] = {one.target.id: one for one in body if isinstance(one, ast.AnnAssign) and isinstance(one.target, ast.Name)}
    for one in body:
        if isinstance(one, ast.FunctionDef) or (isinstance(one, ast.ClassDef) and "Protocol" not in "".join(map(ast.dump, one.bases))):
            found[one.name] = one
    return found


def own(kind: type) -> Set[str]:
    """The names of a class that its base hasn't."""
    return {name for name in vars(kind) if not hasattr(kind.__base__, name) and name not in ("__module__", "__weakref__", "_native", "__static_attributes__", "__firstlineno__")}


def arguments_of(one: ast.FunctionDef) -> Dict[str, Any]:
    """By name the kind of each argument, and whether it may be left out."""
    places = [*one.args.posonlyargs, *one.args.args]
    least = len(places) - len(one.args.defaults)
    found = {each.arg: ("place", number >= least) for number, each in enumerate(places)}
    return {**found, **{each.arg: ("name", default is not None) for each, default in zip(one.args.kwonlyargs, one.args.kw_defaults)}}


def arguments_there(call: Any) -> Dict[str, Any]:
    parameters = inspect.signature(call).parameters.values()
    is_named = {True: "name", False: "place"}
    return {one.name: (is_named[one.kind is one.KEYWORD_ONLY], one.default is not one.empty) for one in parameters}


class Stub(unittest.TestCase):
    def test_names(self) -> None:
        self.assertEqual(set(named(STUB.body)), {name for name in vars(_native) if not name.startswith("__")})

    def test_members_of_classes(self) -> None:
        for name, one in named(STUB.body).items():
            if isinstance(one, ast.ClassDef):
                kind = getattr(_native, name)
                said = {member for member in named(one.body) if not hasattr(kind.__base__, member)}
                if any("Iterator" in ast.dump(base) for base in one.bases):
                    said.add("__iter__")
                self.assertEqual(said, own(kind), name)

    def test_arguments(self) -> None:
        calls = {name: (one, getattr(_native, name)) for name, one in named(STUB.body).items() if isinstance(one, ast.FunctionDef)}
        (decode,) = (one for one in named(STUB.body)["Element"].body if isinstance(one, ast.FunctionDef) and one.name == "decode")
        count = 0
        for one, call in (*calls.values(), (decode, _native.Element.decode)):
            if call.__text_signature__ is not None:
                self.assertEqual(arguments_of(one), arguments_there(call), one.name)
                count += 1
        self.assertGreaterEqual(count, 12)

    def test_options_of_calls_without_a_signature(self) -> None:
        """Such a call misses its argument where it knows the option, and else the option."""
        for name in ("decode_all", "decode_iter", "columns", "canonical_all"):
            call = getattr(_native, name)
            for option, (kind, _) in arguments_of(named(STUB.body)[name]).items():
                if kind == "name":
                    with self.assertRaises((TypeError, ValueError)) as caught:
                        call(**{option: None})
                    self.assertNotIn("unexpected", str(caught.exception))
            self.assertRaisesRegex(TypeError, "unexpected", call, unknown=None)


if __name__ == "__main__":
    unittest.main()
