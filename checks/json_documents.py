"""Documents that are made at random, of all kinds of values with their borders, and how what two programs print of them as Extended JSON may
differ.
"""

import json
import random
import struct
from datetime import datetime, timedelta
from typing import Any, Callable, Dict, Iterator, List, Optional, Tuple

CONTROLS = "".join(map(chr, range(32)))
WORDS = "then one that he by than out could each all no find his has of long way for when but people its have look".split()
BORDERS = ["", "a", '"', "\\", "\\u0041", "/", "</", "\x7f", "\x80", "é", "\u07ff\u0800", "\u2028\u2029", "\ud7ff\ue000\uffff", "😀\U0010ffff"]
TEXTS = BORDERS + [CONTROLS[1:], "ab" * 40, "€" * 30, "$", "$oid", "$date", "0", "a.b", '{"a":1}']
INT32 = [0, 1, -1, 2**31 - 1, -(2**31)]
INT64 = INT32 + [2**31, -(2**31) - 1, 2**53, 2**53 + 1, -(2**53) - 1, 2**63 - 1, -(2**63)]
LAST = 253402300799999
DATES = [0, 1, 999, 1000, 86399999, 951782400000, 4107542399999, LAST, LAST + 1, -1, -1000, 2**63 - 1, -(2**63)]
DOUBLES = [0.0, -0.0, 1.0, -1.5, 0.1, 1e21, 1e22, 1e23, 1e-6, 1e-7, 123456789012345680.0, 2.0**53, 2.0**63, 5e-324, 2.2250738585072014e-308]
DOUBLES += [1.7976931348623157e308, float("inf"), float("-inf"), float("nan")]
NO_NUMBERS = [0x7FF0000000000001, 0xFFF8000000000000, 0xFFFFFFFFFFFFFFFF]
BIAS = 6176


def number(value: int, size: int, signed: bool = True) -> bytes:
    return value.to_bytes(size, "little", signed=signed)


def text(value: str) -> bytes:
    encoded = value.encode("utf-8")
    return number(len(encoded) + 1, 4) + encoded + b"\0"


def body(elements: List[Tuple[int, str, bytes]]) -> bytes:
    inside = b"".join(bytes([tag]) + key.encode("utf-8") + b"\0" + value for tag, key, value in elements)
    return number(len(inside) + 5, 4) + inside + b"\0"


def decimal(coefficient: int, exponent: int, negative: bool) -> bytes:
    return number(coefficient + ((exponent + BIAS) << 113) + (negative << 127), 16, False)


class Maker:
    """Makes documents."""

    def __init__(self, seed: int) -> None:
        self.rng = random.Random(seed)

    def key(self) -> str:
        if self.rng.randrange(3):
            return self.rng.choice(WORDS)
        return self.rng.choice(TEXTS)

    def words(self, nul: bool = True) -> str:
        if self.rng.randrange(2):
            return " ".join(self.rng.choice(WORDS) for _ in range(self.rng.randrange(12)))
        parts = [self.rng.choice(TEXTS) for _ in range(self.rng.randrange(1, 4))]
        return ("\0" if nul and self.rng.randrange(8) == 0 else "").join(parts)

    def size(self, borders: List[int], bits: int) -> int:
        if self.rng.randrange(2):
            return self.rng.choice(borders)
        return self.rng.randrange(-(2 ** (bits - 1)), 2 ** (bits - 1)) >> self.rng.randrange(bits)

    def double(self) -> bytes:
        choice = self.rng.randrange(4)
        if choice == 0:
            return struct.pack("<d", self.rng.choice(DOUBLES))
        if choice == 1:
            return struct.pack("<d", round(self.rng.uniform(-1000, 1000), self.rng.randrange(6)))
        return number(self.rng.choice(NO_NUMBERS) if self.rng.randrange(9) == 0 else self.rng.getrandbits(64), 8, False)

    def binary(self) -> bytes:
        inside = self.rng.randbytes(self.rng.choice([0, 1, 2, 3, 15, 16, 17, 47, 48, 49, 200]))
        subtype = self.rng.choice([0, 1, 2, 3, 4, 5, 6, 7, 8, 0x7F, 0x80, 0xFF])
        if subtype == 2:
            inside = number(len(inside), 4) + inside
        return number(len(inside), 4) + bytes([subtype]) + inside

    def date(self) -> bytes:
        choice = self.rng.randrange(3)
        if choice == 0:
            return number(self.rng.choice(DATES), 8)
        return number(self.rng.randrange(LAST + 1) if choice == 1 else self.size(INT64, 64), 8)

    def regex(self) -> bytes:
        options = "".join(letter for letter in "ilmsux" if self.rng.randrange(3) == 0)
        if self.rng.randrange(10) == 0:
            options = self.rng.choice(["xi", "mi", "g", "ii", "é"])
        return self.words(False).encode("utf-8") + b"\0" + options.encode("utf-8") + b"\0"

    def decimal(self) -> bytes:
        choice = self.rng.randrange(4)
        if choice == 0:
            return self.rng.randbytes(16)
        if choice == 1:
            return number(self.rng.choice([30, 31]) << 122 | self.rng.getrandbits(1) << 127, 16, False)
        digits = self.rng.choice([1, 2, 5, 6, 7, 8, 33, 34])
        coefficient = self.rng.choice([0, 1, 10**34 - 1, 10**34, self.rng.randrange(10**digits)])
        exponent = self.rng.choice([-BIAS, 6111, 0, 1, -1, -5, -6, -7, -digits, -digits - 5, -digits - 6, self.rng.randrange(-40, 40)])
        return decimal(coefficient, exponent, self.rng.randrange(2) == 0)

    def scoped(self, depth: int) -> bytes:
        inside = text(self.words()) + self.document(depth + 1)
        return number(len(inside) + 4, 4) + inside

    def array(self, depth: int) -> bytes:
        values = [self.value(depth + 1) for _ in range(self.rng.choice([0, 1, 2, 3, 12]))]
        key = str if self.rng.randrange(8) else lambda place: self.key()
        return body([(tag, key(place), value) for place, (tag, value) in enumerate(values)])

    def value(self, depth: int) -> Tuple[int, bytes]:
        kinds: List[Tuple[int, Callable[[], bytes]]] = [
            (0x01, self.double),
            (0x02, lambda: text(self.words())),
            (0x05, self.binary),
            (0x06, bytes),
            (0x07, lambda: self.rng.randbytes(12)),
            (0x08, lambda: bytes([self.rng.randrange(2)])),
            (0x09, self.date),
            (0x0A, bytes),
            (0x0B, self.regex),
            (0x0C, lambda: text(self.words()) + self.rng.randbytes(12)),
            (0x0D, lambda: text(self.words())),
            (0x0E, lambda: text(self.words())),
            (0x10, lambda: number(self.size(INT32, 32), 4)),
            (0x11, lambda: number(self.rng.choice([0, 1, 2**32 - 1, self.rng.getrandbits(64)]), 8, False)),
            (0x12, lambda: number(self.size(INT64, 64), 8)),
            (0x13, self.decimal),
            (0x7F, bytes),
            (0xFF, bytes),
        ]
        if depth < 4:
            kinds += [(0x03, lambda: self.document(depth + 1)), (0x04, lambda: self.array(depth)), (0x0F, lambda: self.scoped(depth))]
        tag, make = self.rng.choice(kinds)
        return tag, make()

    def document(self, depth: int = 0) -> bytes:
        elements = [self.value(depth) for _ in range(self.rng.choice([0, 1, 2, 3, 6, 12]))]
        return body([(tag, self.key(), value) for tag, value in elements])

    def deep(self) -> bytes:
        """A document of many levels; libbson prints 200 at most."""
        inside = body([(3, "0", self.document(3))])
        for _ in range(self.rng.randrange(10, 190)):
            inside = body([(self.rng.choice([3, 4]), "0", inside)])
        return inside

    def documents(self, count: int) -> Iterator[bytes]:
        for place in range(count):
            yield self.deep() if place % 100 == 99 else self.document()


class Whole(Maker):
    """Makes documents whose canonical text has all of them: canonical ones, whose nested documents have no wrapper's key, whose NaNs
    are the default one, and whose decimals are canonical."""

    def double(self) -> bytes:
        value = super().double()
        (found,) = struct.unpack("<d", value)
        return value if found == found else number(0x7FF8000000000000, 8)

    def regex(self) -> bytes:
        pattern, options, _ = super().regex().decode("utf-8").split("\0")
        return f"{pattern}\0{''.join(sorted(options))}\0".encode("utf-8")

    def decimal(self) -> bytes:
        if self.rng.randrange(8) == 0:
            return number(self.rng.choice([30, 31, 62]) << 122, 16, False)
        coefficient = self.rng.choice([0, 1, 10**34 - 1, self.rng.randrange(10 ** self.rng.randrange(1, 35))])
        return decimal(coefficient, self.rng.choice([-BIAS, 6111, 0, self.rng.randrange(-BIAS, 6112)]), self.rng.randrange(2) == 0)

    def array(self, depth: int) -> bytes:
        values = [self.value(depth + 1) for _ in range(self.rng.choice([0, 1, 2, 3, 12]))]
        return body([(tag, str(place), value) for place, (tag, value) in enumerate(values)])

    def document(self, depth: int = 0) -> bytes:
        names = [self.key() for _ in range(self.rng.choice([0, 1, 2, 3, 6, 12]))]
        keys = list(dict.fromkeys("$gt" if depth and name in ("$oid", "$date") else name for name in names))
        return body([(tag, key, value) for key, (tag, value) in ((key, self.value(depth)) for key in keys)])


OTHER_NAN = body([(1, "a", number(NO_NUMBERS[0], 8, False))])
"""A document that comes back from its text as another one: its NaN isn't the default one."""


# What two programs print of a document, and how it may differ.

Pairs = List[Tuple[str, Any]]
CYCLE = 146097 * 86400000


class Object:
    """An object as its pairs in order."""

    def __init__(self, pairs: Pairs) -> None:
        self.pairs = pairs

    def keys(self) -> List[str]:
        return [key for key, _ in self.pairs]

    def texts(self, *keys: str) -> Optional[List[str]]:
        """The values of the pairs, if they have these keys and are texts."""
        values = [value for _, value in self.pairs]
        return values if self.keys() == list(keys) and all(isinstance(value, str) for value in values) else None


def read(line: str) -> Any:
    def refused(name: str) -> None:
        raise ValueError(f"{name} is no number of JSON")

    return json.loads(line, object_pairs_hook=Object, parse_constant=refused)


def bits(text: Any) -> bytes:
    """A double's bits; all that are no number are one."""
    found = float(text)
    return b"NaN" if found != found else struct.pack("<d", found)


def instant(millis: int) -> str:
    """A time as ISO 8601 has it, with a year of as many digits as it takes."""
    cycles = max(0, millis // CYCLE - 1)
    when = datetime(1970, 1, 1) + timedelta(milliseconds=millis - cycles * CYCLE)
    fraction = f".{millis % 1000:03}" if millis % 1000 else ""
    return f"{when.year + 400 * cycles}-{when:%m-%dT%H:%M:%S}{fraction}Z"


def is_later(ours: Any, theirs: Any) -> bool:
    """A time after the year 9999, relaxed: the format has it as a number, libbson as text."""
    millis = ours.texts("$numberLong") if isinstance(ours, Object) else None
    return bool(millis) and int(millis[0]) > LAST and theirs == instant(int(millis[0]))


def is_longer(ours: Any, theirs: Any) -> bool:
    """A Decimal128 whose coefficient has 35 digits: the format has 0, libbson its digits."""
    digits = theirs.split("E")[0].strip("-").replace(".", "").lstrip("0")
    return ours.startswith("-") == theirs.startswith("-") and not ours.split("E")[0].strip("-0.") and len(digits) in (34, 35) and digits[:2] == "10"


def is_sorted(ours: Any, theirs: Any) -> bool:
    """Options of a regular expression that aren't in order, or not known: those of the document; libbson sorts them and leaves some out."""
    mine, others = ours.texts("pattern", "options"), theirs.texts("pattern", "options")
    return mine[0] == others[0] and "".join(sorted(set(mine[1]) & set("ilmsux"))) == others[1]


def is_cut(ours: Any, theirs: Any) -> bool:
    """A DbPointer whose namespace has a 0: the format has all of it, libbson what is before."""
    (mine, others), same_id = (ours.pairs, theirs.pairs), same(ours.pairs[1], theirs.pairs[1])
    return same_id and "\0" in mine[0][1] and mine[0][1].split("\0")[0] == others[0][1]


SETTLED: Dict[str, Callable[[Any, Any], bool]] = {
    **{"$date": is_later, "$numberDecimal": is_longer},
    **{"$regularExpression": is_sorted, "$dbPointer": is_cut},
}
"""By the one key of an object what a difference of its values has to be."""


def same(ours: Any, theirs: Any) -> bool:
    """Whether both are the same value, but for such a difference."""
    if type(ours) is not type(theirs):
        return False
    if isinstance(ours, (list, tuple)):
        return len(ours) == len(theirs) and all(map(same, ours, theirs))
    if isinstance(ours, float):
        return bits(ours) == bits(theirs)
    if not isinstance(ours, Object):
        return bool(ours == theirs)
    mine, others = ours.texts("$numberDouble"), theirs.texts("$numberDouble")
    if mine and others:
        return bits(mine[0]) == bits(others[0])
    if same(ours.pairs, theirs.pairs):
        return True
    key = ours.pairs[0][0] if ours.pairs else ""
    return ours.keys() == theirs.keys() == [key] and key in SETTLED and SETTLED[key](ours.pairs[0][1], theirs.pairs[0][1])
