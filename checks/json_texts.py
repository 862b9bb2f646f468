"""Texts of Extended JSON, made of the forms of checks/json_texts.txt, each with a rule, which says what readers make of it.

    python3 -B -m checks.json_texts     prints of each text in hex, a line each, the document in hex that MongoDB's package makes of it, or -
"""

import base64
import json
import random
import re
import string
import sys
from pathlib import Path
from typing import Dict, List, NamedTuple, Tuple

LETTERS = string.ascii_letters + " .$\u00e9\u65e5\U0001f600"
OF_WHOLE = ("whole", "json")
"""The rules of whole texts; the others are of one value."""


class Rule(NamedTuple):
    is_read: bool
    is_refused: bool
    others: List[str]
    """Who may make something else of such a text than this library."""
    what: str


def read_table() -> Tuple[Dict[str, List[str]], Dict[str, Rule]]:
    """The forms of each name, and the rules."""
    forms: Dict[str, List[str]] = {}
    rules = {}
    for line in Path(__file__).with_suffix(".txt").read_text(encoding="utf-8").splitlines():
        if line.startswith("    "):
            forms[name].append(line[4:])
        elif line and not line.startswith("#"):
            name, *words = re.split(r" *\| *", line, maxsplit=3)
            forms[name] = []
            if words:
                rules[name] = Rule(words[0] != "no", words[0] != "yes", words[1].split(), words[2])
    return forms, rules


FORMS, RULES = read_table()


def is_json(text: bytes) -> bool:
    def refused(name: str) -> None:
        raise ValueError(name)

    try:
        return isinstance(json.loads(text.decode(), parse_constant=refused), dict)
    except ValueError:
        return False


class Maker:
    """Makes texts."""

    def __init__(self, seed: int) -> None:
        self.rng = random.Random(seed)

    def form(self, name: str) -> str:
        """What a name of the table stands for."""
        return re.sub("<([^>]*)>", lambda it: self.part(it[1]), self.rng.choice(FORMS[name]))

    def part(self, text: str) -> str:
        if "|" in text:
            return self.rng.choice(text.split("|"))
        name, *numbers = text.split(" ")
        return self.form(name) if name in FORMS and not numbers else getattr(self, f"make_{name}")(*numbers)

    def make_int(self, least: str, most: str) -> str:
        number = str(self.rng.randint(int(least), int(most)))
        return number.zfill(len(least)) if least.startswith("0") else number

    def make_bits(self, count: str) -> str:
        half = 1 << int(count) - 1
        return str(self.rng.randrange(-half, half) >> self.rng.randrange(int(count) - 1))

    def make_digits(self, end: str) -> str:
        return str(self.rng.randrange(10 ** self.rng.randrange(1, int(end))))

    def make_hex(self, count: str) -> str:
        digits = "%0*x" % (int(count), self.rng.getrandbits(4 * int(count)))
        return digits.upper() if self.rng.randrange(2) else digits

    def make_base64(self, end: str) -> str:
        text = base64.b64encode(self.rng.randbytes(self.rng.randrange(int(end)))).decode()
        return text.replace("/", "\\/") if self.rng.randrange(2) else text

    def make_blank(self) -> str:
        return self.rng.choice(["", "", "", " ", "\t", " \r "])

    def quoted(self, value: str) -> str:
        """A string of JSON, with some characters escaped that needn't be."""
        text = json.dumps(value, ensure_ascii=self.rng.randrange(2) == 0)
        return text.replace("/", "\\/") if self.rng.randrange(2) else text

    def make_word(self) -> str:
        parts = [self.rng.choice(LETTERS) for _ in range(self.rng.randrange(8))]
        parts += self.rng.choices(["/", "\\", '"', "\n", "\x01", "\x7f", "\ud7ff", "\ue000"], k=self.rng.randrange(3))
        self.rng.shuffle(parts)
        return self.quoted("".join(parts))

    def make_key(self) -> str:
        key = self.rng.choice(["a", "b", "key", "\u00e9", "x.y", "$x", "0", "a b"])
        return self.quoted(key + self.rng.choice(["", self.rng.choice(string.ascii_lowercase)]))

    def make_document(self, depth: int = 2) -> str:
        keys = {json.loads(it): it for it in (self.make_key() for _ in range(self.rng.randrange(4)))}
        blank = self.make_blank
        return "{%s}" % ",".join(f"{blank()}{it}{blank()}:{blank()}{self.value(depth)}" for it in keys.values())

    def array(self, depth: int) -> str:
        return "[%s]" % ",".join(self.make_blank() + self.value(depth) + self.make_blank() for _ in range(self.rng.randrange(4)))

    def value(self, depth: int) -> str:
        if depth < 3 and self.rng.randrange(5) == 0:
            return self.rng.choice([self.make_document, self.array])(depth + 1)
        return self.form("value")

    def damaged(self, data: bytes) -> Tuple[str, bytes]:
        """A text that is cut off, or has another byte: of plain values, so that what is JSON is read as it is."""
        place = self.rng.randrange(len(data))
        other = bytes([self.rng.choice(b'{}[]",:\\ 0e.-tfnu\x01\x7f')])
        changed = data[:place] + self.rng.choice([b"", other + data[place + 1 :]])
        return ("same", data) if is_json(changed) else ("json", changed)

    def text(self) -> Tuple[str, bytes]:
        """A text, and its rule."""
        choice = self.rng.randrange(10)
        if choice == 5:
            return self.damaged(self.make_document(0).encode())
        if choice < 5:
            rule, text = "same", self.make_document(0)
        elif choice == 6:
            rule, text = "whole", self.form("whole")
        elif choice == 7:
            rule, text = "same", '{"a":%s,"b":{"c":%s}}' % (self.form("code"), self.form("code"))
        else:
            rule = self.rng.choice([it for it in RULES if it not in OF_WHOLE])
            text = '{"a":%s}' % (self.rng.choice(["%s", "[%s]", '[{"b":1},%s]', '{"b":%s}']) % self.form(rule))
        return rule, text.encode()


def main() -> None:
    import bson
    from bson import json_util
    from bson.binary import UuidRepresentation
    from bson.codec_options import CodecOptions
    from bson.son import SON

    options = json_util.JSONOptions(document_class=SON, tz_aware=True, uuid_representation=UuidRepresentation.STANDARD)
    codec = CodecOptions(document_class=SON, tz_aware=True, uuid_representation=UuidRepresentation.STANDARD)
    for line in sys.stdin:
        try:
            value = json_util.loads(bytes.fromhex(line).decode(), json_options=options)
            print(bson.encode(value, codec_options=codec).hex())
        except Exception:  # it raises errors of many classes
            print("-")


if __name__ == "__main__":
    main()
