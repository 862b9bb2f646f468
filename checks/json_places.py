"""Cuts the texts of Extended JSON of checks/json_places.txt at each byte, puts others in the place of each byte, and says which place of each has
to be refused.

A text that is cut off is refused at its end. Else the place is that of the first token that can't be there: a small reader of JSON says
which that is where a text isn't JSON; where only its meaning is wrong, it is a token that isn't before the one with the other byte.
"""

import re
from pathlib import Path
from typing import Iterator, List, NamedTuple, Optional, Tuple

END, BOM, DOCUMENT, KEY, COLON, COMMA, VALUE, BEHIND, NUMBER, CONTROL, ESCAPE, SURROGATE, UTF8 = 1, 2, 3, 4, 5, 6, 7, 8, 9, 12, 13, 14, 18
MEANING = (10, 11, 15, 16, 17)  # too large, U+0000 in a key, no value of its wrapper, a decimal that isn't exact

OTHERS = b'{}[]",:\\/ 019-+.eEtnu$aZ=_\x01\x7f\xc3\xff'


class Text(NamedTuple):
    """A text that was changed."""

    data: bytes
    is_cut: bool
    place: int
    begin: int
    """Where the token begins that has the byte that was there."""
    others: List[str]
    """Who may read something else of texts like this one."""


def made() -> Iterator[Text]:
    for line in Path(__file__).with_suffix(".txt").read_text(encoding="utf-8").splitlines():
        if line.startswith("#"):
            continue
        whole, _, others = line.rpartition(" | ")
        data = whole.encode()
        _, tokens = read(data)
        for place in range(len(data)):
            given = place, begin_of(tokens, place), others.split()
            yield Text(data[:place], True, *given)
            yield from (Text(data[:place] + bytes([it]) + data[place + 1 :], False, *given) for it in OTHERS if it != data[place])


class Wrong(Exception):
    """What is wrong in a text, and at which byte."""

    def __init__(self, reason: int, place: int) -> None:
        super().__init__(reason, place)
        self.reason, self.place = reason, place


class Reader:
    """Reads JSON (RFC 8259) by its tokens; keeps where each begins and ends."""

    def __init__(self, data: bytes) -> None:
        self.data = data
        self.at = 0
        self.tokens: List[Tuple[int, int]] = []

    def next(self) -> bytes:
        """The byte after what is blank."""
        self.at += len(re.match(rb"[ \t\r\n]*", self.data[self.at :])[0])
        if self.at == len(self.data):
            raise Wrong(END, self.at)
        return self.data[self.at : self.at + 1]

    def take(self, length: int) -> None:
        self.tokens.append((self.at, self.at + length))
        self.at += length

    def text(self) -> None:
        if self.next() != b"{":
            raise Wrong(BOM if self.data.startswith(b"\xef\xbb\xbf") else DOCUMENT, self.at)
        levels = [self.next()]
        self.take(1)
        is_first = True
        while levels:
            is_first = self.part(levels, is_first)
        if self.data[self.at :].strip(b" \t\r\n"):
            self.next()
            raise Wrong(BEHIND, self.at)

    def part(self, levels: List[bytes], is_first: bool) -> bool:
        """The end of the innermost level, or a member or an item of it; whether a level begins."""
        found = self.next()
        if found == (b"}" if levels[-1] == b"{" else b"]") and (is_first or self.tokens[-1] != self.comma):
            self.take(1)
            levels.pop()
            return self.behind_value(levels)
        if levels[-1] == b"{":
            if found != b'"':
                raise Wrong(KEY, self.at)
            self.string()
            if self.next() != b":":
                raise Wrong(COLON, self.at)
            self.take(1)
        found = self.next()
        if found in b"{[":
            levels.append(found)
            self.take(1)
            self.comma = (-1, -1)
            return True
        self.string() if found == b'"' else self.word()
        return self.behind_value(levels)

    comma = (-1, -1)

    def behind_value(self, levels: List[bytes]) -> bool:
        if not levels:
            return False
        found = self.next()
        if found == b",":
            self.take(1)
            self.comma = self.tokens[-1]
        elif found != (b"}" if levels[-1] == b"{" else b"]"):
            raise Wrong(COMMA, self.at)
        return False

    def word(self) -> None:
        """A number, true, false or null, up to a blank, a comma, a colon or a bracket; it is wrong where it begins."""
        word = re.match(rb"[^ \t\r\n{}\[\]:,]*", self.data[self.at :])[0]
        if word in (b"true", b"false", b"null") or re.fullmatch(rb"-?(0|[1-9][0-9]*)(\.[0-9]+)?([eE][-+]?[0-9]+)?", word):
            self.take(len(word))
            return
        is_last = self.at + len(word) == len(self.data)
        part = rb"t(ru?)?|f(a(ls?)?)?|n(ul?)?|-|-?(0|[1-9][0-9]*)(\.|(\.[0-9]+)?[eE][-+]?)"
        if is_last and re.fullmatch(part, word):
            raise Wrong(END, len(self.data))
        raise Wrong(NUMBER if re.match(rb"[-0-9]", word) else VALUE, self.at)

    def string(self) -> None:
        at = self.at + 1
        while self.data[at : at + 1] != b'"':
            at = self.character(at)
        self.take(at + 1 - self.at)

    def character(self, at: int) -> int:
        """What is after the character or the escape there; an escape is wrong where it begins."""
        if at == len(self.data):
            raise Wrong(END, at)
        if self.data[at] < 32:
            raise Wrong(CONTROL, at)
        if self.data[at : at + 1] != b"\\":
            return at + 1
        if self.data[at + 1 : at + 2] != b"u":
            return self.short_escape(at)
        unit = self.unit(at)
        if 0xDC00 <= unit < 0xE000:
            raise Wrong(SURROGATE, at)
        if not 0xD800 <= unit < 0xDC00:
            return at + 6
        if self.data[at + 6 :] in (b"", b"\\"):
            raise Wrong(END, len(self.data))
        if self.data[at + 6 : at + 8] != b"\\u" or not 0xDC00 <= self.unit(at + 6) < 0xE000:
            raise Wrong(SURROGATE, at)
        return at + 12

    def short_escape(self, at: int) -> int:
        if at + 1 == len(self.data):
            raise Wrong(END, at + 1)
        if self.data[at + 1 : at + 2] not in b'"\\/bfnrt':
            raise Wrong(ESCAPE, at)
        return at + 2

    def unit(self, at: int) -> int:
        digits = self.data[at + 2 : at + 6]
        if not re.fullmatch(rb"[0-9a-fA-F]*", digits):
            raise Wrong(ESCAPE, at)
        if len(digits) < 4:
            raise Wrong(END, len(self.data))
        return int(digits, 16)


def read(data: bytes) -> Tuple[Optional[Wrong], List[Tuple[int, int]]]:
    """What is wrong first, if anything is, and the tokens before it."""
    try:
        data.decode()
    except UnicodeDecodeError as error:
        return Wrong(UTF8, error.start), []
    reader = Reader(data)
    try:
        reader.text()
    except Wrong as wrong:
        return wrong, reader.tokens
    return None, reader.tokens


def begin_of(tokens: List[Tuple[int, int]], place: int) -> int:
    """Where the token begins that has this byte."""
    return next((begin for begin, end in tokens if begin <= place < end), place)


def problem_of(text: Text, said: "Optional[Tuple[int, int]]") -> str:
    """Why it isn't as it has to be that a text is refused for this reason at this place, or is read, if that is so."""
    data = text.data
    wrong, tokens = read(data)
    if not said:
        return "it is read, and isn't JSON" if wrong else ""
    reason, place = said
    if text.is_cut and (wrong is None or wrong.reason != UTF8):
        return "" if said == (END, len(data)) else "it isn't refused at its end"
    if reason in MEANING:
        last = wrong.place if wrong else len(data) - 1
        is_there = min(text.begin, begin_of(tokens, text.place), last) <= place <= last and (place == last or any(place == it for it, _ in tokens))
        return "" if is_there else "its meaning isn't refused there"
    if not wrong:
        return "it is JSON"
    return "" if said == (wrong.reason, wrong.place) else f"it has to be refused for {wrong.reason} at {wrong.place}"
