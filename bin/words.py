"""Answers the words that ask a program for nothing that it has to be built for, as it would answer them: help, its version, an unknown command
or option, a FILE that isn't there. Its texts are those of words/CRATE.txt, which checks/words.py takes from the program itself.

    words.py CRATE [--unproved] WORD..   the status is that of the program, or 100 if it has to be run

A text is after a line `== STATUS STREAM | WORDS`. `zzzz` stands for a word that is like no other, and a last letter that is doubled for a typo.
"""

import json
import os
import re
import sys
from pathlib import Path
from typing import Dict, List, NamedTuple, NoReturn

RUN = 100
STAND_IN = "zzzz"


class Text(NamedTuple):
    status: int
    stream: str
    text: str


class Option(NamedTuple):
    long: str
    shown: str
    """With its value, as `--limit <N>`."""
    takes_value: bool


class Asked(NamedTuple):
    """What the words ask a program for that has to be built."""

    command: str
    options: List[str]
    files: List[str]


def texts(crate: str) -> Dict[str, Text]:
    """The texts of a program, by the words that it is given."""
    found = {}
    file = Path(__file__).resolve().parent / "words" / f"{crate}.txt"
    for part in re.split(r"(?m)^== ", file.read_text(encoding="utf-8"))[1:]:
        head, _, text = part.partition("\n")
        status, stream, _, *words = head.split(" ")
        found[" ".join(words)] = Text(int(status), stream, text)
    return found


def jaro(one: str, other: str) -> float:
    """How alike two words are, by Jaro: from 0 to 1."""
    reach = max(len(one), len(other)) // 2 - 1
    met: List[int] = []
    for at, letter in enumerate(one):
        places = range(max(0, at - reach), min(len(other), at + reach + 1))
        place = next((it for it in places if it not in met and other[it] == letter), None)
        if place is not None:
            met.append(place)
    if not met:
        return 1.0 if one == other else 0.0
    swapped = sum(other[a] != other[b] for a, b in zip(met, sorted(met)))
    return (len(met) / len(one) + len(met) / len(other) + (len(met) - swapped / 2) / len(met)) / 3


def alike(word: str, known: List[str]) -> List[str]:
    """Those of these that the program takes the word for, the best last."""
    return sorted((it for it in known if jaro(word, it) > 0.7), key=lambda it: jaro(word, it))


class Program:
    """What a program takes, by its own help."""

    def __init__(self, texts: Dict[str, Text]) -> None:
        self.texts = texts

    def answer(self, words: str, *changes: "tuple[str, str]") -> NoReturn:
        """Prints the text of these words, with these changes, and ends with its status."""
        found = self.texts[words]
        text = found.text
        for old, new in changes:
            text = text.replace(old, new)
        (sys.stdout if found.stream == "stdout" else sys.stderr).write(text)
        sys.exit(found.status)

    def commands(self) -> List[str]:
        part = self.texts["--help"].text.partition("\nCommands:\n")[2].partition("\n\n")[0]
        return re.findall(r"(?m)^  (\w+) ", part)

    def options(self, command: str) -> Dict[str, Option]:
        """The options of a command, by their long and short names."""
        found = {}
        part = self.texts[f"{command} --help".strip()].text.partition("\nOptions:\n")[2]
        for short, long, value, words in re.findall(r"(?m)^ +(?:(-\w), )?(--[\w-]+)( <\w+>)?(.*)", part):
            for name in (short, long, *re.findall(r"(?<=[ ,])--[\w-]+(?=[,\]])", re.split(r"\[alias(?:es)?:", words)[-1] if "[alias" in words else "")):
                if name:
                    full = name if name.startswith("--") else long
                    found[name] = Option(full, full + value, bool(value))
        return found

    def required(self, command: str) -> int:
        """How many words a command has to have that are no FILE."""
        (usage,) = re.findall(r"(?m)^Usage: .*", self.texts[f"{command} --help"].text)
        return len(re.findall(r" <\w+>", usage))

    def look(self, words: List[str]) -> Asked:
        """Answers these words, or returns what they ask for."""
        if "--help" not in self.texts:
            return self.look_at_one(words)
        if not words:
            self.answer("")
        command, rest = words[0], words[1:]
        if command == "help":
            command, rest = (rest[0], ["--help"]) if rest else ("--help", [])
            if command == "help":
                self.answer("help help")
        if command in self.options(""):
            self.answer(self.options("")[command].long)
        if command.startswith("-"):
            self.answer(f"--{STAND_IN}", (f"--{STAND_IN}", command))
        if command not in self.commands():
            self.answer_unknown(command)
        return self.look_at(command, rest)

    def look_at_one(self, words: List[str]) -> Asked:
        """Of a program that takes one of some words, as its only text says."""
        known = re.findall(r"\w+(?=\||\n)", self.texts[STAND_IN].text)
        if len(words) != 1 or words[0] not in known:
            self.answer(STAND_IN)
        return Asked(words[0], [], [])

    def answer_unknown(self, command: str) -> NoReturn:
        known = self.commands()
        found = alike(command, known)
        if not found:
            self.answer(STAND_IN, (STAND_IN, command))
        typos = [it for it in self.texts if it[:-1] in known and it not in known]
        typo = next((it for it in typos if (len(alike(it, known)) == 1) == (len(found) == 1)), typos[0])
        shown = ", ".join(f"'{it}'" for it in alike(typo, known))
        self.answer(typo, (f"'{typo}'", f"'{command}'"), (shown, ", ".join(f"'{it}'" for it in found)))

    def refuse(self, command: str, word: str) -> NoReturn:
        """Answers an option that a command doesn't have."""
        options = self.options(command)
        found = alike(word[2:], [it[2:] for it in options if it.startswith("--")]) if word.startswith("--") else []
        if not found:
            self.answer(f"{command} --{STAND_IN}", (f"--{STAND_IN}", word))
        words = next(it for it in self.texts if it.startswith(f"{command} --") and it.split(" ")[1][:-1] in options)
        typo = words.split(" ")[1]
        shown, best = options[typo[:-1]], options[f"--{found[-1]}"]
        self.answer(words, (f"'{typo}'", f"'{word}'"), (f"'{shown.long}'", f"'{best.long}'"), (f" {shown.shown} ", f" {best.shown} "))

    def look_at(self, command: str, words: List[str]) -> Asked:
        """The same of the words after a command."""
        options, given, others = self.options(command), [], []
        left = list(words)
        while left:
            word = left.pop(0)
            if word == "--":
                others += left
                break
            if word.startswith("--"):
                names, value = [word.partition("=")[0]], word.partition("=")[1]
            elif word.startswith("-") and word != "-":
                names, value = self.short(command, word)
            else:
                others.append(word)
                continue
            for name in names:
                if name not in options:
                    self.refuse(command, name)
                if options[name].long == "--help":
                    self.answer(f"{command} --help")
                given.append(options[name].long)
            if options[names[-1]].takes_value and not value and left:
                left.pop(0)
        needed = self.required(command)
        if len(others) < needed:
            self.answer(command)
        self.look_for(others[needed:])
        return Asked(command, given, others[needed:])

    def short(self, command: str, word: str) -> "tuple[List[str], str]":
        """The options in a word of several letters, and the value that is at its end."""
        names = []
        for at, letter in enumerate(word[1:], 2):
            names.append(f"-{letter}")
            option = self.options(command).get(names[-1])
            if option is None or option.takes_value:
                return names, word[at:]
        return names, ""

    def look_for(self, files: List[str]) -> None:
        """Tells of each FILE that isn't there."""
        lost = [it for it in files if it != "-" and not os.path.lexists(it)]
        if lost:
            found = next(text for words, text in self.texts.items() if words.endswith(f" {STAND_IN}"))
            for name in lost:
                sys.stderr.write(found.text.replace(f'"{STAND_IN}"', json.dumps(name, ensure_ascii=False)))
            sys.exit(found.status)


def main(crate: str, *words: str) -> None:
    Program(texts(crate)).look([*words[1:]] if words[:1] == ("--unproved",) else [*words])
    sys.exit(RUN)


if __name__ == "__main__":
    main(*sys.argv[1:])
