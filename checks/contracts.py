#!/usr/bin/env python3
"""Writes docs/CONTRACTS.md: a row for each public item of the crates that a user names, with a link to its file, and a
row for each file of specs/ with words that clauses of these items, of the programs and of the exported functions for C cite,
or the definitions of such words.

    contracts.py FOLDER           prints the page for the crates below FOLDER/crates
    contracts.py --write FOLDER   writes it into FOLDER/docs
    contracts.py --uncalled FOLDER
                                  prints each public function, and each `clone` and `from`, that no line of crates/calls/stdin, no
                                  test and no example calls

It relies on the layout that `rt fmt` gives. An item that a crate passes on and that is nowhere is an error.
"""

import re
import sys
from pathlib import Path
from typing import Dict, Iterator, List, NamedTuple, Optional, Set

USED = ["raw_bson", "raw_form", "raw_shelf", "bson_to_json", "bson_from_json", "json_round_trip"]
CRATES = ["bson_model", "raw_view", "raw_tree", "values_from_json", *USED]
# the calls of the programs that PROMISES.md names
PROGRAMS = {
    "bsonraw/src/answer.rt": ["answer"],
    "bsonraw/src/run.rt": ["run"],
    "dump_commands/src/summary.rt": ["put_summary"],
    "dump_runs/src/batch.rt": ["run_all"],
    "dump_runs/src/dumps/run.rt": ["run"],
    "dump_runs/src/texts/reading.rt": ["read_texts"],
}
KINDS = "fn|struct|enum|type|const|trait"


class Item(NamedTuple):
    """A public item: a type, a function, a call of a type, or a trait that a type has."""

    owner: str  # of a call or a trait's impl the type, else nothing
    name: str
    kind: str  # the word before its name; `impl` of a trait, `call` of a call, `hidden` of a trait that isn't public
    comment: str
    file: str
    clauses: str


def sentence(comment: str) -> str:
    """The first sentence of a comment."""
    return re.split(r"(?<=\.)\s+(?=[A-Z`\"])", " ".join(comment.split()), maxsplit=1)[0]


def behind_generics(text: str) -> str:
    """What is after the parameters in <> at the front of a text."""
    depth = 0
    for at, char in enumerate(text):
        depth += (char == "<") - (char == ">")
        if depth == 0:
            return text[at + 1 :] if char == ">" else text
    return text


def impl_of(line: str) -> "tuple[str, str]":
    """The type and the trait of the first line of an impl; no trait where it has none."""
    header = behind_generics(re.sub(r" \{\}?$", "", line[len("impl") :])).strip()
    trait, _, owner = header.rpartition(" for ")
    match = re.match(r"(?:&(?:'[a-z]+ )?)?(\w+)", owner)
    return (match[1] if match else "", trait)


def items_of(path: Path, name: str) -> Iterator[Item]:
    """The items of a file, each with the comment right before it and the lines of its signature."""
    owner = trait = comment = ""
    lines = path.read_text(encoding="utf-8").splitlines()
    for number, line in enumerate(lines, 1):
        documented = re.match(r" *///(?: (.*)|$)", line)
        if documented:
            comment += (documented[1] or "") + "\n"
            continue
        if re.match(r" *#\[", line) or line.startswith("#"):
            continue
        found = re.match(rf"pub (?:const )?({KINDS}) (\w+)", line)
        call = re.match(r"    (pub )?(?:const )?fn (\w+)", line)
        if found:
            yield Item("", found[2], found[1], comment, name, clauses_of(lines, number))
            owner, trait = (found[2], "") if found[1] == "trait" else ("", "")
        elif re.match(r"(pub\(crate\) )?trait \w", line):
            yield Item("", line.split("trait ")[1].split()[0].split("<")[0].rstrip(":"), "hidden", comment, name, "")
        elif re.match(r"impl[ <]", line):
            owner, trait = impl_of(line)
            if trait:
                yield Item(owner, trait, "impl", comment, name, "")
        elif call and owner and not trait and (call[1] or lines_open_trait(lines, number)):
            yield Item(owner, call[2], "call", comment, name, clauses_of(lines, number))
        if line.startswith("}"):
            owner = trait = ""
        comment = ""


def clauses_of(lines: List[str], number: int) -> str:
    """The clauses after the line of this number: all up to the body."""
    after = number
    while after < len(lines) and not re.search(r"^ *\{\}?$|;$|^\}| \{$", lines[after - 1]):
        after += 1
    return "\n".join(lines[number:after])


def lines_open_trait(lines: List[str], number: int) -> bool:
    """Whether this line is inside of a public trait, whose calls need no `pub`."""
    opened = next(line for line in reversed(lines[:number]) if re.match(r"\S", line) and not line.startswith(("}", "//", "#")))
    return opened.startswith("pub trait")


def passed_on(text: str) -> List[str]:
    """The names that a root file passes on to users, in their order: what is hidden is for crates of this repository alone."""
    lists = re.findall(r"^(?<!#\[doc\(hidden\)\]\n)pub use ([^;]*);", text, re.M)
    return [name for uses in lists for name in re.findall(r"\w+", re.sub(r".*\{|.*::", "", " ".join(uses.split())))]


class Words:
    """The words of specs/: where each is defined, and which others its definition cites."""

    def __init__(self, crates: Path) -> None:
        self.crates = crates
        self.definitions: Dict[str, Dict[str, str]] = {}
        self.names: Dict[str, Dict[str, "tuple[str, str]"]] = {}

    def module(self, crate: str, path: str) -> str:
        """The file of a dotted path of a crate's specs/, which may pass on a file of a crate below, or of a folder."""
        name = path.split(".")[-1]
        file = f"{crate}/specs/{path.replace('.', '/')}.antt"
        if (self.crates / file).exists() or not (self.crates / crate / "specs/Lib.antt").exists():
            return file
        lib = (self.crates / crate / "specs/Lib.antt").read_text(encoding="utf-8")
        for below, target in re.findall(rf"^pub use Rattle\.(\w+)\.specs\.((?:\w+\.)*{name})$", lib, re.M):
            if (below, target) != (crate, path):
                return self.module(below, target)
        return file

    def uses(self, text: str) -> Dict[str, "tuple[str, str]"]:
        """The file and the word that each name stands for which a source or a file of specs/ takes from specs/; no word where
        the name is a whole file's."""
        names = {}
        for crate, path, words, alias in re.findall(
            r"^(?: *ghost |pub )?use Rattle\.(\w+)\.specs\.(\w+(?:\.\w+)*)(?:\.\{([^}]*)\}| as (\w+))?;?$", text, re.M
        ):
            file = self.module(crate, path)
            for word in re.findall(r"[^\s,][^,]*[^\s,]|[^\s,]", words):
                names[word.split(" as ")[-1]] = (file, word.split(" as ")[0])
            if not words:
                names[alias or path.split(".")[-1]] = (file, "")
        return names

    def read(self, file: str) -> Dict[str, str]:
        """The words of a file, each with its lines."""
        if file not in self.definitions:
            words: Dict[str, str] = {}
            word = edge = ""
            for line in (self.crates / file).read_text(encoding="utf-8").splitlines():
                if line.strip() and not line.strip().startswith("--"):
                    edge = edge[: len(line) - len(line.lstrip())]
                if re.match(r" *(module |(\w+ )?mutual$)", line):
                    edge += "  "
                begun = re.match(rf"{edge}(?:abbrev |unfoldable |pub |data |record )*([^\s({{:-][^\s({{:]*)", line)
                if begun and begun[1] not in ("use", "mod", "module", "infixr", "infixl", "unfolding"):
                    word = begun[1]
                words[word] = words.get(word, "") + line + "\n"
            self.definitions[file] = words
        return self.definitions[file]

    def all_uses(self, file: str) -> Dict[str, "tuple[str, str]"]:
        """What each name of a file of specs/ stands for, its own words included."""
        if file not in self.names:
            own = {word: (file, word) for word in self.read(file) if word}
            self.names[file] = {**self.uses((self.crates / file).read_text(encoding="utf-8")), **own}
        return self.names[file]

    def reach(self, text: str, uses: Dict[str, "tuple[str, str]"], found: "Set[tuple[str, str]]") -> None:
        """Adds the words that a text cites, by what its file uses, and those that their definitions cite."""
        text = re.sub(r"--.*", "", text)
        for qualifier, name in re.findall(r"(?<![\w.])(?:(\w+)\.)?([^\s(){}.,;λ×→⊎≡]+)", text):
            if qualifier in uses and not uses[qualifier][1]:
                target = (uses[qualifier][0], name)
            elif name in uses and uses[name][1]:
                target = uses[name]
            else:
                continue
            if target in found or not (self.crates / target[0]).exists():
                continue
            found.add(target)
            self.reach(self.read(target[0]).get(target[1], ""), self.all_uses(target[0]), found)

    def lines(self, found: "Set[tuple[str, str]]") -> int:
        """How many lines define these words, comments left out."""
        lines = [line.strip() for file, word in found for line in self.read(file).get(word, "").splitlines()]
        return sum(1 for line in lines if line and not line.startswith("--"))


def of_programs(crates: Path) -> Iterator["tuple[str, str]"]:
    """Each file of the programs and of the library for C with clauses of a call that PROMISES.md names, and these."""
    for path in sorted({*crates.glob("bsonraw*/src/**/*.rt"), *(crates / name for name in PROGRAMS)}):
        name = str(path.relative_to(crates))
        lines = path.read_text(encoding="utf-8").splitlines()
        lost = set(PROGRAMS.get(name, []))
        for number, line in enumerate(lines, 1):
            found = re.match(r'pub (extern "C" )?fn (\w+)', line)
            if found and (found[1] or found[2] in PROGRAMS.get(name, [])):
                lost.discard(found[2])
                yield name, clauses_of(lines, number)
        if lost:
            raise SystemExit(f"contracts: {name} has no call {', '.join(sorted(lost))}")


class Crates:
    """The items of all crates below a folder, and the names that those which a user names pass on."""

    def __init__(self, folder: Path) -> None:
        self.crates = folder / "crates"
        self.items: Dict[str, List[Item]] = {}
        for crate in CRATES:
            for path in sorted((self.crates / crate / "src").rglob("*.rt")):
                name = str(path.relative_to(self.crates))
                items = list(items_of(path, name))
                for alias, target in re.findall(r"^pub type (\w+)[^=]*= (\w+)", path.read_text(encoding="utf-8"), re.M):
                    items += [item._replace(owner=alias) for item in items if item.kind == "impl" and item.owner == target]
                self.items[name] = items
        self.lists: Dict[str, List[str]] = {}
        for crate in USED:
            root = self.crates / crate / "src"
            self.lists[crate] = passed_on((root / "lib.rt").read_text(encoding="utf-8"))
            if (root / "laws.rt").exists():
                laws = (root / "laws.rt").read_text(encoding="utf-8")
                self.lists[f"laws of {crate}"] = passed_on(laws) + re.findall(r"^pub fn (\w+)", laws, re.M)
        self.named = {name for names in self.lists.values() for name in names}
        self.hidden = {item.name for item in self.all() if item.kind in ("trait", "hidden")} - self.named

    def all(self) -> Iterator[Item]:
        for items in self.items.values():
            yield from items

    def is_shown(self, item: Item) -> bool:
        """Whether an item is public: a crate passes it, or its type, on; the trait of an impl isn't hidden."""
        if item.kind == "impl":
            return item.owner in self.named and re.split(r"::| ", item.name.split("<")[0])[-1] not in self.hidden
        return item.kind != "hidden" and (item.owner or item.name) in self.named


class Calls:
    """The calls of the lines of the program `calls`, of the tests, and of the examples in doc comments."""

    # what `calls` writes a value of this type as, for a `From` of it
    VARIANTS = {
        "i32": "Int32", "i64": "Int64", "bool": "Boolean", "String": "String", "&str": "String", "DoubleBits": "Double",
        "RawDocumentBuf": "Document", "RawDocument": "Document", "RawArrayBuf": "Array", "RawArray": "Array",
        "RawBinaryRef": "Binary", "RawRegexRef": "RegularExpression", "Regex": "RegularExpression",
        "RawJavaScriptCodeWithScopeRef": "JavaScriptCodeWithScope", "RawJavaScriptCodeWithScope": "JavaScriptCodeWithScope",
    }  # fmt: skip

    def __init__(self, crates: Path, items: List[Item]) -> None:
        lines = [line.split() for line in (crates / "calls/stdin").read_text(encoding="utf-8").splitlines()]
        made = [line[2:] if line[1:2] == ["="] else line for line in lines if line and line[0] != "#"]
        self.lines = {line[0] for line in made} | {" ".join(line[:2]) for line in made}
        folders = [*crates.glob("*_tests"), crates / "calls"]
        tests = [path.read_text(encoding="utf-8") for folder in folders for path in sorted((folder / "src").rglob("*.rt"))]
        self.tests = "\n".join(re.sub(r"//.*", "", text) for text in tests)
        self.examples = {crate: "\n".join(self.examples_of(crates / crate)) for crate in [*CRATES, "bson_uses"]}
        self.owners: Dict[str, Set[str]] = {}
        for item in items:
            if item.kind in ("fn", "call"):
                self.owners.setdefault(item.name, set()).add(item.owner)
                self.owners.setdefault(f"{item.file.split('/')[0]} {item.name}", set()).add(item.owner)

    @staticmethod
    def examples_of(crate: Path) -> Iterator[str]:
        """The examples in the comments of a crate."""
        for path in sorted((crate / "src").rglob("*.rt")):
            comments = re.findall(r"(?:^ *///.*\n)+", path.read_text(encoding="utf-8"), re.M)
            yield from (block for comment in comments for block in comment.split("```")[1::2])

    def has(self, item: Item) -> bool:
        """Whether a function is called: by a line, by its path, in its own example; or by its name, where no other type has one
        of this name, and in an example of its crate, where no other type of that has."""
        crate = item.file.split("/")[0]
        path = f"{item.owner}::{item.name}" if item.owner else item.name
        called = re.compile(rf"\b{item.name}\(")
        everywhere = "\n".join([self.tests, *self.examples.values()])
        return (
            path in self.lines
            or bool(item.owner) and f"{path}(" in everywhere
            or any(called.search(block) for block in item.comment.split("```")[1::2])
            or len(self.owners[item.name]) == 1 and bool(called.search(everywhere))
            or len(self.owners[f"{crate} {item.name}"]) == 1 and bool(called.search(self.examples[crate]))
        )

    def has_impl(self, item: Item) -> bool:
        """Whether a line calls the `clone` or the `from` of an impl; of another trait it isn't asked."""
        if item.name == "Clone":
            return f"{item.owner}::clone" in self.lines
        source = re.sub(r"'a ?|<[^<>]*>$", "", item.name[len("From<") : -1])
        if not item.name.startswith("From<") or item.owner == "JsonReason":  # (which is made where memory is refused)
            return True
        owner_from = f"{item.owner}::from"
        if item.owner == "RawBsonRef" and source in ("&Binary", "&RawDocumentBuf", "&RawArrayBuf"):
            owner_from, source = "RawBsonRef::from_owner", source[1:]
        variants = {} if "Cow" in item.owner or "Error" in item.owner else self.VARIANTS
        return f"{owner_from} {variants.get(source, source)}" in self.lines


def is_hidden(crates: Path, item: Item) -> bool:
    """Whether a function is for crates of this repository alone."""
    text = (crates / item.file).read_text(encoding="utf-8")
    return bool(re.search(rf"#\[doc\(hidden\)\]\n *pub fn {item.name}\(", text))


def uncalled(crates: Crates) -> Iterator[str]:
    """The public functions that nothing calls."""
    shown = [item for item in crates.all() if crates.is_shown(item)]
    calls = Calls(crates.crates, shown)
    for item in shown:
        if item.kind in ("fn", "call") and not calls.has(item) and not is_hidden(crates.crates, item):
            yield f"{item.owner}::{item.name}" if item.owner else item.name
        if item.kind == "impl" and not calls.has_impl(item):
            yield f"{item.name} for {item.owner}"


def link(item: Item, text: Optional[str] = None) -> str:
    return f"[`{text or item.name}`](../crates/{item.file})"


def row(items: List[Item], text: str) -> str:
    escaped = text.replace("|", "\\|")
    return f"| {', '.join(map(link, items))} | {escaped} |"


def families(calls: List[Item]) -> Iterator["tuple[list[Item], str]"]:
    """The calls with what they return; neighbours `get_KIND`, or `as_KIND`, whose sentences end alike share a row."""
    at = 0
    while at < len(calls):
        first = sentence(calls[at].comment)
        tail = re.search(r" (at `index`|under `key`).*|; `None` for every other kind\.", first)
        end = at + 1
        while tail and end < len(calls) and sentence(calls[end].comment).endswith(tail[0]):
            end += 1
        yield calls[at:end], f"The value of this kind{tail[0]}" if tail and end > at + 1 else first
        at = end


def definitions(crates: Crates) -> Iterator[str]:
    """The lines of the files of specs/."""
    words = Words(crates.crates)
    found: "Set[tuple[str, str]]" = set()
    shown = [(name, item.clauses) for name, items in crates.items.items() for item in items if crates.is_shown(item)]
    for name, clauses in [*shown, *of_programs(crates.crates)]:
        words.reach(clauses, words.uses((crates.crates / name).read_text(encoding="utf-8")), found)
    reading: "Set[tuple[str, str]]" = set()
    words.reach("Reads FirstFault", words.all_uses("raw_tree/specs/reader/Reading.antt"), reading)
    if not reading:
        raise SystemExit("contracts: Reading.antt of raw_tree defines neither Reads nor FirstFault")
    yield "\n## Definitions\n"
    yield "The files of `specs/` that these clauses need, and those of the programs and of the library for C, or a definition that they"
    yield f"need: {words.lines(found):,} lines define {len(found):,} words. {words.lines(reading)} of these lines say what bytes are read as (`Reads`, `FirstFault`).\n"
    yield "| File | What it defines |\n|---|---|"
    for file in sorted({file for file, _ in found}):
        text = "\n".join(line[2:] for line in (crates.crates / file).read_text(encoding="utf-8").split("\nuse ")[0].splitlines() if line[:2] == "--")
        escaped = sentence(text).replace("|", "\\|")
        yield f"| [`{file.replace('/specs', '')[: -len('.antt')]}`](../crates/{file}) | {escaped} |"


def page(crates: Crates) -> Iterator[str]:
    """The lines of the page."""
    yield "# Contracts\n"
    yield "Every public item of `raw_bson`, `raw_form`, `raw_shelf`, `bson_to_json`, `bson_from_json` and `json_round_trip`, by the first sentence of its comment."
    yield "The contract is in the source to which the link leads: the whole comment, the signature and its clauses."
    yield "[DEFINITIONS.md](DEFINITIONS.md) says how a clause reads and what its words mean. `checks/contracts.py --write .` writes this"
    yield "page; don't edit it."
    shown = [item for item in crates.all() if crates.is_shown(item)]
    for group, names in crates.lists.items():
        found = {name: [item for item in shown if name in (item.owner or item.name, item.owner)] for name in names}
        lost = [name for name in names if not found[name]]
        if lost:
            raise SystemExit(f"contracts: {group} passes on {', '.join(lost)}, which no crate has")
        yield f"\n## {group[0].upper() + group[1:] if ' ' in group else '`' + group + '`'}\n"
        yield "| Item | What it is or returns |\n|---|---|"
        for name in names:
            (item,) = [item for item in found[name] if not item.owner]
            if item.kind == "fn":
                yield row([item], sentence(item.comment))
        for name in names:
            (item,) = [item for item in found[name] if not item.owner]
            if item.kind == "fn":
                continue
            traits = ", ".join(link(i, re.sub(r"^\w+::(\w+::)*", "", i.name)) for i in found[name] if i.kind == "impl")
            place = f'<a id="{name.lower()}"></a>'
            yield row([item], f"{place}**{sentence(item.comment)}**" + (f" Traits: {traits}." if traits else ""))
            for calls, text in families([i for i in found[name] if i.kind == "call"]):
                yield row(calls, text)
    yield from definitions(crates)


def main(arguments: List[str]) -> int:
    crates = Crates(Path(arguments[-1]))
    if arguments[0] == "--uncalled":
        for name in uncalled(crates):
            print(name)
    elif arguments[0] == "--write":
        (Path(arguments[-1]) / "docs" / "CONTRACTS.md").write_text("\n".join(page(crates)) + "\n", encoding="utf-8")
    else:
        print("\n".join(page(crates)))
    return 0


if __name__ == "__main__":
    sys.exit(main(sys.argv[1:]))
