"""Extended JSON: what the programs and the library print and read beside libbson and MongoDB's package for Python, and what comes back. Each class
is a check of checks/list.txt. Where what is made isn't as it has to be, its seed is said; SEED sets it.
"""

import ctypes
import os
import random
import subprocess
import sys
from itertools import repeat
from pathlib import Path
from typing import Dict, Iterator, List, NamedTuple, Optional, Tuple

from checks import json_documents, json_places, json_texts
from checks.checklist import ROOT
from checks.programs import DUMP, Case, hexed, run, skip

SEED = int(os.environ.get("SEED") or random.randrange(1 << 24))
MOST_BYTES = 1 << 22
OK, FAULT = 0, 2


class Report(ctypes.Structure):
    """struct bsonraw_json_report of c/bsonraw.h."""

    _fields_ = [(it, ctypes.c_uint64) for it in ("count", "offset", "line", "column")] + [(it, ctypes.c_uint32) for it in ("reason", "wrapper")]


class Library:
    """Calls of c/bsonraw.h, by the shared library that bin/test or bin/install put into the folder that `library` names."""

    def __init__(self) -> None:
        self.calls = ctypes.CDLL(str(Path(os.environ["library"]) / "lib/libbsonraw.so"))
        self.room = ctypes.create_string_buffer(8 * MOST_BYTES)

    def from_json(self, text: bytes, levels: int = 100) -> "Tuple[Optional[bytes], Tuple[int, int]]":
        """The document of a text, or why and where it is refused."""
        report, size = Report(), ctypes.c_size_t
        room = self.room, size(MOST_BYTES), ctypes.byref(report)
        status = self.calls.bsonraw_from_json(text, size(len(text)), size(MOST_BYTES), size(levels), *room)
        refused = (report.reason, report.offset) if status == FAULT else (0, 0)
        return (ctypes.string_at(self.room, report.count) if status == OK else None), refused

    def json(self, document: bytes, levels: int, is_canonical: bool, is_indented: bool) -> Optional[bytes]:
        """Its text."""
        report, size = ctypes.create_string_buffer(256), ctypes.c_size_t  # (struct bsonraw_report, of which the first is the count)
        room = self.room, size(len(self.room)), report, None, size(0)
        status = self.calls.bsonraw_json(document, size(len(document)), size(MOST_BYTES), size(levels), is_canonical, is_indented, *room)
        return ctypes.string_at(self.room, ctypes.c_uint64.from_buffer(report).value) if status == OK else None


class Libbson:
    """Calls of libbson."""

    def __init__(self) -> None:
        self.calls = ctypes.CDLL("libbson-1.0.so.0")
        for it in "new_from_json", "new_from_data", "destroy_with_steal", "as_relaxed_extended_json", "as_canonical_extended_json":
            getattr(self.calls, f"bson_{it}").restype = ctypes.c_void_p

    def taken(self, place: int, size: int) -> bytes:
        found = ctypes.string_at(place, size)
        self.calls.bson_free(ctypes.c_void_p(place))
        return found

    def from_json(self, text: bytes) -> Optional[bytes]:
        """The document of a text, or nothing."""
        error, size = ctypes.create_string_buffer(512), ctypes.c_uint32()
        made = self.calls.bson_new_from_json(text, ctypes.c_ssize_t(len(text)), error)
        return self.taken(self.calls.bson_destroy_with_steal(ctypes.c_void_p(made), True, ctypes.byref(size)), size.value) if made else None

    def json(self, document: bytes, form: str) -> str:
        """Its relaxed or canonical text."""
        size = ctypes.c_size_t()
        read = ctypes.c_void_p(self.calls.bson_new_from_data(document, ctypes.c_size_t(len(document))))
        text = self.taken(getattr(self.calls, f"bson_as_{form}_extended_json")(read, ctypes.byref(size)), size.value)
        self.calls.bson_destroy(read)
        return text.decode()


def by_package(texts: List[bytes]) -> List[Optional[bytes]]:
    """What MongoDB's package makes of these texts, by a Python that has it; nothing where none has."""
    for python in sys.executable, "/usr/bin/python3":
        if subprocess.run([python, "-c", "import bson.json_util"], stderr=subprocess.DEVNULL).returncode == 0:
            given = "".join(it.hex() + "\n" for it in texts).encode()
            said = subprocess.run([python, "-B", "-m", "checks.json_texts"], input=given, stdout=subprocess.PIPE, cwd=ROOT, check=True).stdout.split()
            assert len(said) == len(texts)
            return [None if it == b"-" else hexed(it) for it in said]
    skip("MongoDB's package for Python (python3-bson)")
    return []


class Made(NamedTuple):
    """What a line of checks/json_cases.txt says that each makes of a text: a document in hex, or `-`."""

    text: str
    ours: str
    libbson: str
    package: str


def cases() -> "Tuple[List[Made], List[str]]":
    """The cases of the table, and its headings."""
    lines = [it for it in (ROOT / "checks/json_cases.txt").read_text(encoding="utf-8").split("\n") if it and not it.startswith("# ")]
    rows = [it.split("\t") for it in lines if not it.startswith("## ")]
    found = [Made(text, ours, *(ours if it == "=" else it for it in theirs)) for text, ours, *theirs in rows]
    return found, [it[3:] for it in lines if it.startswith("## ")]


def fits(made: Optional[bytes], wanted: str) -> bool:
    """Whether this is the document in hex that is expected, in which dots stand for any digits, with which there may be none."""
    if made is None:
        return wanted == "-" or "." in wanted
    shown = made.hex().upper()
    return len(shown) == len(wanted) and all(w in (m, ".") for m, w in zip(shown, wanted))


def roff(text: str) -> str:
    """The text as a manual page writes it."""
    return text.replace("\\", "\\e").replace('"', "\\(dq").replace("'", "\\(aq").replace("-", "\\-")


class Texts(Case):
    """What bsonraw_from_json reads of texts, beside libbson and the package: the same documents, byte for byte, and none of the same texts, but for
    what rules say."""

    @classmethod
    def setUpClass(cls) -> None:
        super().setUpClass()
        cls.library, cls.libbson = Library(), Libbson()

    def read(self, texts: List[bytes]) -> "Iterator[Tuple[Optional[bytes], Tuple[int, int], Dict[str, Optional[bytes]]]]":
        """What we make of each text, or why and where we refuse it, and what the others make of it."""
        package = by_package(texts)
        for text, theirs in zip(texts, package or repeat(None)):
            others = {"libbson": self.libbson.from_json(text), **({"package": theirs} if package else {})}
            yield *self.library.from_json(text), others

    def test_made(self) -> None:
        """Each made text, by its rule (checks/json_texts.txt)."""
        maker = json_texts.Maker(SEED)
        made = [maker.text() for _ in range(int(os.environ.get("COUNT") or 100_000))]
        wrong = []
        for (rule, text), (ours, _, others) in zip(made, self.read([text for _, text in made])):
            settled = json_texts.RULES[rule]
            problems = [name for name, it in others.items() if it != ours and name not in settled.others]
            if not (settled.is_refused if ours is None else settled.is_read):
                problems.append("the rule")
            wrong += [f"{it} has it otherwise: {rule}: {text!r}: {ours!r}, {others}" for it in problems]
        self.none_of(wrong[:20], f"seed {SEED}")

    def test_places(self) -> None:
        """Texts that are cut at each byte, or have another one there, and where each is refused (checks/json_places.py)."""
        made, wrong, documents = [*json_places.made()], [], 0
        for it, (ours, refused, others) in zip(made, self.read([it.data for it in made])):
            problems = [json_places.problem_of(it, refused if ours is None else None)]
            if ours is not None:
                documents += 1
                problems += [f"{name} reads it otherwise" for name, theirs in others.items() if theirs != ours and name not in it.others]
            wrong += [f"{why}: {it.data!r}: {refused}, {ours!r}" for why in problems if why]
        self.none_of(wrong[:20])
        self.assertGreater(len(made), 40_000)
        self.assertGreater(documents, 1_000)

    def test_cases(self) -> None:
        """Each case, as checks/json_cases.txt has it."""
        found, _ = cases()
        wrong = []
        for it, (ours, _, others) in zip(found, self.read([it.text.encode() for it in found])):
            made = {"ours": ours, **others}
            wrong += [f"{name}: {it.text}: {by!r}, not {getattr(it, name)}" for name, by in made.items() if not fits(by, getattr(it, name))]
        self.none_of(wrong)
        self.assertGreater(len(found), 300)

    def test_page(self) -> None:
        """What man/bsonraw_from_json.3 says that others read otherwise is the headings of the cases."""
        page = (ROOT / "man/bsonraw_from_json.3").read_text(encoding="utf-8")
        said = page.partition("reads these otherwise:\n")[2].partition("\n.SH EXAMPLE")[0] + "\n"
        parts = [it.split(" | ") for it in cases()[1] if " | " in it]
        self.assertEqual(said, "".join(f'.TP\n.B "{roff(what)}"\nHere {roff(here)};\nthere {roff(there)}.\n' for what, here, there in parts))


class ComesBack(Case):
    """Documents come back from their texts: the bytes, from the canonical one; from the relaxed one, indented, which names fewer kinds, that text."""

    def test_each(self) -> None:
        library, maker = Library(), json_documents.Whole(SEED)

        def is_lost(document: bytes) -> bool:
            text = library.json(document, 500, True, False)
            relaxed = library.json(document, 500, False, True)
            again = library.from_json(relaxed, 500)[0] if relaxed else None
            return not text or library.from_json(text, 500)[0] != document or not again or library.json(again, 500, False, True) != relaxed

        self.none_of([it.hex() for it in maker.documents(20_000) if is_lost(it)][:5], f"seed {SEED}")
        self.assertTrue(is_lost(json_documents.OTHER_NAN))


class Printed(Case):
    """What `bsonraw-dump json` prints of made documents beside what libbson prints of them: the same values, but for what rules say."""

    programs = (DUMP,)

    def test_each(self) -> None:
        libbson, documents = Libbson(), [*json_documents.Maker(SEED).documents(20_000)]
        dump = self.put("made", *documents)
        sys.setrecursionlimit(20_000)  # documents nest 200 levels, each some frames
        for form in "relaxed", "canonical":
            ran = run(DUMP, "json", *(["--canonical"] if form == "canonical" else []), dump)
            lines = ran.out.decode().split("\n")
            self.assertEqual((ran.status, len(lines), lines[-1]), (0, len(documents) + 1, ""), ran.err)
            pairs = [(ours, libbson.json(it, form)) for ours, it in zip(lines, documents)]
            wrong = [f"{ours}\n    {theirs}" for ours, theirs in pairs if not json_documents.same(*map(json_documents.read, (ours, theirs)))]
            self.none_of(wrong[:5], f"{form}, seed {SEED}")
