"""What the sources have to be, before anything is proved: each class is a check of checks/list.txt.

    python3 -B -m unittest checks.test_sources.Version     tries one of them, from the repository's folder
"""

import io
import os
import re
import subprocess
import sys
import unittest
from concurrent.futures import ThreadPoolExecutor
from contextlib import redirect_stderr, redirect_stdout
from difflib import unified_diff
from typing import Iterator, Tuple

from checks import contracts, cram, pages, pictures, proofs, rows
from checks.checklist import ROOT, libraries, tracked
from checks.programs import Case, copy_tracked, run, skip


def texts(pattern: str) -> Iterator[Tuple[str, str]]:
    """The repository's files whose whole names have this pattern, with their texts."""
    for name in tracked():
        if re.fullmatch(pattern, name):
            yield name, (ROOT / name).read_text(encoding="utf-8", errors="replace")


def printed(call, *words) -> Tuple[int, str]:
    """The status of a script's main function, and what it prints."""
    said = io.StringIO()
    with redirect_stdout(said), redirect_stderr(said):
        status = call(*words)
    return status, said.getvalue()


class Layout(Case):
    """What `rt ci` would refuse only after minutes, and `rt check` never."""

    def test_format(self):
        """Each file is as `rt fmt` lays it out, which is tried on a copy."""
        copy_tracked(self.work, "crates/", "crates.txt")
        (self.work / ".git").mkdir()
        with ThreadPoolExecutor(os.cpu_count()) as pool:
            ran = pool.map(lambda it: run("rt", "fmt", cwd=self.work / "crates" / it, stderr=subprocess.STDOUT), libraries())
        self.none_of([f"{it}: {each.out.decode()}" for it, each in zip(libraries(), ran) if each.out], "run rt fmt in these crates")

    def test_only_tests_end_the_process(self):
        """A test's file is, or is below, a module under cfg(test)."""
        sources = dict(texts(r"crates/\w+/src/.*\.rt"))
        tests = {name.split("/")[1]: set() for name in sources}
        for name, text in sources.items():
            tests[name.split("/")[1]] |= set(re.findall(r"(?m)^#\[cfg\(test\)\]\nmod (\w+);", text))
        wrong = [it for it, text in sources.items() if "process::Abort" in text and not tests[it.split("/")[1]] & set(it[:-3].split("/"))]
        self.none_of(wrong, "these may end the process, and are no tests")

    def test_edits(self):
        """Each applies, and is where bin/test tries many in one check, and not `rt ci` each in one."""
        self.assertEqual(run("checks/edits.sh", "--applies", cwd=ROOT, stderr=subprocess.STDOUT)[:1], (0,))
        self.none_of([it for it in tracked() if "/must-fail/" in it], "edits are in edits/")

    def test_proofs(self):
        """Nothing is too long to read, and each lemma is cited."""
        self.assertEqual(proofs.found(ROOT / "crates", ROOT / "checks/proofs.txt"), [])

    def test_faces(self):
        """The lemmas of a crate that crates above cite are those of its proofs/Face.antt."""
        past = r"(?:Rattle\.(\w+)\.proofs\.|\b(\w+)::proofs::)(?!Face\b)\w+"
        wrong = []
        for name, text in texts(r"crates/.*\.(antt|rt)"):
            cited = {found[1] or found[2] for found in re.finditer(past, text)}
            wrong += [f"{name} cites lemmas of {it} past its face" for it in cited - {name.split("/")[1]} if it in libraries()]
        self.none_of(wrong)


class Contracts(Case):
    def test_page(self):
        status, page = printed(contracts.main, [str(ROOT)])
        self.assertEqual(status, 0)
        differing = unified_diff((ROOT / "docs/CONTRACTS.md").read_text().splitlines(), page.splitlines(), lineterm="")
        self.none_of(list(differing)[:40], "checks/contracts.py --write . writes the page anew")

    def test_each_call_is_called(self):
        """By a line of crates/calls/stdin, a test or an example."""
        self.assertEqual(printed(contracts.main, ["--uncalled", str(ROOT)])[1], "")


class Names(Case):
    def test_handles(self):
        self.assertEqual((ROOT / "HANDLES").read_text(), "Handles allowed: none.\n")

    def test_kit(self):
        """README names the logic of the kit, what proofs rest on, and no other page names a kit."""
        here = run("rt", "version").out.decode().strip()
        page = " ".join((ROOT / "README.md").read_text().split())
        self.assertIn("logic " + here.rpartition("logic ")[2], page, f"the kit here is {here}, and README.md names another logic")
        if here not in page:
            print(f"note: the kit here is {here}, and README.md names another of the same logic")
        wrong = [name for name, text in texts(r".*") if name != "README.md" and re.search("rattle-kit-[0-9]", text)]
        self.none_of(wrong, "README.md alone names the kit")

    def test_version(self):
        """All that names the version names that of VERSION; what names the shared library with its number names the first of it."""
        version = (ROOT / "VERSION").read_text().strip()
        number = "%d%02d%02d" % tuple(map(int, version.split(".")))
        manifest = r'(?m)^version = "(.*)"|version = "=([^"]*)", path = '
        patterns = {
            r"c/bsonraw\.h": (r"(?m)^#define BSONRAW_VERSION (\d+)", number),
            r"crates/bsonraw_c/src/version\.rt": (r"(?m)^    (\d+)$", number),
            r"rust/Cargo\.toml|rust/(bsonraw-sys|with-serde)/Cargo\.toml": (manifest, version),
            r"crates/bsonraw_dump/src/version\.rt": (r'(?m)^pub const VERSION: &str = "(.*) \(unreleased\)";', version),
            r"man/.*\.[13]": (r'(?m)^\.TH .*"[a-z][a-z-]* ([0-9][0-9.]*)"', version),
        }
        for files, (pattern, wanted) in patterns.items():
            self.assertTrue(list(texts(files)), f"there are no files {files}")
            for name, text in texts(files):
                found = {"".join(it) if isinstance(it, tuple) else it for it in re.findall(pattern, text)}
                with self.subTest(name):
                    self.assertEqual(found, {wanted})
        self.assertEqual(re.search(r"(?m)^## \[([^]]*)\]", (ROOT / "CHANGELOG.md").read_text())[1], version)
        for name, text in texts(r"(?!CHANGELOG|crates/).*"):
            with self.subTest(name):
                self.assertLessEqual(set(re.findall(r"libbsonraw\.so\.([0-9]+)", text)), {version.split(".")[0]})

    def test_other_languages(self):
        """What is written in C, C++ and Python compiles, as far as no library is needed."""
        for name in tracked():
            if name.endswith(".py"):
                compile((ROOT / name).read_text(encoding="utf-8"), name, "exec")
        for compiler, flags in (("cc", ("-std=c99", "-x", "c", "c/bsonraw.h")), ("cc", ("-std=c99", "c/daily.c")), ("c++", ("-std=c++17", "-x", "c++", "c/bsonraw.hpp"))):
            try:
                ran = run(compiler, *flags[:1], "-Wall", "-Wextra", "-Werror", "-Ic", "-fsyntax-only", *flags[1:], cwd=ROOT)
            except OSError:
                skip(f"{flags[-1]}, without a compiler ({'gcc' if compiler == 'cc' else 'g++'})")
            else:
                self.assertEqual((ran.status, ran.err.decode()), (0, ""))


class Pages(Case):
    def test_length(self):
        """README has under 110 lines, it and docs/ without CONTRACTS.md at most 16,000 words; a stroke of a table is none."""
        self.assertLess((ROOT / "README.md").read_text().count("\n"), 110)
        shown = [text for name, text in texts(r"README\.md|docs/.*\.md") if not name.endswith("CONTRACTS.md")]
        self.assertLessEqual(sum(bool(re.search("[0-9A-Za-z]", word)) for text in shown for word in text.split()), 16_000)

    def test_shown(self):
        """Each block of code is one that bin/test compiles, proves or runs, or that is so in the sources, and each link leads somewhere."""
        names = [name for name, _ in texts(r"[A-Z]*\.md|(docs|examples|rust)/[^/]*\.md|crates/\w+/README\.md")]
        status, said = printed(pages.main, "shown", *names)
        self.none_of(said.splitlines())
        self.assertEqual(status, 0)

    def test_pictures(self):
        """They are those that make.py makes, nothing in them runs over an edge, and crates.svg is of crates.txt."""
        folder = ROOT / "docs/pictures"
        made = run(sys.executable, "-B", folder / "make.py", self.work)
        self.assertEqual(made.status, 0, made.err)
        for name in ("bytes", "rescue", "speed"):
            same = (self.work / f"{name}.svg").read_bytes() == (folder / f"{name}.svg").read_bytes()
            self.assertTrue(same, f"{name}.svg is out of date; docs/pictures/make.py makes it anew")
        status, said = printed(pictures.main, sorted(folder.glob("*.svg")))
        self.assertEqual(status, 0, said)
        if "DejaVu" in said:
            skip("texts of pictures, without DejaVu Sans (fonts-dejavu-core)")


class Rows(Case):
    def test_jobs(self):
        """Each row of the table of jobs in docs/USING.md is a run of checks/dumps.txt."""
        _, _, table = (ROOT / "docs/USING.md").read_text().partition("| Job | Command |\n|---|---|\n")
        rows = [(job, command.replace("\\|", "|")) for job, command in re.findall(r"\| (.*?) \| `(.*)` \|\n", table.partition("\n\n")[0] + "\n")]
        runs = [(it.name, it.command) for it in cram.read(ROOT / "checks/dumps.txt")]
        self.assertGreaterEqual(len(rows), 30)
        self.assertEqual([row for row in rows if row not in runs], [])

    def test_places(self):
        """Each worked example of checks/rows.txt has a place that runs it."""
        status, said = printed(rows.main, ROOT)
        self.assertEqual(status, 0, "\n".join(it for it in said.splitlines() if it.startswith("rows: ")))


class Calls(Case):
    def test_without_a_proof(self):
        """crates/calls prints what it has to without a proof, and refuses a call that it doesn't know, and one without a form."""
        (self.work / "calls").write_bytes((ROOT / "crates/calls/stdin").read_bytes())
        (self.work / "calls.stdout").write_bytes((ROOT / "crates/calls/stdout").read_bytes())
        self.put("unknown", b"total_lens 1 2\n")
        self.put("formless", b"total_len 1 two\n")
        ran = run("rt", "try", "--steps", "1", "--seconds", "1000", "--cases", self.work, cwd=ROOT / "crates/calls", stderr=subprocess.STDOUT)
        for wanted in ("calls run=ended status=0 .*output=expected", "unknown run=ended status=2 ", "formless run=ended status=3 "):
            self.assertRegex(ran.out.decode(), f"(?m)^case={wanted}")


if __name__ == "__main__":
    unittest.main()
