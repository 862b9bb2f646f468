"""Tests of edits.py, on a crate of a few functions of which some call another. Each check takes some ten seconds, so the tests run at
once, but for those that are named, and what is done with the verdicts of many checks is tried on what such checks said."""

import concurrent.futures
import os
import pathlib
import shutil
import subprocess
import sys
import tempfile
import unittest

SCRIPT = pathlib.Path(__file__).resolve().parent / "edits.py"
sys.path.insert(0, str(SCRIPT.parent))

import edits as script  # noqa: E402

SOURCE = """//! Two functions, one over the other.

#![tactic(auto)]

ghost use Rattle.std.specs.Prelude.{◌≡◌, ◌+◌};

/// The number after this one.
pub fn next(x: u8) -> u16
    ensures { result ≡ x + 1 }
{
    x as u16 + 1
}

/// The number after that.
pub fn after_next(x: u8) -> u16
    ensures { result ≡ x + 2 }
{
    next(x) + 1
}

/// This number, as wide.
pub fn widened(x: u8) -> u16
    ensures { result ≡ x }
{
    x as u16
}

/// The number after this one, by another way.
pub fn next_of_widened(x: u8) -> u16
    ensures { result ≡ x + 1 }
{
    widened(x) + 1
}
"""

NEXT_IS_WRONG = ("x as u16 + 1", "x as u16 + 2")

# what a check said of a file in which `next` is wrong, and of one that is no Rattle
NEXT_IS_REFUSED = """checked tiny::next, 1 of 2
checked tiny::after_next, 2 of 2
note: src/lib.rt:8:1: it is not proved that what the function ensures holds when it returns (`returns`); the facts known there allow values
fn tiny::next: no proof: expected answers in ./proofs/next/Answers.antt; `search` did not prove `returns`
fn tiny::after_next: no proof: it calls `tiny::next`, which is not proved
logic=not-proved
"""
NO_RATTLE = "src/lib.rt:19:1: error[unexpected-token]: expected expression, found `}`\n"

# what a run of `rt ci` notes of the crates
PROVED = "tiny\n.\n"

NAMES = {
    "lib.rt": """
pub mod inner;
#[cfg(test)]
mod tests;

pub struct Outer;

impl<'a> From<&'a str> for Outer {
    fn from(text: &'a str) -> Outer { Outer }
}

impl Outer {
    pub(crate) const fn new() -> Outer {
        fn within() {}
        Outer
    }
}

pub extern "C" fn exported() {}

extern "C" {
    fn foreign();
}
""",
    "inner.rt": """
enum Kind { One }

impl fmt::Display for Kind {
    fn fmt(&self) {}
}

impl From<bool> for Kind {
    fn from(is: bool) -> Kind { Kind::One }
}

impl Drop for Kind {
    fn drop(&mut self) {}
}

impl Outer {
    pub fn other(&self) {}
}

impl<W: Write> Sink for W {
    fn accept(&mut self) {}
}

fn free() {}
""",
    "tests.rt": "fn helper() {}\n",
}


def edit(*changes, functions=None):
    lines = [f"fn: {functions}"] if functions else []
    lines.append("file: src/lib.rt")
    for old, new in changes:
        lines += [f"old: {old}", f"new: {new}"]
    return "\n".join(lines) + "\n"


class Edits(unittest.TestCase):
    def setUp(self):
        self.top = pathlib.Path(tempfile.mkdtemp(prefix="edits-test-"))
        self.addCleanup(shutil.rmtree, self.top)
        (self.top / "crates/tiny/src").mkdir(parents=True)
        (self.top / "crates/tiny/edits").mkdir()
        (self.top / "crates.txt").write_text("tiny:\n")
        (self.top / "crates/tiny/src/lib.rt").write_text(SOURCE)

    def tried(self, edits, *flags):
        """Returns the run of these edits by name: its status, and what it printed."""
        for name, text in edits.items():
            (self.top / f"crates/tiny/edits/{name}.edit").write_text(text)
        words = [sys.executable, str(SCRIPT), "--anew", "--top", str(self.top), *flags]
        ran = subprocess.run(words, stdout=subprocess.PIPE, stderr=subprocess.STDOUT, text=True)
        return ran.returncode, ran.stdout

    def beside(self, lines, edits, *flags):
        """Returns the run of these edits beside a run that noted these lines."""
        (self.top / "bin").mkdir(exist_ok=True)
        shutil.copy(SCRIPT.parent.parent / "bin/build.sh", self.top / "bin")
        (self.top / "noted").write_text(lines)
        return self.tried(edits, "--from-nothing", "--beside", str(self.top / "noted"), *flags)

    def test_wrong_bodies_are_refused_beside_a_run(self):
        # (the first has to be tried without the last; the second, and then the first, over a hole for the proof of what it calls)
        status, printed = self.beside(PROVED, {
            "after_next_is_the_same": edit(("next(x) + 1", "1 + next(x)"), functions="after_next"),
            "next_of_widened_is_wrong": edit(("widened(x) + 1", "widened(x) + 2"), functions="next_of_widened"),
            "next_is_wrong": edit(NEXT_IS_WRONG, functions="next"),
        })
        self.assertEqual(status, 1, printed)
        self.assertIn("tiny/after_next_is_the_same: NOT REFUSED", printed)
        self.assertIn("edits: 2 of 3 are refused; 2 checks", printed)

    def test_functions_are_told_by_the_source(self):
        for name, text in NAMES.items():
            (self.top / "crates/tiny/src" / name).write_text(text)
        wanted = {
            "Outer::new", "Outer::other", "exported", "inner::Kind::drop", "inner::KindDisplay::fmt", "inner::KindFromBool::from", "inner::free",
        }
        self.assertEqual(set(script.functions_of(self.top / "crates/tiny")), {f"tiny::{it}" for it in wanted})

    def test_a_crate_over_one_that_the_run_beside_did_not_prove_waits_for_a_proof_here(self):
        (self.top / "crates/low/src").mkdir(parents=True)
        (self.top / "crates/low/src/lib.rt").write_text(SOURCE.replace("next(x) + 1", "next(x) +"))
        (self.top / "crates.txt").write_text("low:\ntiny: low\n")
        status, printed = self.beside(".\n", {"next_is_wrong": edit(NEXT_IS_WRONG, functions="next")})
        self.assertEqual(status, 1)
        self.assertIn("tiny/next_is_wrong: BAD: low isn't proved as it is", printed)

    def test_borrows_that_wait_for_a_callee_are_no_verdict(self):
        line = (
            "fn tiny::after_next: no proof: the borrow checker's part in its proof is not made yet: "
            "a call of `tiny::next`, which has no proof: help: prove it first"
        )
        self.assertEqual(script.Said("tiny", line).waited_for({"tiny::after_next"}), {"tiny::next"})

    def test_a_crate_is_proved_here_before_its_edits(self):
        status, printed = self.tried({
            "next_is_wrong": edit(NEXT_IS_WRONG, functions="next"),
            "next_of_widened_is_the_same": edit(("widened(x) + 1", "1 + widened(x)"), functions="next_of_widened"),
            "the_file_is_the_same": edit(("x as u16 + 1", "1 + x as u16")),
            "there_is_no_such_text": edit(("x as u32", "x as u64"), functions="next"),
        })
        self.assertEqual(status, 1, printed)
        self.assertIn("tiny/next_of_widened_is_the_same: NOT REFUSED: ", printed)
        self.assertIn("tiny/the_file_is_the_same: NOT REFUSED: ", printed)
        self.assertIn("tiny/there_is_no_such_text: BAD: ", printed)
        self.assertNotIn("tiny/next_is_wrong: ", printed)
        self.assertIn("edits: 1 of 4 are refused; 3 checks", printed)

    def test_what_a_check_says_of_other_functions_is_no_verdict(self):
        for name, text in {
            "it_is_another_function's": edit(("x as u16 + 1", "x as u16 + 3"), functions="after_next"),
            "it_is_no_rattle": edit(("next(x) + 1", "next(x) +"), functions="after_next"),
            "it_is_refused": edit(NEXT_IS_WRONG, functions="next"),
            "the_file_is_wrong": edit(NEXT_IS_WRONG),
            "there_is_no_such_function": edit(NEXT_IS_WRONG, functions="nothing"),
        }.items():
            (self.top / f"crates/tiny/edits/{name}.edit").write_text(text)
        tried = script.edits_of(self.top, ["tiny"])
        script.try_crate(Recorded(self.top), "tiny", tried)
        self.assertEqual({it.name: it.verdict for it in tried}, {
            "it_is_another_function's": script.BAD, "it_is_no_rattle": script.BAD, "it_is_refused": script.REFUSED,
            "the_file_is_wrong": script.REFUSED, "there_is_no_such_function": script.BAD,
        })

    def test_a_crate_whose_edits_are_all_settled_needs_no_check(self):
        (self.top / "crates/tiny/edits/next_is_wrong.edit").write_text(edit(NEXT_IS_WRONG, functions="next"))
        settled = script.edits_of(self.top, ["tiny"])
        for it in settled:
            it.settle(script.REFUSED, "by an earlier run")
        prover = script.Prover(self.top, 1, keep=None, from_nothing=True)
        self.addCleanup(shutil.rmtree, prover.room)
        script.try_crate(prover, "tiny", settled)
        self.assertEqual(prover.checks, 0)

    def test_a_body_below_is_no_part_of_what_a_verdict_rests_on_beside_a_run(self):
        low = self.top / "crates/low"
        (self.top / "crates.txt").write_text("low:\ntiny: low\n")
        shown = low / "out/rlib/low.rlib/lang/src/lib.rt"
        files = [low / "src/lib.rt", low / "proofs/f/Answers.antt", low / "proofs/Face.antt", low / "specs/Words.antt", shown, self.top / "crates/tiny/src/lib.rt"]
        for file in files:
            file.parent.mkdir(parents=True, exist_ok=True)
            file.write_text(SOURCE)
        changed = self.moved({file: SOURCE + "\n" for file in files})
        self.assertEqual(changed, [[True, False], [True, False], [True, True], [True, True], [False, True], [True, True]])

    def test_nor_is_the_body_or_the_proof_of_another_function_of_the_crate(self):
        tiny = self.top / "crates/tiny"
        for file in ("proofs/widened/Answers.antt", "proofs/next/Answers.antt", "proofs/Lemmas.antt"):
            (tiny / file).parent.mkdir(parents=True, exist_ok=True)
            (tiny / file).write_text("one")
        changed = self.moved({
            tiny / "src/lib.rt": SOURCE.replace("{\n    x as u16\n", "{\n    let _ = 1;\n    u16::from(x)\n"),
            tiny / "proofs/widened/Answers.antt": "another",
            tiny / "proofs/next/Answers.antt": "another",
            tiny / "proofs/Lemmas.antt": "another",
        })
        self.assertEqual(changed, [[True, False], [True, False], [True, True], [True, True]])
        changed = self.moved({tiny / "src/lib.rt": SOURCE.replace("result ≡ x }", "x ≡ result }")})
        self.assertEqual(changed, [[True, True]])

    def moved(self, texts):
        """Returns of each of these files, whose texts change one after the other, whether the places change where the verdict on a wrong
        body of `next` is kept: of one over proofs alone, and of one that is tried beside a run."""
        (self.top / "crates/tiny/edits/next_is_wrong.edit").write_text(edit(NEXT_IS_WRONG, functions="next"))
        wrong = script.Edit.read("tiny", self.top / "crates/tiny/edits/next_is_wrong.edit")

        store = script.Store(self.top, is_read=True)

        def places():
            store.sums.clear()
            return store.place(wrong), store.place(wrong, script.functions_of(self.top / "crates/tiny"))

        changed = []
        for file, text in texts.items():
            before = places()
            file.write_text(text)
            changed.append([old != new for old, new in zip(before, places())])
        return changed

    def test_each_edit_applies(self):
        status, printed = self.tried({"next_is_wrong": edit(NEXT_IS_WRONG, functions="next")}, "--applies")
        self.assertEqual((status, printed.split(";")[0]), (0, "edits: 1 of 1 apply"))
        status, printed = self.tried({"there_is_no_such_text": edit(("x as u32", "x as u64"))}, "--applies")
        self.assertEqual(status, 1)
        self.assertIn("tiny/there_is_no_such_text: BAD: ", printed)

    def test_each_edit_compiles(self):
        status, printed = self.tried({
            "after_next_is_wrong": edit(("next(x) + 1", "next(x) + 2"), functions="after_next"),
            "the_type_is_wrong": edit(("x as u16 + 1", "x + 1")),
        }, "--compiles")
        self.assertEqual(status, 1)
        self.assertIn("tiny/the_type_is_wrong: BAD: ", printed)
        self.assertIn("edits: 1 of 2 compile", printed)


class Recorded:
    """A prover that says of an edited text what one said."""

    def __init__(self, top):
        self.top, self.over = top, {}

    def check_edited(self, crate, texts, *flags):
        text = texts["src/lib.rt"]
        return script.Checked(1, NO_RATTLE if text.count("next(x) +\n") else NEXT_IS_REFUSED, {}, 0)

    def only(self, crate, now):
        return []

    def keep(self, edit, holes):
        pass

    def forget(self, crate):
        pass


def test_at_once():
    """Runs each test in a process of its own, and returns whether all passed."""
    def run(name):
        words = [sys.executable, "-B", __file__, f"Edits.{name}"]
        return subprocess.run(words, stdout=subprocess.PIPE, stderr=subprocess.STDOUT, text=True)

    with concurrent.futures.ThreadPoolExecutor(os.cpu_count()) as pool:
        ran = list(pool.map(run, unittest.defaultTestLoader.getTestCaseNames(Edits)))
    print(*[it.stdout for it in ran], sep="\n", end="")
    return bool(ran) and not any(it.returncode for it in ran)


if __name__ == "__main__":
    sys.exit(unittest.main() if sys.argv[1:] else not test_at_once())
