"""Sees that the prover refuses each edit in crates/NAME/edits/, many edits in one check.

An edit is a wrong body, and a contract that lets it through is too weak. It is a text file:

    fn: document::RawDocument::get       the function that it changes, as the prover names it, and whose proof has to fail;
                                         of functions that share one proof, since they call one another, all, and `+CYCLE`
    file: src/document.rt                a file of the crate
    old: TEXT                            a line's text that is in this file once
    new: TEXT                            what is put in its place; further pairs of lines change what the earlier ones made

Edits of different functions go into one copy of the crate, which is checked once. A contract is all that a caller knows of
a function, so an edit of one body disturbs no other proof, and the prover's complaints about each edited function are that
edit's own. Where a function's proof waits for one that is edited, too, its edit is tried again without the other. An edit
without a line `fn` changes no body alone (an import, say): it is tried by itself, and the whole crate has to be refused.

What each edit came to:

    refused             the prover complains of a goal of the edited function
    only for a name     it complains only that a proof names what the edit took away, which says nothing of the contract
    not refused         the function is still proved
    bad                 the edit can't be applied or read, or the check ended without a verdict

The first is well, the second is told, so that somebody mends the edit, and the others fail the run. Each verdict but bad is
kept at once in ~/.cache/foyeranise, by a checksum of all that it rests on, and --anew ignores these. The proofs that edits
are tried over go on from what `rt check` left in the crates' out/, but with --from-nothing. With --beside, a run of `rt ci` in
this folder proves the crates as they are: the edits of a crate begin once the file that is named says that those below it are
proved, over the libraries that the run left, and only the edited functions are proved. A function of the crate that is not
edited has a hole for its proof, where its source tells its name, and a body that never returns: of what an edited one calls,
its proof needs the contract alone. So what has no complaint, and depends on such a hole alone, is still proved. And so a verdict
rests neither on the bodies of other functions, nor on their proofs, be they of the same crate or of one below: where these alone
change, it is taken from an earlier run. Two flags prove nothing: --applies sees that each edit applies, and --compiles that each
edited text compiles, many edits in a copy, over the libraries that `rt check` built.
"""

import argparse
import concurrent.futures
import dataclasses
import hashlib
import json
import os
import pathlib
import re
import resource
import shutil
import subprocess
import sys
import tempfile
import threading
import time

TOP = pathlib.Path(__file__).resolve().parent.parent
KEPT = pathlib.Path.home() / ".cache" / "foyeranise" / "edits"
# what a proof rests on, of a crate
PARTS = ("src", "specs", "proofs")

REFUSED, NAME_ALONE, NOT_REFUSED, BAD = "refused", "only for a name", "not refused", "bad"

# checks a crate of a copy of the repository over the libraries in the copy's out/ folders
OVER = '. "$0/bin/build.sh"; root=$1; shift; over check "$@"'

# a proof that isn't there, of a function whose contract is all that is needed of it
HOLE = """use Rattle.{module}.Statement.{{statement}}

pub {name}_spec : {{M : Type 1}} → statement M
{name}_spec = ?
"""

# the beginning of a block of functions: of a trait, and what it is of, for a type, or of a type alone; of another; and a function
BLOCK = re.compile(r"impl(?:<.*?>)? (?:(?:\w+::)*(\w+)(?:<(\w+)>)? for )?(\w+)(?:<.*>)? \{")
OTHER_BLOCK = re.compile(r'(?:unsafe )?impl\b|(?:pub(?:\([^)]*\))? )?trait\b|extern "C" \{|mod \w+ \{|macro_rules')
FUNCTION = re.compile(r'(    )?(?:pub(?:\([^)]*\))? )?(?:const |unsafe |extern "C" )*fn (\w+)')
TYPE = re.compile(r"(?m)^(?:pub(?:\([^)]*\))? )?(?:struct|enum) (\w+)")
# the line that ends in a body's first brace
BODY = re.compile(r" *(?!ensures\b|requires\b|decreases\b|ghost\b).*(?<![^ ]){$")
TESTS = re.compile(r"#\[cfg\(test\)\]\s+mod (\w+);")

# what is written of the proof of a function, in a folder of its name
OF_FUNCTIONS = ("Answers.antt", "Invariants.antt", "Proof.antt")

# complaints that a proof names what isn't there any more
NAMES_LOST = re.compile(r"has no field|is not in scope|has no `|was not admitted|is no name")


def libraries(top):
    """Returns the repository's crates, and of each the crates of the repository that it is over, lowest first."""
    listed = {}
    for line in (top / "crates.txt").read_text().splitlines():
        head, colon, tail = line.partition("#")[0].partition(":")
        if colon:
            listed[head.split()[0]] = tail.split()

    def below(name):
        found = {}
        for it in listed[name]:
            if it in listed:
                found.update(dict.fromkeys([*below(it), it]))
        return list(found)

    return {name: below(name) for name in listed}


def static_libraries(top):
    return re.findall(r"(?m)^(\w+) staticlib\b.*:", (top / "crates.txt").read_text())


def modules_of(crate):
    """Returns the texts of a crate's modules, by their files and paths below the crate, without those of tests."""
    texts = {}
    for file in (crate / "src").rglob("*.rt"):
        parts = file.relative_to(crate / "src").with_suffix("").parts
        texts[file, "::".join(it for it in parts if it not in ("lib", "main"))] = file.read_text()
    tests = [f"{at}::{name}".removeprefix("::") for (_, at), text in texts.items() for name in TESTS.findall(text)]
    return {key: text for key, text in texts.items() if not any(f"{key[1]}::".startswith(f"{it}::") for it in tests)}


def functions_of(crate):
    """Returns the functions of a crate whose names its source tells, as the prover names them, with the file of each and the line
    that begins it: those in modules, in blocks of the crate's own types, and in blocks of traits for these."""
    texts, homes, found = modules_of(crate), {}, {}
    for (_, at), text in texts.items():
        for name in TYPE.findall(text):
            homes.setdefault(name, []).append(at)
    for (file, at), text in texts.items():
        block = at
        for number, line in enumerate(text.split("\n")):
            if head := BLOCK.match(line):
                trait, of, name = head.groups("")
                home = [it for it in homes.get(name, []) if trait or it == at] or homes.get(name, [])
                own = f"{name}{'' if trait == 'Drop' else trait}{of[:1].upper()}{of[1:]}"
                block = f"{at if trait else home[0]}::{own}" if len(home) == 1 else None
            elif OTHER_BLOCK.match(line):
                block = None
            elif line.startswith("}"):
                block = at
            elif block is not None and (function := FUNCTION.match(line)) and bool(function[1]) == (block != at):
                found["::".join(filter(None, [crate.name, *block.split("::"), function[2]]))] = file, number
    return found


def without_bodies(text, numbers):
    """Returns a module's text in which the functions that begin in these lines never return, whatever else they did."""
    lines = text.split("\n")
    for number in sorted(numbers, reverse=True):
        indent = re.match(" *", lines[number])[0]
        begin = next((at for at, it in enumerate(lines) if at >= number and BODY.match(it)), len(lines))
        end = next((at for at, it in enumerate(lines) if at >= number and it == indent + "}"), len(lines))
        # (a constant may be made of what a function returns)
        if begin < end < len(lines) and "const fn" not in lines[number]:
            lines[begin + 1 : end] = [indent + "    loop {}"]
    return "\n".join(lines)


def hollowed(folder, functions, asked, texts):
    """Returns these texts of a crate, and those of its other modules, without the bodies of the functions that aren't asked for."""
    texts, lines = dict(texts), {}
    for function, (file, number) in functions.items():
        if function not in asked:
            lines.setdefault(str(file.relative_to(folder)), []).append(number)
    for file, numbers in lines.items():
        texts[file] = without_bodies(texts.get(file) or (folder / file).read_text(), numbers)
    return texts


@dataclasses.dataclass(eq=False)
class Edit:
    crate: str
    name: str
    text: str
    functions: set[str] = dataclasses.field(default_factory=set)
    changes: list[tuple[str, str, str]] = dataclasses.field(default_factory=list)
    # functions that no other edit of a round may change, since the proof of this one waits for theirs
    waits_for: set[str] = dataclasses.field(default_factory=set)
    verdict: str = ""
    why: str = ""

    @classmethod
    def read(cls, crate, path):
        edit = cls(crate, path.stem, path.read_text())
        file = old = None
        for line in edit.text.splitlines():
            word, colon, rest = line.partition(":")
            rest = rest.removeprefix(" ")
            match word:
                case "fn":
                    edit.functions = {f"{crate}::{it}" for it in rest.split()}
                case "file":
                    file = rest.strip()
                case "old":
                    old = rest
                case "new":
                    edit.changes.append((file, old, rest))
        return edit

    def applied(self, folder, texts):
        """Returns the texts of the crate's files by their paths, with this edit over those given, or None where it doesn't apply."""
        texts = dict(texts)
        for file, old, new in self.changes:
            if not file or not old:
                return None
            if file not in texts:
                if file.split("/")[0] not in PARTS or not (folder / file).is_file():
                    return None
                texts[file] = (folder / file).read_text()
            if texts[file].count(old) != 1:
                return None
            texts[file] = texts[file].replace(old, new)
        return texts if self.changes else None

    def settle(self, verdict, why=""):
        self.verdict, self.why = verdict, why
        if verdict != REFUSED:
            print(f"{self.crate}/{self.name}: {verdict.upper()}: {why[:300]}", flush=True)


class Said:
    """What a check said of each function."""

    def __init__(self, crate, output):
        self.lines = output.rstrip("\n").split("\n")
        self.states, self.complaints, self.calls = {}, {}, {}
        notes = []
        for line in self.lines:
            if at := re.match(r"(?:\./)?proofs/(\S+)/[\w+]+\.antt:\d+:\d+: error: (.*)", line):
                self.complain("::".join([crate, *at[1].split("/")]), at[2])
            elif at := re.match(r"note: (src/\S+?:\d+):\d+: (it is not proved .*)", line):
                notes.append(f"{at[1]}: {at[2]}")
            elif at := re.match(r"fn (\S+): (.*)", line):
                self.states[at[1]] = at[2]
                called = " ".join(
                    re.findall(r"(?:it (?:calls|passes the block|waits for the proof of)|: a call of) ([^;]*)", at[2])
                )
                self.calls[at[1]] = set(re.findall(r"`([^`]*)`", called))
                for it in notes:
                    self.complain(at[1], it)
                if "`search` did not prove" in at[2]:
                    self.complain(at[1], at[2])
                notes = []
            elif re.match(r"(struct|enum|impl|trait) ", line):
                notes = []

    def complain(self, function, complaint):
        self.complaints.setdefault(function, []).append(complaint)

    def parts_of(self, functions):
        """Returns these functions and their closures, as lines may name them."""
        named = [*self.states, *self.complaints]
        heads = ["{}::fn::{}::".format(*it.rpartition("::")[::2]) for it in functions]
        return functions | {it for it in named if it.startswith(tuple(heads))}

    def complaints_of(self, functions):
        return [it for part in sorted(self.parts_of(functions)) for it in self.complaints.get(part, [])]

    def are_proved(self, functions):
        """Returns whether these are proved, but for the holes of functions that aren't edited."""
        own = [self.states[it] for it in self.parts_of(functions) if it in self.states]
        return bool(own) and all(it in ("proved", "no holes") or it.startswith("depends on a hole in ") for it in own)

    def waited_for(self, functions):
        """Returns the functions whose proofs those of these wait for, at first hand or through others."""
        found, left = set(), self.parts_of(functions)
        while left:
            called = self.calls.get(left.pop(), set()) - found
            found |= called
            left |= called
        return found

    def beyond(self, functions):
        """Returns what the prover complains of in another function than these, or None."""
        others = sorted(set(self.complaints) - self.parts_of(functions))
        return f"{others[0]} is refused, of which it isn't: {self.complaints[others[0]][0]}" if others else None

    def unreadable(self):
        """Returns why nothing was proved, or None where the check reached the prover."""
        if self.states:
            return None
        return next((it for it in self.lines if "error" in it), self.lines[-1])


@dataclasses.dataclass
class Checked:
    """A check's status, what it printed, and how many processor seconds it took, and for each function (the first with what is read
    before)."""

    returncode: int
    stdout: str
    took: dict[str, float]
    spent: float


def spent_by(process):
    """Returns the processor seconds of a process and of those below it, which have not ended."""
    at = pathlib.Path("/proc") / str(process)
    try:
        ticks = (at / "stat").read_text().rpartition(")")[2].split()[11:15]
        below = [it for task in (at / "task").iterdir() for it in (task / "children").read_text().split()]
    except OSError:
        return 0
    return sum(map(int, ticks)) / os.sysconf("SC_CLK_TCK") + sum(map(spent_by, below))


def take_work(from_top, to_top, crate, *parts, copy=shutil.copy2):
    """Copies what earlier checks of a crate left, in place of what is there, so that the next check goes on from it."""
    for part in parts:
        source, target = (top / "crates" / crate / "out" / part for top in (from_top, to_top))
        shutil.rmtree(target, ignore_errors=True)
        if source.is_dir():
            shutil.copytree(source, target, copy_function=copy)


def share_work(from_top, to_top, crate, *parts):
    """Does the same by links, as a crate's work takes 400 MB: a check puts a new file in the place of one that it changes."""
    take_work(from_top, to_top, crate, *parts, copy=os.link)


class Prover:
    """Checks copies of the repository, each crate over what the check of the crate as it is left."""

    def __init__(self, top, jobs, keep, from_nothing):
        self.top, self.jobs, self.keep, self.checks = top, jobs, keep, 0
        # crates whose edits are tried over the libraries of a run beside, with the functions that it proves, and the
        # libraries that were taken for that
        self.over, self.taken = {}, set()
        self.counting, self.taking = threading.Lock(), threading.Lock()
        self.room = pathlib.Path(tempfile.mkdtemp(prefix="edits-"))
        self.proved = self.copy("proved")
        if not from_nothing:
            for crate in libraries(top):
                take_work(top, self.proved, crate, "incremental", "rlib")

    def copy(self, name):
        """Returns a new copy of what is proved of the repository."""
        to = self.room / name
        for crate in libraries(self.top):
            for part in PARTS:
                if (self.top / "crates" / crate / part).is_dir():
                    shutil.copytree(self.top / "crates" / crate / part, to / "crates" / crate / part)
        for file in ("crates.txt", "HANDLES"):
            if (self.top / file).is_file():
                shutil.copy(self.top / file, to)
        (to / ".git").mkdir()
        return to

    def check(self, copy, crate, *flags):
        with self.counting:
            self.checks += 1
        words = ["rt", "check", "--jobs", str(self.jobs), *flags]
        if crate in self.over:
            folder = copy / "crates" / crate
            file = "src/main.rt" if (folder / "src/main.rt").is_file() else "src/lib.rt"
            words = ["sh", "-c", OVER, str(self.top), str(copy), crate, str(folder), file]
            words += ["--jobs", str(self.jobs), "--progress", "--incremental", "out/incremental", *flags]
            if crate in static_libraries(self.top):
                words += ["--crate-type", "staticlib"]
        how = {"cwd": copy / "crates" / crate, "text": True, "errors": "replace", "stdin": subprocess.DEVNULL}
        with subprocess.Popen(words, stdout=subprocess.PIPE, stderr=subprocess.STDOUT, **how) as ran:
            lines, took, before = [], {}, 0
            for line in ran.stdout:
                lines.append(line)
                if at := re.match(r"checked (\S+), \d+ of \d+", line):
                    now = spent_by(ran.pid)
                    took[at[1]], before = now - before, now
            _, status, used = os.wait4(ran.pid, 0)
            ran.returncode = os.waitstatus_to_exitcode(status)
        return Checked(ran.returncode, "".join(lines), took, used.ru_utime + used.ru_stime)

    def prove(self, crate):
        """Proves the crate as it is, and returns whether that went well."""
        ran = self.check(self.proved, crate)
        if ran.returncode or not ran.stdout.splitlines()[-1].startswith("logic=proved"):
            print(ran.stdout, f"edits: {crate} isn't proved as it is", sep="\n", flush=True)
            return False
        # (a check of a crate above goes on with this work, too)
        share_work(self.proved, self.room / "kept", crate, "incremental")
        return True

    def take_library(self, crate):
        """Takes the library that a run beside built, as that run may put another in its place when it ends."""
        with self.taking:
            if crate not in self.taken:
                take_work(self.top, self.proved, crate, "rlib")
                self.taken.add(crate)

    def check_edited(self, crate, texts, *flags):
        """Checks the crate with these texts, over what its own proof left."""
        copy = self.room / f"edited-{crate}"
        if not copy.exists():
            self.copy(copy.name)
            for it in libraries(self.top)[crate]:
                if crate in self.over:
                    self.take_library(it)
                share_work(self.proved, copy, it, "rlib")
        folder = copy / "crates" / crate
        (folder / "out").mkdir(exist_ok=True)
        share_work(self.room / "kept", copy, crate, "incremental")
        if crate in self.over and "--only" in flags:
            texts = self.put_holes(folder, crate, set(flags), texts)
        for file, text in texts.items():
            (folder / file).write_text(text)
        ran = self.check(copy, crate, *flags)
        if elsewhere := re.findall(r"proofs/(\S+)/Proof\.antt: error\[reserved-name\]", ran.stdout):
            # (functions that call themselves, whose proof is at another place)
            self.over[crate] = {it: place for it, place in self.over[crate].items() if "/".join(it.split("::")[1:]) not in elsewhere}
            for it in elsewhere:
                (folder / "proofs" / it / "Proof.antt").unlink(missing_ok=True)
            ran = self.check(copy, crate, *flags)
        for file in texts:
            shutil.copyfile(self.top / "crates" / crate / file, folder / file)
        if crate in self.over:
            # (what is proved and read here needn't be proved and read in the next round)
            share_work(copy, self.room / "kept", crate, "incremental")
        return ran

    def put_holes(self, folder, crate, asked, texts):
        """Puts a hole for the proof of each function that the run beside proves, but for those that are asked for, and returns these
        texts, and those of other modules, without the bodies of such functions."""
        shutil.rmtree(folder / "proofs", ignore_errors=True)
        if (self.top / "crates" / crate / "proofs").is_dir():
            shutil.copytree(self.top / "crates" / crate / "proofs", folder / "proofs")
        asked = {f"{crate}::{it}" for it in asked}
        for function in self.over[crate].keys() - asked:
            path = function.split("::")[1:]
            place = folder / "proofs" / "/".join(path)
            place.mkdir(parents=True, exist_ok=True)
            for it in OF_FUNCTIONS:
                (place / it).unlink(missing_ok=True)
            (place / "Proof.antt").write_text(HOLE.format(module=".".join([crate, "proofs", *path]), name=path[-1]))
        return hollowed(self.top / "crates" / crate, self.over[crate], asked, texts)

    def only(self, crate, now):
        """Returns the flags for a check of what these edits change alone, where nothing else of the crate has to be proved here."""
        if crate not in self.over:
            return []
        named = sorted(it.partition("::")[2] for edit in now for it in edit.functions)
        return [word for it in named if not it.rpartition("::")[2].startswith("+") for word in ("--only", it)]

    def forget(self, crate):
        """Gives back the room that the crate's edits took."""
        shutil.rmtree(self.room / f"edited-{crate}", ignore_errors=True)
        shutil.rmtree(self.room / "kept" / "crates" / crate, ignore_errors=True)


def round_of(edits, folder):
    """Returns the edits, from the first on, that can share a check, and the texts with them."""
    taken, kept_off, texts, now = set(), set(), {}, []
    for edit in edits:
        if edit.functions & (taken | kept_off) or edit.waits_for & taken:
            continue
        # (its old texts have to be there once beside the others' new ones)
        with_this = edit.applied(folder, texts)
        if with_this is not None:
            texts = with_this
            taken |= edit.functions
            kept_off |= edit.waits_for
            now.append(edit)
    return now, texts


def judge(edit, said, edited):
    """Settles the edit by what the check of a round said, or has it wait for the functions edited beside it."""
    complaints = said.complaints_of(edit.functions)
    strong = [it for it in complaints if not NAMES_LOST.search(it)]
    waited_for = said.waited_for(edit.functions) & edited - edit.functions
    unknown = [it for it in edit.functions if it not in said.states and not it.rpartition("::")[2].startswith("+")]
    if unknown:
        edit.settle(BAD, f"the prover knows no function {unknown[0]}")
    elif strong:
        edit.settle(REFUSED, strong[0])
    elif waited_for - edit.waits_for:
        edit.waits_for |= waited_for
    elif complaints:
        edit.settle(NAME_ALONE, complaints[0])
    elif said.are_proved(edit.functions):
        edit.settle(NOT_REFUSED, "the function is still proved")
    else:
        edit.settle(BAD, f"no verdict: {[said.states.get(it) for it in edit.functions]}")


def try_round(prover, crate, now, texts):
    """Checks these edits at once, and says what each came to."""
    ran = prover.check_edited(crate, texts, "--allow-holes", *prover.only(crate, now))
    dearest = sorted(ran.took, key=ran.took.get)[:-4:-1]
    print(
        f"    {crate}: {len(now)} edits in a check of {ran.spent:.0f} processor seconds, most in",
        ", ".join(f"{it.removeprefix(crate + '::')} {ran.took[it]:.0f}" for it in dearest),
        flush=True,
    )
    said = Said(crate, ran.stdout)
    edited = set().union(*[it.functions for it in now])
    why = said.unreadable() or said.beyond(edited)
    if why and prover.over.get(crate):
        # (it may be a hole's fault)
        prover.over[crate] = {}
        try_rounds(prover, crate, now, prover.top / "crates" / crate)
    elif why and len(now) == 1:
        now[0].settle(BAD, why)
    elif why:
        # one of them is bad
        folder = prover.top / "crates" / crate
        for half in (now[: len(now) // 2], now[len(now) // 2 :]):
            try_rounds(prover, crate, half, folder)
    else:
        for edit in now:
            judge(edit, said, edited)


def try_rounds(prover, crate, edits, folder):
    while left := [it for it in edits if not it.verdict]:
        now, texts = round_of(left, folder)
        try_round(prover, crate, now, texts)
        for edit in now:
            if edit.verdict:
                prover.keep(edit, prover.over.get(crate))


def try_alone(prover, crate, edit, folder):
    """Settles an edit that is of no one function: the whole crate has to be refused."""
    ran = prover.check_edited(crate, edit.applied(folder, {}))
    said = Said(crate, ran.stdout)
    complaints = [it for each in said.complaints.values() for it in each]
    strong = [it for it in complaints if not NAMES_LOST.search(it)]
    if ran.returncode == 0:
        edit.settle(NOT_REFUSED, "the crate is still proved")
    elif said.unreadable() or ran.returncode != 1 or not said.lines[-1].startswith(("logic=not-proved", "rt: ")):
        edit.settle(BAD, said.unreadable() or said.lines[-1])
    else:
        edit.settle(*((REFUSED, strong[0]) if strong else (NAME_ALONE, complaints[0] if complaints else said.lines[-1])))
    prover.keep(edit, {} if crate in prover.over else None)


def try_crate(prover, crate, edits):
    """Tries the crate's edits, once the crate as it is has been proved."""
    folder = prover.top / "crates" / crate
    try_rounds(prover, crate, [it for it in edits if it.functions], folder)
    for edit in edits:
        if not (edit.functions or edit.verdict):
            try_alone(prover, crate, edit, folder)
    prover.forget(crate)


class Store:
    """Verdicts of earlier runs, each under a checksum of all that it rests on: of an edit's crate and those below all files, or, where
    it was tried over the libraries of a run beside, what the prover sees of them."""

    def __init__(self, top, is_read):
        self.top, self.is_read, self.below, self.sums = top, is_read, libraries(top), {}
        self.kit = subprocess.run(["rt", "version"], stdout=subprocess.PIPE, check=True).stdout

    def sum_of(self, files, texts={}):
        """Returns a checksum of these files, some of which have other texts."""
        sum = hashlib.sha256()
        for file in sorted(files):
            text = texts[file].encode() if file in texts else file.read_bytes()
            sum.update(f"{file.relative_to(self.top)}\0{len(text)}\0".encode() + text)
        return sum.hexdigest()

    def files_of(self, crate, *parts):
        return [it for part in parts for it in (self.top / "crates" / crate / part).rglob("*") if it.is_file()]

    def whole(self, crate):
        """Returns a checksum of the crate's files."""
        if crate not in self.sums:
            self.sums[crate] = self.sum_of(self.files_of(crate, *PARTS))
        return self.sums[crate]

    def face(self, crate):
        """Returns a checksum of what crates above see of one whose library a run beside has built: its definitions, its lemmas, and its
        functions without their bodies. The proofs of functions are cited nowhere else (checks/test_sources.py)."""
        if (crate, "face") not in self.sums:
            texts = [it for it in self.files_of(crate, "specs", "proofs") if it.suffix == ".antt" and it.name not in OF_FUNCTIONS]
            rlib = f"out/rlib/{crate}.rlib"
            self.sums[crate, "face"] = self.sum_of(texts + self.files_of(crate, f"{rlib}/lang/src", f"{rlib}/interface/lang/src"))
        return self.sums[crate, "face"]

    def hollow(self, edit, functions):
        """Returns a checksum of the files of the edit's crate with this edit, as they are where the proofs of these functions, but for
        those that it changes, are holes."""
        folder = self.top / "crates" / edit.crate
        holes = {folder.joinpath("proofs", *it.split("::")[1:]) for it in functions.keys() - edit.functions}
        texts = hollowed(folder, functions, edit.functions, edit.applied(folder, {}))
        files = [it for it in self.files_of(edit.crate, *PARTS) if not (it.name in OF_FUNCTIONS and it.parent in holes)]
        return self.sum_of(files, {folder / name: text for name, text in texts.items()})

    def place(self, edit, holes=None):
        """Returns where the verdict is kept on an edit that was tried over the libraries of a run beside, where these functions have holes for
        their proofs; or that was tried over proofs alone."""
        below = self.below[edit.crate]
        crates = [*below, edit.crate]
        lines = [it for it in (self.top / "crates.txt").read_text().splitlines() if re.split(r"[\s:]", it)[0] in crates]
        script = pathlib.Path(__file__).read_bytes()
        own = self.hollow(edit, holes) if holes else self.whole(edit.crate)
        seen = [self.whole(it) if holes is None else self.face(it) for it in below]
        rests_on = (self.kit, script, lines, seen, own, edit.name, edit.text)
        return KEPT / hashlib.sha256(repr(rests_on).encode()).hexdigest()

    def recall(self, edit, holes=None):
        place = self.place(edit, holes)
        if self.is_read and place.is_file():
            edit.settle(*json.loads(place.read_text()))

    def keep(self, edit, holes=None):
        if edit.verdict == BAD:
            return
        KEPT.mkdir(parents=True, exist_ok=True)
        for place in {self.place(edit), self.place(edit, holes)}:
            new = place.with_suffix(f".{os.getpid()}")
            new.write_text(json.dumps([edit.verdict, edit.why]))
            new.rename(place)


def edits_of(top, crates):
    """Returns the edits of these crates; one that can't be applied is settled."""
    found = []
    for crate in crates:
        for path in sorted((top / "crates" / crate / "edits").glob("*.edit")):
            edit = Edit.read(crate, path)
            texts = edit.applied(top / "crates" / crate, {})
            if texts is None:
                edit.settle(BAD, "an old text isn't in its file once")
            found.append(edit)
    return found


def frozen(top, room):
    """Returns a copy of what edits are tried on, in this folder, so that nothing changes under them; what is built is the repository's."""
    for crate in libraries(top):
        for part in (*PARTS, "edits"):
            if (top / "crates" / crate / part).is_dir():
                shutil.copytree(top / "crates" / crate / part, room / "crates" / crate / part)
        (room / "crates" / crate).mkdir(parents=True, exist_ok=True)
        (room / "crates" / crate / "out").symlink_to(top / "crates" / crate / "out")
    for file in ("crates.txt", "HANDLES"):
        if (top / file).is_file():
            shutil.copy(top / file, room)
    (room / "bin").symlink_to(top / "bin")
    return room


def compile_rounds(prover, crate, edits, folder):
    """Settles each edit whose text doesn't compile: where a copy with many does, each of them does."""
    while edits:
        now, texts = round_of(edits, folder)
        ran = prover.check_edited(crate, texts, "--only", "")
        if ran.returncode and len(now) == 1:
            lines = ran.stdout.splitlines()
            now[0].settle(BAD, next((it for it in lines if "error" in it), lines[-1]))
        elif ran.returncode:
            for half in (now[: len(now) // 2], now[len(now) // 2 :]):
                compile_rounds(prover, crate, half, folder)
        edits = [it for it in edits if it not in now]


def compile_all(top, edits, jobs):
    prover = Prover(top, jobs, keep=None, from_nothing=False)
    try:
        for crate in dict.fromkeys(it.crate for it in edits):
            own = [it for it in edits if it.crate == crate and not it.verdict]
            compile_rounds(prover, crate, own, top / "crates" / crate)
    finally:
        shutil.rmtree(prover.room)
    return prover.checks


class Beside:
    """A run of `rt ci` in the same folder, which notes each crate in a file as it is proved, or kept of an earlier run, and a line `.` at
    its end."""

    def __init__(self, top, file):
        self.top, self.file = top, file

    def crates(self, wanted):
        """Gives these crates, each as soon as the libraries below it are proved, and there."""
        below, left = libraries(self.top), list(wanted)
        while left:
            noted = self.file.read_text().split("\n")[:-1] if self.file.is_file() else []
            for crate in [it for it in left if set(below[it]) <= set(noted)]:
                left.remove(crate)
                if all((self.top / "crates" / it / f"out/rlib/{it}.rlib").is_dir() for it in below[crate]):
                    yield crate
            if "." in noted:
                return
            time.sleep(1)


def try_all(top, edits, jobs, at_once, store, from_nothing, beside):
    """Tries the edits of each crate as soon as those below it are proved by a run beside, or it is proved here, with these."""
    prover = Prover(top, jobs, store.keep, from_nothing)
    try:
        with concurrent.futures.ThreadPoolExecutor(at_once) as pool:
            start = lambda crate: pool.submit(try_crate, prover, crate, [it for it in edits if it.crate == crate])
            tried, wanted = [], [it for it in libraries(top) if any(edit.crate == it for edit in edits)]
            for crate in Beside(top, beside).crates(wanted) if beside else ():
                prover.over[crate] = functions_of(top / "crates" / crate)
                for edit in edits:
                    for holes in (prover.over[crate], {}):
                        if edit.crate == crate and not edit.verdict and (edit.functions or not holes):
                            store.recall(edit, holes)
                tried.append(start(crate))
            tried += prove_and_try(prover, [it for it in wanted if it not in prover.over], edits, start)
            for it in tried:
                it.result()
    finally:
        shutil.rmtree(prover.room)
    return prover.checks


def prove_and_try(prover, wanted, edits, start):
    below = libraries(prover.top)
    tried = []
    # (a crate's check builds the libraries below it)
    for crate in sorted({it for name in wanted for it in [*below[name], name]}, key=lambda it: len(below[it])):
        if not prover.prove(crate):
            for edit in edits:
                if crate in [*below[edit.crate], edit.crate] and not edit.verdict:
                    edit.settle(BAD, f"{crate} isn't proved as it is")
            break
        if crate in wanted:
            tried.append(start(crate))
    return tried


def main():
    words = argparse.ArgumentParser(description=__doc__, formatter_class=argparse.RawDescriptionHelpFormatter)
    words.add_argument("crates", nargs="*", metavar="CRATE", help="only the edits of these crates")
    words.add_argument("--anew", action="store_true", help="try each edit, whatever earlier runs kept")
    words.add_argument("--from-nothing", action="store_true", help="take nothing that rt check left in the crates' out/")
    words.add_argument("--beside", type=pathlib.Path, metavar="FILE", help="where a run of rt ci in this folder notes what it proved")
    words.add_argument("--applies", action="store_true", help="prove nothing, and see that each edit applies")
    words.add_argument("--compiles", action="store_true", help="prove nothing, and see that each edited text compiles")
    words.add_argument("--jobs", type=int, default=1, help="what rt check is given (default: 1)")
    words.add_argument("--at-once", type=int, default=os.cpu_count(), help="crates whose edits are tried side by side")
    words.add_argument("--top", type=pathlib.Path, default=TOP, help=argparse.SUPPRESS)
    given = words.parse_args()

    with tempfile.TemporaryDirectory(prefix="edits-") as room:
        return try_edits(given, frozen(given.top.resolve(), pathlib.Path(room)))


def try_edits(given, top):
    """Tries the edits of the crates in this folder as the words of the command line ask for; returns the status."""
    begun = time.monotonic()
    proves = not (given.applies or given.compiles)
    edits = edits_of(top, given.crates or libraries(top))
    checks = 0
    if given.compiles:
        checks = compile_all(top, edits, given.jobs)
    if proves:
        store = Store(top, is_read=not given.anew)
        for edit in edits:
            if not edit.verdict:
                store.recall(edit)
        left = [it for it in edits if not it.verdict]
        print(f"edits: {len(edits)}, of which {len(edits) - len(left)} were settled before", flush=True)
        if left:
            checks = try_all(top, left, given.jobs, given.at_once, store, given.from_nothing, given.beside)
    wrong = [it for it in edits if it.verdict in (NOT_REFUSED, BAD)]
    spent = resource.getrusage(resource.RUSAGE_CHILDREN)
    print(
        f"edits: {len(edits) - len(wrong)} of {len(edits)} {'are refused' if proves else 'compile' if given.compiles else 'apply'}; {checks} checks,"
        f" {time.monotonic() - begun:.0f} s, {(spent.ru_utime + spent.ru_stime) / 60:.1f} processor minutes"
    )
    return 1 if wrong else 0


if __name__ == "__main__":
    sys.exit(main())
