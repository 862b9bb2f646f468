"""What has to be proved, in which order, and how long that takes, of the crates that crates.txt lists. bin/build.sh runs it.

    plan.py key KIT CRATE                   prints the key of a crate: a sum of all that its build is made with
    plan.py is-built KIT CRATE..            ends with status 0 if what the builds of these left was made with what is there now
    plan.py minutes SLOTS GOAL..            prints how many minutes these crates and those below them take, the first time
    plan.py makefile KIT WORK SLOTS GOAL..  writes WORK/Makefile and WORK/plan for those that aren't built, SLOTS at a time; prints how many
                                            crates that is, how many of them were proved here before, and how many minutes it takes
    plan.py begin WORK SLOTS GOAL           notes in WORK/begun that a step begins, and prints how many jobs it has
    plan.py left WORK SLOTS                 prints how many steps of it are through, how many there are, how many minutes are left, by
                                            what the others took, and which steps are under way
    plan.py slots                           prints how many crates can be proved at a time: by the processors and the free memory

A goal is a crate, or a crate and `:again`, which builds the C library once more for other processors. WORK/begun and WORK/ended have a file
for each step, as old as its begin and its end; the first has its jobs. KIT is the kit's folder. The key of a library is what `rt` writes to out/rlib/stamp, so that
neither builds anew what the other built. In a kit where `rt` writes another one, each builds it once more, over the proofs that are kept.
"""

import hashlib
import heapq
import json
import os
import re
import sys
import time
from functools import lru_cache
from pathlib import Path
from typing import Dict, Iterator, List, NamedTuple, Tuple

ROOT = Path(__file__).resolve().parent.parent
MINUTES = 45
"""How many minutes the first `bin/install PREFIX` takes on four free processors of 2.5 GHz, as measured: 44. README.md names the same, and
the kit, and checks/builds.txt compares them."""
MEASURED_AT = 4
"""How many crates were proved at a time there."""
MEMORY = 3_500_000_000
"""The most bytes that a check of one crate was seen to take."""
BY_JOBS = {1: 1.0, 2: 0.65, 3: 0.52, 4: 0.45}
"""How long a check takes with this many jobs, as a share of its time with one."""
AGAIN = ":again"
FLAGS = {"library": "", "program": "--backend llvm", "staticlib": "--backend llvm --crate-type staticlib"}


class Crate(NamedTuple):
    name: str
    kind: str
    uses: List[str]

    @property
    def folder(self) -> Path:
        return ROOT / "crates" / self.name

    @property
    def made(self) -> Path:
        """What its build leaves."""
        names = {"library": f"rlib/{self.name}.rlib", "program": self.name, "staticlib": f"lib{self.name}.a"}
        return self.folder / "out" / names[self.kind]

    @property
    def is_kept(self) -> bool:
        """Whether an earlier check kept proofs."""
        return (self.folder / "out" / "incremental").is_dir()

    def files(self) -> Iterator[Path]:
        """What its build reads, in the order of `rt`."""
        for part in ("src", "specs", "proofs"):
            for at, folders, names in os.walk(self.folder / part):
                folders.sort()
                yield from (Path(at, name) for name in sorted(names))

    def lines(self, *endings: str) -> int:
        return sum(it.read_bytes().count(b"\n") for it in self.files() if it.suffix in endings)


@lru_cache(maxsize=None)
def crates() -> Dict[str, Crate]:
    """The crates of crates.txt."""
    found = {}
    for line in (ROOT / "crates.txt").read_text().splitlines():
        words = re.fullmatch(r"(\w+)( staticlib)?[^:]*:(.*)", line.partition("#")[0].strip())
        if words:
            is_program = (ROOT / "crates" / words[1] / "src" / "main.rt").exists()
            kind = "program" if is_program else "staticlib" if words[2] else "library"
            found[words[1]] = Crate(words[1], kind, words[3].split())
    return found


def crate_of(goal: str) -> Crate:
    return crates()[goal.replace(AGAIN, "")]


def below(goals: List[str]) -> List[str]:
    """The crates of these goals and all below them, each after those that it uses."""
    found: List[str] = []

    def add(name: str) -> None:
        if name in crates() and name not in found:
            for used in crates()[name].uses:
                add(used)
            found.append(name)

    for goal in goals:
        add(crate_of(goal).name)
    return found


def read(kit: str, name: str) -> str:
    """A file of the kit; a kit that has none of this name is known by the others."""
    file = Path(kit, name)
    return file.read_text() if file.exists() else ""


@lru_cache(maxsize=None)
def stamp(kit: str, name: str) -> str:
    """A sum of the kit, of a crate's line in crates.txt, of the names and content of its files, and of the same of the crates below it."""
    crate = crates()[name]
    said = {"name": name, "deps": [f"//crates/{it}" if it in crates() else f"@rattle//{it}" for it in crate.uses]}
    if crate.kind == "staticlib":
        said["crate_type"] = "staticlib"
    found = hashlib.sha256(repr((said, False)).encode())
    found.update(read(kit, "WHAT").encode())
    for file in crate.files():
        found.update(repr((f"/{file.relative_to(crate.folder)}", file.read_bytes())).encode())
    found.update(repr([stamp(kit, it) for it in crate.uses if it in crates()]).encode())
    return found.hexdigest()


def key(kit: str, name: str) -> str:
    """The key of what a crate's build makes."""
    crate = crates()[name]
    if crate.kind == "library":
        return stamp(kit, name)
    whole = [stamp(kit, name), FLAGS[crate.kind], read(kit, "KIT-ID")]
    return hashlib.sha256(repr(whole).encode()).hexdigest()


def is_built(kit: str, name: str) -> bool:
    """Whether what is there was made with what is there now."""
    crate = crates()[name]
    noted = crate.folder / "out" / ("rlib/stamp" if crate.kind == "library" else "built")
    return crate.made.exists() and noted.exists() and noted.read_text().split("\n")[0] == key(kit, name)


def compiling(goal: str) -> float:
    """What it costs to compile a program or the C library, in lines that are proved: little, except for the kit's clap, of which much is inlined."""
    crate = crate_of(goal)
    if crate.kind == "library":
        return 0
    return 0.03 * sum(crates()[it].lines(".rt") for it in below([goal])) + (5000 if "clap" in crate.uses else 0)


def proving(goal: str, is_first: bool) -> float:
    """What it costs to prove a crate, in lines. What a check reads before its first function counts as 500. Where a crate was proved before, a
    tenth of it is taken to have changed."""
    crate = crate_of(goal)
    if goal.endswith(AGAIN):
        return 500
    return 500 + crate.lines(".rt", ".antt") * (1 if is_first or not crate.is_kept else 0.1)


class Step(NamedTuple):
    """What make runs: the build of a goal, once those that it waits for are through."""

    goal: str
    waits: List[str]
    cost: float
    compiled: float
    """The part of the cost that more jobs don't shorten."""

    def span(self, jobs: int) -> float:
        """How long it takes, in lines."""
        return (self.cost - self.compiled) * BY_JOBS[jobs] + self.compiled


def share(slots: int, others: int, ready: int, is_first: bool) -> int:
    """How many jobs a check has that begins: of all that are ready the first, with the longest chain after it, has the processors that neither
    other checks have nor those that are ready wait for, and two at least; each of the others has one."""
    if not is_first:
        return 1
    return max(min(2, slots // 2), 1, min(slots - others - ready, max(BY_JOBS)))


def planned(goals: List[str], is_first: bool = False) -> List[Step]:
    """The steps of these goals, first those with the longest chain of others after them."""
    waits = {it: [other for other in below([it]) if other in goals and other != it] for it in goals}
    steps = [Step(it, waits[it], proving(it, is_first) + compiling(it), compiling(it)) for it in goals]
    chain: Dict[str, float] = {}
    for step in sorted(steps, key=lambda it: -len(it.waits)):
        chain[step.goal] = step.span(1) + max((chain[it.goal] for it in steps if step.goal in it.waits), default=0)
    return sorted(steps, key=lambda it: -chain[it.goal])


class Running(NamedTuple):
    """A step that has begun."""

    end: float
    goal: str
    jobs: int


def finish(steps: List[Step], slots: int, rate: float, running: List[Running]) -> float:
    """When the last of these steps is through, if make begins them in this order, and a line takes this long."""
    left, now = list(steps), 0.0
    heapq.heapify(running)
    open_goals = {it.goal for it in steps} | {it.goal for it in running}
    while left or running:
        ready = [it for it in left if not open_goals.intersection(it.waits)]
        begin = ready[: slots - len(running)]
        for at, step in enumerate(begin, 1):
            jobs = share(slots, sum(it.jobs for it in running), len(ready) - at, at == 1)
            heapq.heappush(running, Running(now + rate * step.span(jobs), step.goal, jobs))
            left.remove(step)
        now, goal, _ = heapq.heappop(running)
        open_goals.remove(goal)
    return now


def with_again(names: List[str]) -> List[str]:
    """The goals with those that build the C library once more."""
    return [*names, *(name + AGAIN for name in names if crates()[name].kind == "staticlib")]


@lru_cache(maxsize=None)
def line_seconds() -> float:
    """How many seconds a line takes, by MINUTES, which is for the programs and the C library."""
    tops = [it.name for it in crates().values() if it.kind != "library" and it.name.startswith("bsonraw")]
    return 60 * MINUTES / finish(planned(with_again(below(tops)), is_first=True), MEASURED_AT, 1, [])


def in_minutes(seconds: float) -> int:
    return max(1, round(seconds / 60))


def minutes(slots: int, goals: List[str]) -> int:
    """How long the first build of these goals takes."""
    steps = planned([*below(goals), *(it for it in goals if it.endswith(AGAIN))], is_first=True)
    return in_minutes(finish(steps, slots, line_seconds(), []))


def write_makefile(kit: str, work: Path, slots: int, goals: List[str]) -> List[int]:
    """Writes the makefile and the plan; returns how many crates there are, how many of them were proved before, and the minutes."""
    names = [it for it in below(goals) if not is_built(kit, it)]
    steps = planned([*names, *(it for it in goals if it.endswith(AGAIN))])
    target = {it.goal: it.goal.replace(":", "-") for it in steps}
    text = f".PHONY: all {' '.join(target.values())}\nall: {' '.join(target.values())}\n"
    for step in steps:
        text += f"{target[step.goal]}: {' '.join(target[it] for it in step.waits)}\n"
        text += f'\t@. "$$root/bin/build.sh" && run_step {step.goal} {key(kit, crate_of(step.goal).name)}\n'
    (work / "Makefile").write_text(text)
    (work / "plan").write_text(json.dumps({"rate": line_seconds(), "steps": steps}))
    kept = sum(crates()[it].is_kept for it in names)
    return [len(names), kept, in_minutes(finish(steps, slots, line_seconds(), []))]


class State:
    """How far the steps of a folder are."""

    def __init__(self, work: Path) -> None:
        plan = json.loads((work / "plan").read_text())
        self.steps = [Step(*it) for it in plan["steps"]]
        self.rate: float = plan["rate"]
        self.begun = {it.name: it.stat().st_mtime for it in (work / "begun").iterdir()}
        self.jobs = {it.name: int(it.read_text() or 1) for it in (work / "begun").iterdir()}
        self.ended = {it.name: it.stat().st_mtime for it in (work / "ended").iterdir()}

    def under_way(self) -> List[Step]:
        return [it for it in self.steps if it.goal in self.begun and it.goal not in self.ended]

    def waiting(self) -> List[Step]:
        return [it for it in self.steps if it.goal not in self.begun]


def begin(work: Path, slots: int, goal: str) -> int:
    """Notes that a step begins; returns how many jobs it has."""
    state = State(work)
    others = sum(state.jobs[it.goal] for it in state.under_way() if it.goal != goal)
    ready = [it.goal for it in state.waiting() if state.ended.keys() >= set(it.waits)]
    found = share(slots, others, len(ready) - 1, ready[:1] == [goal])
    (work / "begun" / goal).write_text(str(found))
    return found


def left(work: Path, slots: int) -> str:
    """How many steps are through, of how many, the minutes that are left, and what is under way."""
    state = State(work)
    # what a line takes: by MINUTES as long as little is through, and then by what that took
    through = [it for it in state.steps if it.goal in state.ended]
    known = 3000.0
    took = known * state.rate + sum(state.ended[it.goal] - state.begun[it.goal] for it in through)
    rate = took / (known + sum(it.span(state.jobs[it.goal]) for it in through))
    now = time.time()
    running = []
    for it in state.under_way():
        span = it.span(state.jobs[it.goal]) * rate
        running.append(Running(max(span - (now - state.begun[it.goal]), 0.1 * span), it.goal, state.jobs[it.goal]))
    names = [it.goal for it in state.under_way()]
    minutes = in_minutes(finish(state.waiting(), slots, rate, running)) if names or state.waiting() else 0
    return f"{len(through)} {len(state.steps)} {minutes} {' '.join(names)}"


def number_in(file: str, pattern: str) -> int:
    """The number that a file of the system has there, or -1."""
    try:
        found = re.search(pattern, Path(file).read_text())
    except OSError:
        found = None
    return int(found[1]) if found else -1


def slots() -> int:
    """How many crates can be proved at a time: a processor and the memory for each, within the limits of the control group."""
    processors = len(os.sched_getaffinity(0))
    quota, period = number_in("/sys/fs/cgroup/cpu.max", r"^(\d+) "), number_in("/sys/fs/cgroup/cpu.max", r" (\d+)")
    if quota > 0 and period > 0:
        processors = min(processors, max(quota // period, 1))
    free = 1024 * number_in("/proc/meminfo", r"MemAvailable:\s+(\d+)")
    limit, held = number_in("/sys/fs/cgroup/memory.max", r"^(\d+)"), number_in("/sys/fs/cgroup/memory.stat", r"(?m)^anon (\d+)")
    if limit >= 0 and held >= 0:
        free = min(free, limit - held)
    return max(1, min(processors, free // MEMORY))


def main(verb: str, *words: str) -> int:
    if verb == "key":
        print(key(*words))
    elif verb == "is-built":
        return 0 if all(is_built(words[0], it) for it in words[1:]) else 1
    elif verb == "minutes":
        print(minutes(int(words[0]), list(words[1:])))
    elif verb == "makefile":
        print(*write_makefile(words[0], Path(words[1]), int(words[2]), list(words[3:])))
    elif verb == "begin":
        print(begin(Path(words[0]), int(words[1]), words[2]))
    elif verb == "left":
        print(left(Path(words[0]), int(words[1])))
    elif verb == "slots":
        print(slots())
    else:
        raise SystemExit(__doc__)
    return 0


if __name__ == "__main__":
    sys.exit(main(*sys.argv[1:]))
