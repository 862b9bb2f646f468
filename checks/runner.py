"""What bin/test does, whose first lines say how it is called: it writes a makefile of the checks that are asked for, has make run them, and
says what came of each."""

import argparse
import json
import os
import resource
import shlex
import shutil
import signal
import subprocess
import sys
import tempfile
import time
from pathlib import Path
from typing import Dict, List, NamedTuple, Set

import checklist
from checklist import BUILT, ROOT, Check

PART = "python3 -B checks/part.py"
WAITS = 4
"""How many steps of the whole only wait for `rt ci`, and take no processor."""


class Step(NamedTuple):
    """What make runs: a check of the list, or a command that builds what checks need."""

    name: str
    waits_for: List[str]
    command: str = ""
    in_haste: bool = False


class Plan(NamedTuple):
    steps: Dict[str, Step]
    left_out: Dict[str, str]
    """Checks that aren't tried, and why: what they need isn't built."""
    asked_for: Set[str] = set()
    """The checks that were named, or are of a group that was."""


def of_whole() -> Plan:
    """All that has to pass before a merge."""
    checks = [it for it in checklist.read()[1].values() if not {"quick", "release"} & set(it.needs)]
    first = [it.name for it in checks if "first" in it.needs]
    below = " ".join(sorted(checklist.below("bsonraw_c")))
    archive = f'{PART} wait {below} && checks/archive.sh $anew "$library"'
    steps = [
        # (the archive is built in as much haste as the proofs, as much waits for it)
        Step("library", first, f"{archive} && root=$PWD me=bin/test && . bin/build.sh && note_built bsonraw_c", in_haste=True),
        *(Step(it, first, f"{PART} wait {it}") for it in ("bsonraw", "bsonraw_dump")),
        Step("installed", ["bsonraw", "bsonraw_dump", "library"], 'bin/install "$installed"'),
        Step("tests", ["proofs"], ":"),
        *(Step(it.name, [] if it.name in first else first + it.built(), in_haste=it.name in first or it.name == "proofs") for it in checks),
    ]
    # make begins what is ready in this order, and the proofs have the longest way
    order = {"proofs": 0, "library": 1, "bsonraw": 2, "bsonraw_dump": 3, "edits": 4}
    steps.sort(key=lambda it: -1 if it.name in first else order.get(it.name, 5))
    return Plan({it.name: it for it in steps}, {})


def of_quick() -> Plan:
    """What needs no proof, and nothing that is built."""
    checks = [it for it in checklist.read()[1].values() if not it.built() and not {"proofs", "prover", "release"} & set(it.needs)]
    checks.sort(key=lambda it: it.name.startswith("tests-"), reverse=True)
    return Plan({it.name: Step(it.name, [], in_haste=True) for it in checks}, {})


def of_crate(name: str) -> List[Step]:
    """A crate's proofs, the tests of it and of the crates of tests over it, and its edits."""
    is_made = name in BUILT or name == "bsonraw_c"
    proof = f"root=$PWD me=bin/test && . bin/build.sh && make_proved {name}" if is_made else f"cd crates/{name} && rt check"
    steps = [Step(f"prove-{name}", [], proof, in_haste=True)]
    over = [it for it, uses in checklist.libraries().items() if it.endswith("_tests") and name in uses]
    tested = checklist.tested()
    for it in [name, *over]:
        if it in tested:
            steps.append(Step(f"test-{it}", [f"prove-{name}"], f"cd crates/{it} && rt test", in_haste=True))
    if (ROOT / "crates" / name / "edits").is_dir():
        steps.append(Step(f"edits-{name}", [it.name for it in steps], f"checks/edits.sh {name}", in_haste=True))
    return steps


def is_built(name: str) -> bool:
    """Whether this is built of what is there now."""
    if name == "tests":
        program = ROOT / "crates/bson_tests/out/bson_tests_tests"
        crates = [ROOT / "crates" / it for it in ("bson_tests", *checklist.below("bson_tests"))]
        files = [it for crate in crates for part in ("src", "specs", "proofs") for it in (crate / part).rglob("*.*")]
        return program.exists() and program.stat().st_mtime > max(it.stat().st_mtime for it in files)
    crates = {"library": ["bsonraw_c"], "installed": ["bsonraw", "bsonraw_dump", "bsonraw_c"]}.get(name, [name])
    stale = " || ".join(["false", *(f"is_stale {it}" for it in crates)])
    ran = subprocess.run(["sh", "-c", f"root=$PWD me=bin/test && . bin/build.sh && ! {{ {stale}; }}"], cwd=ROOT)
    return ran.returncode == 0


def of_names(names: List[str]) -> Plan:
    """What has to pass of these checks, groups, crates and files."""
    checks, wanted, steps, asked_for = checklist.read()[1], {}, {}, set()
    for name in names:
        own = [it for it in checks.values() if name == it.name or name in it.groups]
        asked_for.update(it.name for it in own)
        if not own and name in checklist.libraries():
            steps.update({it.name: it for it in of_crate(name)})
            own = [it for it in checks.values() if it.rests_on_file(f"crates/{name}/src/lib.rt")]
            own = [it for it in own if not {"quick", "proofs", "release"} & set(it.needs)]
        elif not own and (ROOT / name).is_file():
            file = str((ROOT / name).resolve().relative_to(ROOT))
            own = [it for it in checks.values() if it.rests_on_file(file) and not {"proofs", "release"} & set(it.needs)]
        elif not own:
            usage(f"no check, group of checks, crate or file is called '{name}'")
        wanted.update({it.name: it for it in own})
    return with_built(wanted, steps)._replace(asked_for=asked_for)


def with_built(wanted: Dict[str, Check], steps: Dict[str, Step]) -> Plan:
    """These steps, and those of the checks that are wanted for which what they need is built, or is made by one of the steps."""
    put = {"library": 'bin/install --library "$library"', "installed": 'bin/install "$installed"'}
    there: Dict[str, bool] = {}
    left_out = {}
    for check in wanted.values():
        for it in check.built():
            there[it] = there[it] if it in there else f"prove-{it}" in steps or is_built(it)
        lacking = [it for it in check.built() if not there[it]]
        if lacking:
            left_out[check.name] = f"what it needs isn't built of what is here now: {', '.join(lacking)}"
            continue
        for it in check.built():
            steps.setdefault(it, Step(it, [it for it in [f"prove-{it}"] if it in steps], put.get(it, ":"), in_haste=True))
        steps[check.name] = Step(check.name, check.built(), in_haste=True)
    return Plan(steps, left_out)


def makefile(plan: Plan) -> str:
    """The steps as make reads them."""
    text = f".PHONY: all {' '.join(plan.steps)}\nall: {' '.join(plan.steps)}\n"
    for step in plan.steps.values():
        nice = "" if step.in_haste else "nice "
        command = f" {shlex.quote(step.command).replace('$', '$$')}" if step.command else ""
        text += f"{step.name}: {' '.join(step.waits_for)}\n\t@{nice}{PART} {step.name}{command}\n"
    return text


def make(plan: Plan, work: Path, anew: str, slots: int) -> None:
    """Has make run the steps, and waits for its end."""
    for it in ("results", "skips"):
        (work / it).mkdir()
    for it in ("proved", "rt-ci"):
        (work / it).touch()
    (work / "Makefile").write_text(makefile(plan))
    shown = os.dup(1)
    os.set_inheritable(shown, True)
    given = {it: str(work / it) for it in ("library", "installed", "proved")}
    environment = {**os.environ, **given, "WORK": str(work), "anew": anew, "SHOWN": str(shown)}
    words = ["make", "-s", "-k", f"-j{slots}", "--output-sync=target", "-f", str(work / "Makefile")]
    subprocess.run(words, cwd=ROOT, env=environment, pass_fds=(shown,), stdin=subprocess.DEVNULL)


def started_by(process: int) -> Set[int]:
    """The processes that this one started, and those that they did."""
    found: Set[int] = set()
    for children in Path(f"/proc/{process}/task").glob("*/children"):
        try:
            direct = {int(it) for it in children.read_text().split()}
        except OSError:
            continue
        found |= direct.union(*map(started_by, direct))
    return found


def end_all() -> None:
    """Ends all that this process started."""
    for it in started_by(os.getpid()):
        try:
            os.kill(it, signal.SIGTERM)
        except OSError:
            pass


def end(*_: object) -> None:
    """Ends this process, and all that it started."""
    end_all()
    sys.exit(1)


def clock(seconds: float) -> str:
    return f"{int(seconds) // 60:3d}:{int(seconds) % 60:02d}"


class Report:
    """What came of a run."""

    def __init__(self, plan: Plan, work: Path) -> None:
        found = {it.name: json.loads(it.read_text()) for it in (work / "results").iterdir()}
        self.results = dict(sorted(found.items(), key=lambda it: it[1]["ended"]))
        self.failed = [it for it, result in self.results.items() if result["verdict"] == "failed"]
        self.lost = {it: "what it waits for failed" for it in plan.steps if it not in self.results}
        self.left_out = plan.left_out
        self.skips = sorted({line for result in self.results.values() for line in result["skips"]})
        self.passed = sum(result["verdict"] == "passed" for name, result in self.results.items() if name not in BUILT)
        self.rt_ci = [int(it) for it in (work / "rt-ci").read_text().replace(",", "").split() if it.isdigit()][:2]

    def last(self) -> str:
        """How many passed, failed and were skipped: of `rt ci` what it counts in place of one."""
        passed, failed = self.passed, len(self.failed) + len(self.lost)
        if "proofs" in self.results and len(self.rt_ci) == 2:
            passed += self.rt_ci[0] - (self.results["proofs"]["verdict"] == "passed")
            failed += max(self.rt_ci[1] - 1, 0)
        return f"{passed} passed, {failed} failed, {len(self.skips) + len(self.left_out)} skipped"

    def show(self, begun: float) -> None:
        print("bin/test: how long each part took, then its processor time, in the order in which they ended")
        for name, result in self.results.items():
            print(f"{clock(result['took'])} {clock(result['spent'])}  {name}{'' if result['verdict'] == 'passed' else ', ' + result['verdict']}")
        spent = resource.getrusage(resource.RUSAGE_CHILDREN)
        print(f"{clock(time.time() - begun)} {clock(spent.ru_utime + spent.ru_stime)}  in all")
        if self.skips:
            print("bin/test: skipped, since it isn't there:", *self.skips, sep="\n    ")
        for name, why in {**self.left_out, **self.lost}.items():
            print(f"bin/test: {name} isn't tried: {why}")
        if self.left_out:
            print("bin/test: bin/install PREFIX builds the programs and the library, `rt test` in crates/bson_tests the tests")
        for name in self.failed:
            print(f"bin/test: {name} failed", flush=True)


def run(plan: Plan, slots: int, anew: str = "") -> Report:
    """Has the steps run, shows what came of them, and returns it."""
    begun = time.time()
    with tempfile.TemporaryDirectory(prefix="bin-test-") as folder:
        work = Path(folder)
        make(plan, work, anew, slots)
        report = Report(plan, work)
        report.show(begun)
    return report


def git(*words: str, **environment: str) -> str:
    ran = subprocess.run(["git", *words], cwd=ROOT, stdout=subprocess.PIPE, env={**os.environ, **environment}, check=True)
    return ran.stdout.decode().strip()


def note_passed(report: Report) -> None:
    """Notes for bin/package what passed: the commit, the kit, the result, what was skipped, and the sums of what was built."""
    sums = subprocess.run(["sh", "-c", "root=$PWD me=bin/test && . bin/build.sh && . bin/release.sh && checksums"], cwd=ROOT, stdout=subprocess.PIPE, check=True)
    lines = [f"commit {git('rev-parse', 'HEAD')}", f"kit {checklist.said('rt', 'version').strip()}", f"bin/test {report.last()}"]
    lines += [f"skipped {it}" for it in report.skips] + [f"built {it}" for it in sums.stdout.decode().splitlines()]
    (ROOT / "out").mkdir(exist_ok=True)
    (ROOT / "out" / "passed").write_text("".join(it + "\n" for it in lines))


def run_whole(anew: str) -> int:
    """Runs all in this folder, in which nothing changes meanwhile."""
    report = run(of_whole(), checklist.PROCESSORS + WAITS, anew)
    status = int(bool(report.failed or report.lost))
    if not status:
        note_passed(report)
    print(report.last(), flush=True)
    return status


def is_fresh() -> bool:
    """Whether this is a clean clone in which nothing was built."""
    return not git("status", "--porcelain") and not list(ROOT.glob("crates/*/out"))


def commit_of_now(folder: Path) -> str:
    """The commit that is checked out, or, where something is in no commit, one of all that is here now, which no branch has."""
    head = git("rev-parse", "HEAD")
    index = {"GIT_INDEX_FILE": str(folder / "index")}
    git("read-tree", "HEAD", **index)
    git("add", "-A", **index)
    tree = git("write-tree", **index)
    if tree == git("rev-parse", "HEAD^{tree}"):
        return head
    who = {f"GIT_{it}_{of}": "bin-test" for it in ("AUTHOR", "COMMITTER") for of in ("NAME", "EMAIL")}
    return git("commit-tree", "-p", head, "-m", "What bin/test tried", tree, **who)


def take_built(tree: Path) -> None:
    """Takes what a run that passed has built, if it is of the commit that is still here."""
    passed = (tree / "out" / "passed").read_text()
    if f"commit {git('rev-parse', 'HEAD')}\n" not in passed or git("status", "--porcelain"):
        print("bin/test: something is in no commit, so bin/package has nothing to say of what passed", flush=True)
        return
    for out in tree.glob("crates/*/out"):
        name = out.parent.name
        to = ROOT / "crates" / name / "out"
        to.mkdir(parents=True, exist_ok=True)
        for it in ("rlib", name, f"{name}_tests", f"lib{name}.a", "baseline", "built", *(["incremental"] if name == "bsonraw_c" else [])):
            if (out / it).exists():
                shutil.rmtree(to / it, ignore_errors=True)
                (to / it).unlink(missing_ok=True)
                shutil.move(str(out / it), str(to / it))
    (ROOT / "out").mkdir(exist_ok=True)
    (ROOT / "out" / "passed").write_text(passed)


def run_copy(anew: str) -> int:
    """Runs all in a copy of what is here now, so that nothing changes under it; what the kit and the checks keep of other runs is shared."""
    (ROOT / "out" / "passed").unlink(missing_ok=True)
    git("worktree", "prune")
    with tempfile.TemporaryDirectory(prefix="bin-test-") as folder:
        tree = Path(folder) / "tree"
        git("worktree", "add", "-q", "--detach", str(tree), commit_of_now(Path(folder)))
        try:
            with subprocess.Popen([str(tree / "bin" / "test"), "--here", *anew.split()], stdin=subprocess.DEVNULL) as ran:
                status = ran.wait()
            if not status:
                take_built(tree)
        finally:
            end_all()
            shutil.rmtree(tree, ignore_errors=True)
            git("worktree", "prune")
    return status


def usage(why: str) -> None:
    print(f"bin/test: {why}\nusage: bin/test [--anew | --quick | --list | NAME..], or --dry-run before one of these", file=sys.stderr)
    sys.exit(2)


def run_some(plan: Plan, names: List[str]) -> int:
    """Runs what needs no proof, or what is tried of some names. A check that was asked for, and isn't tried, fails the run."""
    report = run(plan, checklist.PROCESSORS)
    status = int(bool(report.failed or report.lost or plan.asked_for & plan.left_out.keys()))
    what = f"what is tried of {' '.join(names)}" if names else "what needs no proof"
    other = "all that has to pass is tried by bin/test with no name" if names else "nothing is proved"
    print(f"bin/test: {what}: {report.last()}; {other}", flush=True)
    return status


def show_list() -> None:
    for check in checklist.read()[1].values():
        print(f"{check.name:<16}", " ".join(sorted(check.groups)) or "-", " ".join(check.needs) or "-", sep="\t")


def main(words: List[str]) -> int:
    given = argparse.ArgumentParser(add_help=False, allow_abbrev=False)
    for option in ("--anew", "--quick", "--list", "--here", "--dry-run", "-h", "--help"):
        given.add_argument(option, action="store_true")
    given.add_argument("names", nargs="*")
    given.error = usage  # type: ignore[method-assign]
    options = given.parse_args(words)
    kind = [it for it in ("anew", "quick", "list", "names") if getattr(options, it)]
    if options.help or options.h or len(kind) > 1 or "" in options.names or len(words) != len(set(words)):
        usage("it takes one of these")
    for it in (signal.SIGTERM, signal.SIGHUP, signal.SIGINT):
        signal.signal(it, end)
    anew = "--anew" if options.anew else ""
    try:
        if options.list:
            show_list()
            return 0
        if options.dry_run:
            plan = of_names(options.names) if options.names else of_quick() if options.quick else of_whole()
            subprocess.run(["make", "-n", "-f", "-"], input=makefile(plan), text=True, cwd=ROOT)
            for it, why in plan.left_out.items():
                print(f"bin/test: {it} isn't tried: {why}")
            return 0
        if options.quick or options.names:
            return run_some(of_quick() if options.quick else of_names(options.names), options.names)
        if options.here or os.environ.get("CI") == "true" and is_fresh():
            # (`rt ci` has to run in the fresh clone itself there, which nobody changes)
            return run_whole(anew)
        return run_copy(anew)
    finally:
        end_all()


if __name__ == "__main__":
    sys.exit(main(sys.argv[1:]))
