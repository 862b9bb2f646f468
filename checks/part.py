"""What make runs for a check of checks/list.txt, or for something that is built for checks: part.py NAME [COMMAND]. It leaves in the folder
WORK what came of it. checks/runner.py writes the makefile.

In the environment are, beside WORK: SHOWN, the number of the file on which bin/test shows what `rt ci` prints; and, as commands of the list
use them, anew, library, installed and proved.
"""

import json
import os
import resource
import subprocess
import sys
import time
from pathlib import Path

import checklist

WORK = Path(os.environ.get("WORK", "/nonexistent"))
SKIPPED = 77
"""The status of a check of which nothing could be tried, as automake and meson have it."""


def settle(name: str, verdict: str, took: float, skips: "list[str]") -> int:
    """Notes what came of a check. The status is 0 if what waits for it may go on."""
    spent = resource.getrusage(resource.RUSAGE_CHILDREN)
    result = {"verdict": verdict, "took": took, "spent": spent.ru_utime + spent.ru_stime, "ended": time.time(), "skips": skips}
    (WORK / "results" / name).write_text(json.dumps(result))
    print(f"bin/test: {name} {verdict}", flush=True)
    return int(verdict == "failed")


def lacking(check: checklist.Check) -> "list[str]":
    """The tools that aren't there, of those without which nothing of it can be tried, with their packages."""
    tools = [checklist.read()[0][it] for it in check.tools()]
    quiet = {"stdout": subprocess.DEVNULL, "stderr": subprocess.DEVNULL}
    return [f"{it.name} ({it.package})" for it in tools if subprocess.run(["sh", "-c", it.is_there], **quiet).returncode]


def run(name: str, command: str) -> int:
    """Runs a command of the shell in the repository. It may note in the file SKIPS what it skips."""
    skips, begun = WORK / "skips" / name, time.time()
    skips.touch()
    status = subprocess.run(["sh", "-c", command], cwd=checklist.ROOT, stdin=subprocess.DEVNULL, env={**os.environ, "SKIPS": str(skips), "CHECK": name}).returncode
    verdict = {0: "passed", SKIPPED: "skipped"}.get(status, "failed")
    left_out = sorted(set(skips.read_text().splitlines()))
    if verdict == "skipped" and not left_out:
        left_out = [f"{name}: it doesn't say why"]
    return settle(name, verdict, time.time() - begun, left_out)


def prove(command: str) -> int:
    """Runs `rt ci` with all processors, shows what it prints as it comes, and notes each crate as it is proved, or kept of an earlier run."""
    begun, last = time.time(), ""
    shown = os.fdopen(int(os.environ["SHOWN"]), "w", closefd=False)
    # (a check takes least of the processors by itself, so there are as many as processors, and none is held back for its memory)
    how = {"cwd": checklist.ROOT, "env": {**os.environ, "RT_JOBS": str(checklist.PROCESSORS)}, "stdin": subprocess.DEVNULL}
    with subprocess.Popen(["sh", "-c", command], stdout=subprocess.PIPE, stderr=subprocess.STDOUT, text=True, errors="replace", **how) as ran:
        for line in ran.stdout:
            last = line.strip() or last
            print(line, end="", file=shown, flush=True)
            words = line.split()
            if words[:1] == ["rt:"] and (words[2:] == ["proved"] or words[2:4] == ["is", "kept:"]):
                note_proved(words[1])
    (WORK / "rt-ci").write_text(last)
    with open(os.environ["proved"], "a") as proved:
        print(".", file=proved)
    return settle("proofs", "failed" if ran.returncode else "passed", time.time() - begun, [])


def note_proved(crate: str) -> None:
    """Notes that a crate is proved; of a program first what its build made, as bin/install looks for that."""
    if crate in checklist.BUILT:
        in_shell(f"note_built {crate}")
    with open(os.environ["proved"], "a") as proved:
        print(crate, file=proved)


def in_shell(command: str) -> int:
    """Runs a command that has the functions of bin/build.sh and bin/release.sh."""
    head = f'root={checklist.ROOT} me=bin/test && . bin/build.sh && . bin/release.sh && '
    return subprocess.run(["sh", "-c", head + command], cwd=checklist.ROOT).returncode


def wait_for(crates: "list[str]") -> int:
    """Waits until these are proved, or `rt ci` has ended."""
    while True:
        proved = Path(os.environ["proved"]).read_text().split("\n")[:-1]
        if "." in proved or set(crates) <= set(proved):
            return int(not set(crates) <= set(proved))
        time.sleep(0.5)


def main(name: str, *words: str) -> int:
    if name == "wait":
        return wait_for(list(words))
    for it in ("MAKEFLAGS", "MFLAGS", "MAKELEVEL"):
        os.environ.pop(it, None)
    if words:
        return run(name, *words)
    check = checklist.read()[1][name]
    if name == "proofs":
        return prove(f"{check.command} {os.environ['anew']}")
    if tools := lacking(check):
        return settle(name, "skipped", 0, [f"{name}: {it}" for it in tools])
    note = checklist.note_of(check) if "kept" in check.needs else None
    if note and note.exists() and not os.environ["anew"]:
        print(f"bin/test: {name} passed before, over the same files")
        return settle(name, "passed", 0, [])
    status = run(name, check.command)
    if note and not status and json.loads((WORK / "results" / name).read_text())["skips"] == []:
        note.parent.mkdir(parents=True, exist_ok=True)
        note.touch()
    return status


if __name__ == "__main__":
    sys.exit(main(*sys.argv[1:]))
