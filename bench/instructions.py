#!/usr/bin/env python3
"""Instructions per element by callgrind: the same on a noisy machine as on a quiet one.

usage: instructions.py BUILD DATA OUT IMPL..        BUILD/IMPL being executables of driver.c; writes lines of TSV to OUT:
       IMPL  op  document  elements  instructions per call

Only what runs inside bb_OP is counted (--toggle-collect). BB_OPS and BB_DOCS as driver.c says.
"""
import os
import re
import subprocess
import sys
from concurrent.futures import ThreadPoolExecutor

# operation: documents, each with a number of calls
WANTED = {
    "frames": "tiny:100 typical:20 last_key:3 flat_wide:1 strings:1",
    "values": "tiny:100 typical:20 last_key:3 flat_wide:1 strings:1 strings_utf8:1",
    "values_noutf8": "typical:20 last_key:3 flat_wide:1 strings:1",
    "visit": "typical:20 deep:3 strings:1 array_big:1 nested_mixed:1",
    "visit_noutf8": "typical:20 deep:3 array_big:1",
    "get": "tiny:100 typical:20 last_key:3 flat_wide:1",
    "get_str": "typical:20",
    "validate": "typical:20 flat_wide:1 strings:1 array_big:1",
    "tree": "tiny:100 typical:20 last_key:3 flat_wide:1 deep:1 array_big:1",
    "round": "tiny:100 typical:20 last_key:3 flat_wide:1 deep:1 array_big:1",
    "rebuild": "tiny:100 typical:20 last_key:3 flat_wide:1 deep:1 array_big:1",
    "append": "1000000:1",
    "push": "1000000:1",
}
ALL_LEVELS = {"visit", "visit_noutf8", "validate", "tree", "round", "rebuild"}


def count(build, data, impl, op, doc, calls):
    words = ["valgrind", "--tool=callgrind", "--callgrind-out-file=/dev/null", f"--toggle-collect=bb_{op}",
             f"{build}/{impl}", impl, data, "once", op, doc, str(calls)]
    env = {**os.environ, "BB_DOCS": "tiny" if doc.isdigit() else doc}
    ran = subprocess.run(words, env=env, capture_output=True, text=True)
    found = re.search(r"Collected : (\d+)", ran.stderr)
    if ran.returncode or not found:
        print(f"icount: {impl} {op} {doc}: {ran.stderr[-300:]}", file=sys.stderr)
        return None
    if not ran.stdout.startswith("0 "):  # unsupported
        return None
    return int(found[1]) / int(calls)


def main(build, data, out, *impls):
    with open(f"{data}/manifest.tsv") as f:
        rows = {r[0]: r for r in (line.rstrip("\n").split("\t") for line in f)}
    ops, docs = ([it for it in os.environ.get(name, "").split(",") if it] for name in ("BB_OPS", "BB_DOCS"))
    counted = [(op, *it.split(":")) for op in WANTED if not ops or op in ops for it in WANTED[op].split()]
    jobs = [(impl, *it) for it in counted if not docs or it[1] in docs or it[1].isdigit() for impl in impls]
    with ThreadPoolExecutor(max(1, (os.cpu_count() or 2) - 1)) as pool:
        made = list(pool.map(lambda j: count(build, data, *j), jobs))
    with open(out, "w") as f:
        for (impl, op, doc, _), n in zip(jobs, made):
            if n is not None:
                elements = doc if doc.isdigit() else rows[doc][3 if op in ALL_LEVELS else 2]
                print(impl, op, doc, elements, f"{n:.0f}", sep="\t", file=f)


if __name__ == "__main__":
    main(*sys.argv[1:])
