#!/usr/bin/env python3
"""recovery.py PROGRAM [COUNT] [SEED]: damages made dumps of COUNT documents in many ways, and says of each how many documents lie whole in
it, by how it was made, how many of these PROGRAM sound --resync --alone ALONE keeps in OUTPUT and ALONE, and how many others it writes: changed
ones, which have the first element of a document of the dump or all that follows it, and made up ones, in OUTPUT and in ALONE. Fails where it
keeps too few or makes up too many in OUTPUT, or a place is left out."""
import random, subprocess, sys, tempfile
from collections import Counter
from recovery_dumps import documents, pieces
from recovery_kinds import kinds

# Of 1000 that lie whole these are kept at least. Of the others 995: after bytes that end as a key does, and in a binary that goes on into other
# documents, some are lost.
LEAST = {
    "cuts": 985,
    "two dumps in turn, by 4 KiB": 960,
    "two dumps in turn, by 16 KiB": 985,
    "pages of 64 KiB in any order": 990,
    "CR is gone": 940,
}

# Of 1000 that are kept this many may be made up in OUTPUT; of the others 1. Of documents in texts any number may.
MOST = {
    "documents in texts, every tenth length negative": None,
    "every fourth length that of another": 3,
}


def marks(documents):
    """By what a document is known that was changed: its first element, which is an identifier, or all that follows that."""
    return {d[4:21] for d in documents} | {d[21:] for d in documents if len(d) > 60}


def others_of(data, whole, known):
    """The documents of an output that don't lie whole in the dump: how often each that does is missing, and how many are changed or made up."""
    others = Counter(pieces(data))
    others.subtract(whole)
    changed = sum(n for d, n in others.items() if n > 0 and (d[4:21] in known or d[21:] in known))
    return Counter({d: -n for d, n in others.items() if n < 0}), changed, sum(n for n in others.values() if n > 0) - changed


def tried(program, name, dump, known):
    """What a run keeps of what lies whole, what it changes, what it makes up in OUTPUT and in ALONE, and whether it looked at each place."""
    with open(name, "wb") as file:
        file.write(dump.data)
    run = subprocess.run([program, "sound", "--resync", "--alone", name + ".alone", name], capture_output=True)
    with open(name + ".alone", "rb") as file:
        alone = file.read()
    whole = dump.whole()
    known = known | marks(whole) | marks(getattr(dump, "documents", []))
    missing, changed, made = others_of(run.stdout, Counter(whole), known)
    missing, changed_alone, made_alone = others_of(alone, missing, known)
    is_whole = b"not each place" not in run.stderr and run.returncode in (0, 1, 3)
    return len(whole), len(whole) - sum(missing.values()), changed + changed_alone, made, made_alone, is_whole


def main(program, count="2000", seed="1"):
    r = random.Random(int(seed))
    docs = documents(r, int(count))
    known = marks(docs)
    failed = 0
    with tempfile.TemporaryDirectory() as folder:
        for kind, dump in kinds(docs, r):
            whole, kept, changed, made, made_alone, is_whole = tried(program, folder + "/dump.bson", dump, known)
            most = MOST.get(kind, 1)
            is_bad = not is_whole or (whole - kept) * 1000 > whole * (1000 - LEAST.get(kind, 995)) + 1000 or (most is not None and made * 1000 > kept * most + 2000)
            failed |= is_bad
            print(f"{'FAILED ' if is_bad else ''}{kind}: {whole} lie whole, {kept} kept, {changed} changed, {made} made up in OUTPUT, {made_alone} in ALONE", flush=True)
    return int(failed)


if __name__ == "__main__":
    sys.exit(main(*sys.argv[1:]))
