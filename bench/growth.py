#!/usr/bin/env python3
"""How the cost of the calls of daily use grows with the bytes, the keys and the levels of a document, and what the worst known cost.

usage: growth.py PREFIX FOLDER      PREFIX: where bin/install put header and library; FOLDER: for documents and programs

Writes FOLDER/growth.tsv, a line a call and document: series, how many, call, instructions, nanoseconds of the processor; and
FOLDER/worst.tsv: document, call, seconds of the processor, MiB over what was there before. FOLDER/exponents.tsv has series, call, and the
exponents of instructions and of time, of which the page has the greatest of some calls. An exponent is the slope of the cost over how
many, both as logarithms, fitted to the documents that are large enough for the cost of a call itself not to count.
"""
import math
import os
import random
import struct
import subprocess
import sys
from concurrent.futures import ThreadPoolExecutor
from pathlib import Path

import documents
from callgrind import counted
from documents import array, boolean, datetime, document, double, embedded, int32, int64, oid, rbytes, string

HERE = Path(__file__).resolve().parent
MIB = 1 << 20


# ---- documents: each series makes one of this many bytes, keys or levels ----

def record(rng, number):
    """One of 200 bytes, of many kinds, over three levels."""
    place = [("city", string("Zürich")), ("at", array([double(rng.random()), double(rng.random())]))]
    return embedded([
        ("_id", oid(rbytes(rng, 12))), ("name", string(f"user_{number}")), ("age", int32(rng.randrange(100))), ("id", int64(rng.randrange(1 << 60))),
        ("score", double(rng.random())), ("at", datetime(1420070400000 + number)), ("on", boolean(number % 2)), ("none", documents.NULL),
        ("tags", array([string("one"), string("two")])), ("place", embedded(place))])


def records(size):
    rng = random.Random(1)
    made, left, number = [], size - 5, 0
    while True:
        pair = f"r{number:06}", record(rng, number)
        left -= 2 + len(pair[0]) + len(pair[1][1])
        if left < 0 and made:
            return document(made)
        made.append(pair)
        number += 1


def one_text(size):
    return document([("text", string(documents.prose(random.Random(2), size - 16) if size < 4096 else long_prose(size - 16)))])


def long_prose(size):
    part = documents.prose(random.Random(2), 4000) + " "
    return (part * (size // len(part) + 1))[:size]


def keys(count):
    names = [f"k{number:06}" for number in range(count)]
    random.Random(3).shuffle(names)
    return document([(name, int32(number)) for number, name in enumerate(names)])


def levels(count):
    """Documents in one another, with an int32 in the innermost."""
    inner = document([("a", int32(1))])
    lengths = [len(inner) + 8 * outer for outer in range(count)]
    heads = b"".join(struct.pack("<i", length) + b"\x03a\0" for length in reversed(lengths[1:]))
    return heads + inner + bytes(count - 1)


SIZES = [1 << power for power in (10, 12, 14, 16, 18, 20, 22, 24)]
COUNTS = [1, 10, 100, 1000, 10_000, 100_000]
# what is made, of how many, and from which one on the exponent is fitted
SERIES = {
    "bytes": (records, SIZES, 1 << 14),
    "one text": (one_text, SIZES, 1 << 14),
    "keys": (keys, COUNTS, 1000),
    "levels": (levels, COUNTS, 1000),
}

# the series that the page has, and rows of it, each with the calls of growth.c of which it has the greatest
SHOWN = "bytes", "keys", "levels"
CALLS = {
    "`bsonraw_iter_next`, `bsonraw_iter_find_descendant`, `bsonraw_iter_recurse`": ("next", "find", "walk"),
    "`bsonraw_flatten`, `bsonraw_first_fault`, `bsonraw_buffer_append`": ("flatten", "first_fault", "build"),
    "`bsonraw_check`, `bsonraw_canonical`": ("check", "form"),
    "with a key repeated": ("form_repeated",),
    "`bsonraw_json`, `bsonraw_from_json`": ("json", "from_json"),
}

# ---- measuring ----


def timed(program, file):
    said = subprocess.run([program, file, "clock"], check=True, stdout=subprocess.PIPE, text=True).stdout
    return {name: float(time) for name, time in (line.split("\t") for line in said.splitlines())}


def measure(program, folder):
    """Returns instructions and nanoseconds by series, how many and call."""
    files = {}
    for series, (make, counts, _) in SERIES.items():
        for count in counts:
            files[series, count] = folder / f"{series.replace(' ', '_')}_{count}.bson"
            files[series, count].write_bytes(make(count))
    with ThreadPoolExecutor(max(1, (os.cpu_count() or 2) - 1)) as pool:
        counts = dict(zip(files, pool.map(lambda it: counted([program, it, "once"], it.with_suffix(".out")), files.values())))
    times = {place: timed(program, file) for place, file in files.items()}
    return {(*place, call): (counts[place][f"op_{call}"], time) for place in files for call, time in times[place].items()}


def slope(points):
    """The slope of the line that fits these logarithms best."""
    xs, ys = ([math.log(it) for it in part] for part in zip(*points))
    x, y = sum(xs) / len(xs), sum(ys) / len(ys)
    return sum((a - x) * (b - y) for a, b in zip(xs, ys)) / sum((a - x) ** 2 for a in xs)


def exponent(figures, series, call, part):
    """Of instructions or of time; `None` where the call isn't measured on more than one of these documents."""
    _, counts, first = SERIES[series]
    points = [(count, figures[series, count, call][part]) for count in counts if count >= first and (series, count, call) in figures]
    return slope(points) if len(points) > 1 else None


def rows(figures):
    """The exponents of instructions and of time in each series, the greatest of some calls."""
    for label, calls in CALLS.items():
        each = [[[exponent(figures, series, call, part) for call in calls] for part in (0, 1)] for series in SHOWN]
        cells = ["; ".join(f"{max(it):.2f}" for it in parts) if None not in parts[0] else "" for parts in each]
        yield f"| {label} | {' | '.join(cells)} |"


def put_exponents(figures, out):
    """A line a series and call: both exponents."""
    for series in SERIES:
        for call in sum(CALLS.values(), ()):
            both = [exponent(figures, series, call, part) for part in (0, 1)]
            if both[0] is not None:
                print(series, call, *(f"{it:.3f}" for it in both), sep="\t", file=out)


# ---- the worst known: how the page says them, and what worst.c is given ----

ALL = "2147483647"
WORST = {
    "174,000 random keys of four bytes, 1 MB": ("random 1044005 4", ALL),
    "as many after ten pairs that share marks": ("sorted 1044005 4", ALL),
    "as many that share the last bits of their hashes": ("crowded", ALL),
    "as many before 180 that crowd the table": ("late 1044005 4", ALL),
    "3,143,038 keys by chance": ("random 16777216 1", ALL),
    "after ten pairs that share marks": ("sorted 16777216 1", ALL),
    "before 180 that crowd the table": ("late 16777216 1", ALL),
    "documents in one another": ("levels 1", ALL),
    "each with a key twice": ("twins", ALL),
    "levels of 25 keys": ("levels 25", ALL),
    "levels of 129 keys": ("levels 129", ALL),
    "levels of 1,025 keys": ("levels 1025", ALL),
    "within `max_depth` 100": ("levels 1025", "100"),
    "levels of 16,385 keys": ("levels 16385", ALL),
}
# those that the page has; the calls, of which it leaves out the first
SHOWN_WORST = "3,143,038 keys by chance", "before 180 that crowd the table", "levels of 1,025 keys", "within `max_depth` 100"
OF_WORST = ("first_fault", "check", "form", "form_repeated")


def worst(program, folder):
    """Seconds and MiB of each call by document."""
    generator, chosen = folder / "worst", folder / "chosen_keys"
    subprocess.run(["gcc", "-O2", "-o", generator, HERE / "worst.c"], check=True)
    subprocess.run(["gcc", "-O2", "-ffreestanding", "-nostdlib", "-static", "-o", chosen, HERE.parent / "checks" / "chosen_keys.c"], check=True)
    for name, (words, depth) in WORST.items():
        file = folder / "worst.bson"
        with open(file, "wb") as out:
            subprocess.run([chosen] if words == "crowded" else [generator, *words.split()], stdout=out, check=True)
        runs = [
            subprocess.run([program, file, "memory", call, depth], check=True, stdout=subprocess.PIPE, text=True).stdout for call in OF_WORST]
        yield name, [tuple(map(float, it.split())) or None for it in runs]


def worst_rows(found):
    for name in SHOWN_WORST:
        figures = found[name][1:]
        yield f"| {name} | {' | '.join(f'{it[0]:.2f}; {it[1]:.0f}' if it else '' for it in figures)} |"


def tables(prefix, folder):
    """Measures, and returns the rows of both tables."""
    folder.mkdir(parents=True, exist_ok=True)
    program = folder / "growth"
    library = prefix / "lib" / "libbsonraw.a"
    subprocess.run(["gcc", "-O2", "-I", prefix / "include", "-o", program, HERE / "growth.c", library], check=True)
    found = dict(worst(program, folder))
    with open(folder / "worst.tsv", "w") as out:
        for name, figures in found.items():
            for call, it in zip(OF_WORST, figures):
                print(name, call, *(it or ()), sep="\t", file=out)
    figures = measure(program, folder)
    with open(folder / "growth.tsv", "w") as out:
        for (series, count, call), (instructions, time) in figures.items():
            print(series, count, call, instructions, f"{time:.0f}", sep="\t", file=out)
    with open(folder / "exponents.tsv", "w") as out:
        put_exponents(figures, out)
    return list(rows(figures)), list(worst_rows(found))


def main(prefix, folder):
    for table in tables(Path(prefix), Path(folder)):
        print(*table, sep="\n", end="\n\n")


if __name__ == "__main__":
    main(*sys.argv[1:])
