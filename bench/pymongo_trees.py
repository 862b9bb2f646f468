#!/usr/bin/python3
"""bson.decode and bson.encode of Debian's python3-bson with its C extension, on the documents of documents.py.

usage: pymongo_bench.py DATA [check]

Lines of TSV as driver.c's, IMPL being "pymongo" and the operations:

    tree    bson.decode: bytes to a dict
    encode  bson.encode of that dict
    round   both

BB_SAMPLES samples (default 9), each of BB_MICROS microseconds (default 3000) or one call. The interpreter's collector is off while it
measures, as timeit does it. A document that it refuses to decode, as one nested too deep, has no line, and its error goes to stderr.
"""
import gc
import os
import sys
import time

import bson
from bson.codec_options import CodecOptions

# so that a Binary of subtype 4 comes back as it was
OPTIONS = CodecOptions(uuid_representation=4)
SAMPLES = int(os.environ.get("BB_SAMPLES") or 9)
WANT = int(os.environ.get("BB_MICROS") or 3000) * 1000


def least(run):
    best = None
    t = time.perf_counter_ns()
    run()
    calls = max(1, WANT // max(1, time.perf_counter_ns() - t))
    for _ in range(SAMPLES):
        t = time.perf_counter_ns()
        for _ in range(calls):
            run()
        t = (time.perf_counter_ns() - t) / calls
        best = t if best is None or t < best else best
    return best


def main(folder, mode=""):
    assert bson.has_c(), "python3-bson-ext is not installed"
    gc.disable()
    bad = False
    with open(f"{folder}/manifest.tsv") as f:
        rows = [line.rstrip("\n").split("\t") for line in f]
    for name, size, top, every, _ in rows:
        with open(f"{folder}/{name}.bson", "rb") as f:
            data = f.read()
        try:
            tree = bson.decode(data, OPTIONS)
            back = bson.encode(tree, False, OPTIONS)
        except Exception as e:  # noqa: BLE001
            print(f"pymongo: {name}: {type(e).__name__}: {str(e)[:100]}", file=sys.stderr)
            continue
        if back != data:
            print(f"pymongo: {name} does not come back unchanged", file=sys.stderr)
            bad = True
        if mode == "check":
            continue
        for op, run in (
            ("tree", lambda: bson.decode(data, OPTIONS)),
            ("encode", lambda: bson.encode(tree, False, OPTIONS)),
            ("round", lambda: bson.encode(bson.decode(data, OPTIONS), False, OPTIONS)),
        ):
            print("pymongo", op, name, every, size, f"{least(run):.2f}", SAMPLES, sep="\t", flush=True)
        gc.collect()
    return bad


if __name__ == "__main__":
    sys.exit(main(*sys.argv[1:]))
