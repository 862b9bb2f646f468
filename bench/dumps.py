#!/usr/bin/env python3
"""Dumps of 100 MB: what `bsonraw-dump` takes for them, and decoding them by MongoDB's package; of two fields what `pick` takes, and `json`
and jq.

usage: dumps.py PROGRAM CHECKED FOLDER      PROGRAM: bsonraw-dump; CHECKED: checked.c, compiled; FOLDER: for the dumps

Prints a line a dump and way: dump, way, seconds of the processor of each of ROUNDS, 12 if that isn't set, in which the ways take turns;
those of others take part in every fourth.
"""
import os
import random
import resource
import struct
import subprocess
import sys
import time
from pathlib import Path

import bson
from documents import boolean, document, int32, oid, rbytes, string, tweet

SIZE = 100_000_000
KINDS = 500  # this many documents of about 1,900 bytes, each again and again under another ObjectId
PATHS, FILTER = "created_at,user.screen_name", "{created_at, name: .user.screen_name}"  # two fields of these


def great(rng):
    made = [document(tweet(rng)) for _ in range(KINDS)]
    number = 0
    while True:
        it = made[number % KINDS]
        yield it[:9] + struct.pack("<IQ", number, number) + it[21:]
        number += 1


def small(_):
    """Of 65 bytes."""
    one = document([("_id", oid(bytes(12))), ("n", int32(7)), ("name", string("user_" + 15 * "0")), ("on", boolean(True))])
    at = one.index(b"user_") + 5
    number = 0
    while True:
        yield one[:9] + struct.pack("<IQ", number, number) + one[21:at] + b"%015d" % number + one[at + 15:]
        number += 1


def write(file, made):
    size = 0
    with open(file, "wb") as out:
        for it in made:
            out.write(it)
            size += len(it)
            if size >= SIZE:
                return


def spent():
    used = resource.getrusage(resource.RUSAGE_CHILDREN)
    return used.ru_utime + used.ru_stime


def by_program(program, file, *command):
    before = spent()
    subprocess.run([program, *command, file], stdout=subprocess.DEVNULL, stderr=subprocess.PIPE, check=True)
    return spent() - before


def by_jq(program, file):
    before = spent()
    with subprocess.Popen([program, "json", "--quiet", file], stdout=subprocess.PIPE) as texts:
        subprocess.run(["jq", "-c", FILTER], stdin=texts.stdout, stdout=subprocess.DEVNULL, check=True)
    return spent() - before


def by_package(file):
    before = time.process_time()
    with open(file, "rb") as dump:
        for _ in bson.decode_file_iter(dump):
            pass
    return time.process_time() - before


def in_memory(checked, file):
    return float(subprocess.run([checked, file], stdout=subprocess.PIPE, text=True, check=True).stdout)


def times_of(ways, others):
    """The times of each way."""
    times = {way: [] for way in [*ways, *others]}
    for number in range(int(os.environ.get("ROUNDS", "12"))):
        for way, run in [*ways.items(), *(() if number % 4 else others.items())]:
            times[way].append(run())
    return times


def main(program, checked, folder):
    for name, made in (("great", great), ("small", small)):
        file = Path(folder, f"{name}.bson")
        write(file, made(random.Random(5)))
        commands = "check", "unique", "list", "fields", "json"
        ways = {command: lambda command=command: by_program(program, file, command) for command in commands}
        ways["memory"] = lambda: in_memory(checked, file)
        others = {"decoded": lambda: by_package(file)}
        if name == "great":
            ways["pick"] = lambda: by_program(program, file, "pick", PATHS)
            others["jq"] = lambda: by_jq(program, file)
        for way, times in times_of(ways, others).items():
            print(name, way, *(f"{it:.3f}" for it in times), sep="\t", flush=True)
        file.unlink()


if __name__ == "__main__":
    main(*sys.argv[1:])
