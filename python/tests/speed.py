"""Measures the package beside MongoDB's own, in turns and in one run, and prints a table.

    speed.py [--seconds N] [--frame] [DOCUMENT..]

Each figure is the least of many short samples of the processor's time, so that other work of the machine counts little. --seconds is
for a row, 0.5 where it is left out. --frame makes a DataFrame of 1,000,000 documents, too, which needs pandas. A DOCUMENT is a file with one.
"""

import argparse
import gc
import itertools
import pickle
import random
import subprocess
import sys
import tempfile
import threading
import time
from collections import OrderedDict
from datetime import datetime, timedelta, timezone
from pathlib import Path
from typing import Any, Callable, Dict, List, Optional, Tuple

import bsonraw
from bsonraw import Binary, Decimal128, Int64, ObjectId, Regex, Timestamp

try:
    import bson
    from bson.binary import UuidRepresentation
    from bson.codec_options import CodecOptions
except ImportError as error:
    sys.exit(f"speed: MongoDB's package isn't there ({error}); Debian's is python3-bson-ext")
if not bson.has_c():
    sys.exit("speed: MongoDB's package is there without its C extension; Debian's is python3-bson-ext")

SAMPLE = 0.002


def typical(rng: random.Random) -> Dict[str, Any]:
    """A document of 89 elements of many kinds over five levels."""
    words = "then one that he by than out could each all no find his has of long way for when but people its have look".split()

    def text(count: int) -> str:
        return " ".join(rng.choice(words) for _ in range(count))

    def when() -> datetime:
        return datetime(2010, 1, 1, tzinfo=timezone.utc) + timedelta(milliseconds=rng.randrange(10**11))

    def user() -> Dict[str, Any]:
        name, place = f"user_{rng.randrange(10**7)}", rng.choice(["Zürich", "東京", "Oslo"])
        texts = {"name": text(5), "screen_name": name, "location": place, "description": text(25)}
        counts = {"url": None, "protected": False, "followers_count": rng.randrange(10**5), "friends_count": rng.randrange(10**4)}
        last = {"created_at": when(), "verified": False, "balance": Decimal128(rng.randbytes(15) + b"0")}
        return {"id": Int64(rng.randrange(2**40)), **texts, **counts, **last}

    tags = [{"text": rng.choice(words), "indices": [rng.randrange(50), rng.randrange(100)]} for _ in range(3)]
    begin = {"_id": ObjectId(rng.randbytes(12)), "created_at": when(), "id": Int64(rng.randrange(2**60))}
    texts = {"id_str": str(rng.randrange(10**18)), "text": text(45), "source": '<a href="https://example.org">Web</a>'}
    users = {"truncated": False, "in_reply_to_status_id": None, "user": user(), "in_reply_to_user": user()}
    lists = {
        "coordinates": {"type": "Point", "coordinates": [rng.uniform(0, 50), rng.uniform(0, 50)]},
        "entities": {"hashtags": tags, "urls": [], "user_mentions": []},
        "scores": [rng.random() for _ in range(8)],
        "history": [{"at": when(), "by": f"user_{rng.randrange(10**7)}"} for _ in range(4)],
    }
    counts = {"retweet_count": rng.randrange(500), "favorite_count": rng.randrange(500), "favorited": False}
    rare = {"filter": Regex("^user_[0-9]+$", "im"), "digest": rng.randbytes(32), "session": Binary(rng.randbytes(16), 4)}
    end = {"ts": Timestamp(rng.randrange(2**31), 61), "note": "naïve 😀 日本語 café", "lang": "ja"}
    return {**begin, **texts, **users, **lists, **counts, **rare, **end}


def plain(value: Any) -> Any:
    """The value without the kinds that have classes of their own."""
    if isinstance(value, dict):
        rare = (Binary, Decimal128, ObjectId, Regex, Timestamp)
        return {key: plain(inner) for key, inner in value.items() if not isinstance(inner, rare)}
    return list(map(plain, value)) if isinstance(value, list) else value


def documents() -> Dict[str, bytes]:
    whole = typical(random.Random(1))
    six = {"_id": 12345678901, "name": "user_123456", "age": 42, "score": 3.25, "ok": True, "none": None}
    twenty = {f"field_{number}": [number, number * 0.5, f"text {number}"][number % 3] for number in range(20)}
    dates = {f"d{year}": datetime(2000 + year, 1, 2, 3, 4, 5, 678000, timezone.utc) for year in range(10)}
    made = {"typical": whole, "typical, plain kinds alone": plain(whole), "six fields": six, "twenty fields": twenty, "ten dates": dates}
    return {name: bsonraw.encode(value) for name, value in made.items()}


def turns(calls: List[Tuple[Callable[[Any], Any], Any]], seconds: float) -> List[float]:
    """The least time of the processor of each call with its argument, in microseconds; they take turns."""
    clock = time.process_time
    counts, least = [], [9e9] * len(calls)
    for call, data in calls:
        call(data)
        start = clock()
        call(data)
        counts.append(max(1, int(SAMPLE / (clock() - start))))
    end = clock() + seconds
    while clock() < end:
        for number, ((call, data), count) in enumerate(zip(calls, counts)):
            start = clock()
            for _ in range(count):
                call(data)
            least[number] = min(least[number], (clock() - start) / count * 1e6)
    return least


def row(name: str, ours: float, theirs: Optional[float] = None) -> None:
    beside = "| |" if theirs is None else f"{theirs:8.2f} | {ours / theirs:.2f} |"
    print(f"| {name:<48} | {ours:8.2f} | {beside}", flush=True)


def codecs(made: Dict[str, bytes], seconds: float) -> None:
    for name, data in made.items():
        row(f"decode, {name}", *turns([(bsonraw.decode, data), (bson.decode, data)], seconds))
    for name, data in made.items():
        ours, theirs = bsonraw.decode(data), bson.decode(data)
        if bsonraw.encode(ours) != data:
            sys.exit(f"speed: {name} doesn't come back as it was")
        row(f"encode, {name}", *turns([(bsonraw.encode, ours), (bson.encode, theirs)], seconds))


def reads(data: bytes, seconds: float) -> None:
    def found(data: bytes) -> Any:
        return bsonraw.find(data, "entities.hashtags.2.indices.1").value

    def indexed(data: bytes) -> Any:
        return bson.decode(data)["entities"]["hashtags"][2]["indices"][1]

    if found(data) != indexed(data):
        sys.exit("speed: a path leads to another value")
    row("find a path of five steps; decode and index", *turns([(found, data), (indexed, data)], seconds))
    calls: Dict[str, Callable[[Any], Any]] = {
        "canonical": bsonraw.canonical,
        "check": bsonraw.check,
        "first_fault": bsonraw.first_fault,
        "elements": lambda data: [None for _ in bsonraw.elements(data)],
        "walk": lambda data: [None for _ in bsonraw.walk(data)],
    }
    for name, least in zip(calls, turns([(call, data) for call in calls.values()], seconds)):
        row(f"{name}, typical", least)


def rows(seconds: float) -> None:
    """Documents of which a part is dear."""
    rng = random.Random(3)
    words = ["Zürich", "東京", "Москва", "Αθήνα", "القاهرة", "Oslo"]

    def text(length: int, words: List[str] = words) -> str:
        made = ""
        while len(made) < length:
            made += rng.choice(words) + " "
        return made[:length]

    made: Dict[str, Any] = {
        "50 texts of six letters, of which one isn't ASCII": {f"t{number}": "Zürich" for number in range(50)},
        "50 texts of 130 letters in several scripts": {f"t{number}": text(130) for number in range(50)},
        "50 texts of 130 letters in Japanese": {f"t{number}": text(130, ["日本語のテキスト、", "です。"]) for number in range(50)},
        "100 keys of 63 letters": {f"{number:063}": number for number in range(100)},
        "10,000 ints of 32 bits in an array": {"a": [rng.randrange(-(2**31), 2**31) for _ in range(10_000)]},
    }
    for name, value in made.items():
        data = bsonraw.encode(value)
        row(f"decode, {name}", *turns([(bsonraw.decode, data), (bson.decode, data)], seconds))
    fresh = [bsonraw.encode({f"{rng.randrange(10**12)}": number for number in range(5_000)}) for _ in range(100)]

    def each(read: Callable[[Any], Any]) -> Callable[[Any], Any]:
        documents = itertools.cycle(fresh)
        return lambda _: read(next(documents))

    row("decode, 5,000 keys that are in no other document", *turns([(each(bsonraw.decode), None), (each(bson.decode), None)], seconds))
    inner = b"\x0a\0" * 8_000_000
    inner = (len(inner) + 5).to_bytes(4, "little") + inner + b"\0"
    data = (len(inner) + 8).to_bytes(4, "little") + b"\4a\0" + inner + b"\0"
    row("decode, 8,000,000 nulls in an array", *turns([(bsonraw.decode, data), (bson.decode, data)], max(seconds, 5)))
    ordered = OrderedDict((f"field_{number}", [number, number * 0.5, f"text {number}"][number % 3]) for number in range(20))
    row("encode, an OrderedDict of twenty fields", *turns([(bsonraw.encode, ordered), (bson.encode, ordered)], seconds))
    row("encode, an OrderedDict; a dict by MongoDB's", *turns([(bsonraw.encode, ordered), (bson.encode, dict(ordered))], seconds))
    others(rng, seconds)


def others(rng: random.Random, seconds: float) -> None:
    """Values of other classes."""
    standard = CodecOptions(uuid_representation=UuidRepresentation.STANDARD)
    data = bsonraw.encode({"a": [Binary(rng.randbytes(16), 4) for _ in range(1000)]})

    def ours(data: bytes) -> Any:
        return bsonraw.decode(data, uuid=True)

    def theirs(data: bytes) -> Any:
        return bson.decode(data, standard)

    if ours(data) != theirs(data):
        sys.exit("speed: UUIDs are others")
    row("decode, 1,000 UUIDs", *turns([(ours, data), (theirs, data)], seconds))

    def in_their_classes(data: bytes) -> Any:
        return bsonraw.decode(data, types="bson")

    data = bsonraw.encode(typical(random.Random(1)))
    row('decode, typical, types="bson"', *turns([(in_their_classes, data), (bson.decode, data)], seconds))


def texts(data: bytes, seconds: float) -> None:
    row("to_json, typical", *turns([(bsonraw.to_json, data)], seconds))
    try:
        from bson import json_util
    except ImportError as error:
        print(f"json_util isn't there ({error}); Debian's is in python3-pymongo")
        return

    def dumps(value: Any) -> str:
        return json_util.dumps(value, json_options=json_util.RELAXED_JSON_OPTIONS)

    value = bson.decode(data)
    row("to_json; json_util.dumps of decoded values", *turns([(bsonraw.to_json, data), (dumps, value)], seconds))

    def loads(text: str) -> Any:
        return bson.encode(json_util.loads(text))

    text = bsonraw.to_json(data)
    row("from_json; json_util.loads, and its encoding", *turns([(bsonraw.from_json, text), (loads, text)], seconds))
    row("loads; json_util.loads", *turns([(bsonraw.loads, text), (json_util.loads, text)], seconds))


def pickles(data: bytes, seconds: float) -> None:
    def there_and_back(value: Any) -> Any:
        return pickle.loads(pickle.dumps(value))

    ours, theirs = bsonraw.decode(data), bson.decode(data, CodecOptions(tz_aware=True))
    if there_and_back(ours) != ours:
        sys.exit("speed: values come back from a pickle as others")
    row("pickle.dumps and loads of decoded values, typical", *turns([(there_and_back, ours), (there_and_back, theirs)], seconds))
    print(f"| bytes of that pickle | {len(pickle.dumps(ours))} | {len(pickle.dumps(theirs))} | |")


def frame() -> None:
    """A DataFrame of 1,000,000 documents of five fields over two levels, each way in a process of its own, whose peak of memory is its own,
    too: what getrusage says begins with this one's."""
    paths = ["_id", "name", "user.age", "user.score", "on"]
    ways = {
        "columns(paths=, typed=True)": f"bsonraw.columns(dump, paths={paths}, typed=True)",
        "columns(paths=)": f"bsonraw.columns(dump, paths={paths})",
        "columns": "bsonraw.columns(dump)",
        "MongoDB's decode_all, json_normalize": f"pandas.json_normalize(bson.decode_all(dump))[{paths}]",
    }
    with tempfile.TemporaryDirectory() as folder:
        path = Path(folder, "dump.bson")
        with open(path, "wb") as dump:
            for number in range(1_000_000):
                user = {"age": number % 90, "score": number / 2}
                dump.write(bsonraw.encode({"_id": number, "name": f"user_{number}", "user": user, "on": number % 3 == 0}))
        for name, way in ways.items():
            code = (
                "import bson, bsonraw, pandas, time\n"
                "def peak(): return int(open('/proc/self/status').read().split('VmHWM:')[1].split()[0])\n"
                f"dump = open({str(path)!r}, 'rb').read()\n"
                "before = peak()\n"
                f"begun = time.process_time(); frame = pandas.DataFrame({way}); spent = time.process_time() - begun\n"
                "print(f'{spent:.2f} s of a processor, {(peak() - before) / 2**20:.2f} GiB')"
            )
            done = subprocess.run([sys.executable, "-c", code], stdout=subprocess.PIPE, check=True)
            print(f"| a DataFrame of 1,000,000 documents, by {name} | {done.stdout.decode().strip()} |", flush=True)


def shared(work: Callable[[bytes], Any], made: List[bytes], count: int) -> Tuple[float, float]:
    """The seconds, and those of processors, that this many threads take for these documents."""
    todo = list(made)

    def run() -> None:
        while todo:
            try:
                data = todo.pop()
            except IndexError:
                return
            work(data)

    threads = [threading.Thread(target=run) for _ in range(count)]
    start, spent = time.perf_counter(), time.process_time()
    for thread in threads:
        thread.start()
    for thread in threads:
        thread.join()
    return time.perf_counter() - start, time.process_time() - spent


def threads() -> None:
    value = plain(typical(random.Random(2)))
    made = [bsonraw.encode({f"k{number}": value for number in range(size)}) for size in range(400, 600)]
    dump = b"".join(made)
    views = [document for _, document in bsonraw.documents(dump)]
    for name, work in (("check", bsonraw.check), ("canonical", bsonraw.canonical)):
        rounds = [(shared(work, views, 1), shared(work, views, 4)) for _ in range(5)]
        one, four = (min(times[part] for times in rounds) for part in (0, 1))
        print(f"| {name}, {len(dump) >> 20} MiB in {len(made)} documents, s: four threads; one | {four[0]:.3f} | {one[0]:.3f} | {four[0] / one[0]:.2f} |")
        print(f"| seconds of processors | {four[1]:.3f} | {one[1]:.3f} | {four[1] / one[1]:.2f} |", flush=True)


def main() -> None:
    parser = argparse.ArgumentParser(description=__doc__, formatter_class=argparse.RawDescriptionHelpFormatter)
    parser.add_argument("documents", nargs="*", type=Path, metavar="DOCUMENT")
    parser.add_argument("--seconds", type=float, default=0.5, metavar="N")
    parser.add_argument("--frame", action="store_true")
    options = parser.parse_args()
    made = {path.stem: path.read_bytes() for path in options.documents} or documents()
    gc.disable()
    print(f"| microseconds a call, Python {sys.version.split()[0]} | bsonraw {bsonraw.__version__} | bson {bson._version.version if hasattr(bson, '_version') else ''} | of it |")
    print("|---|--:|--:|--:|")
    codecs(made, options.seconds)
    if not options.documents:
        rows(options.seconds)
        reads(made["typical"], options.seconds)
        texts(made["typical"], options.seconds)
        pickles(made["typical"], options.seconds)
        threads()
    if options.frame:
        frame()


if __name__ == "__main__":
    main()
