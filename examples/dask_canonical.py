#!/usr/bin/env python3
"""Brings dumps of BSON documents to their canonical form and leaves out repeated documents, on the workers of Dask.

    dask_canonical.py DUMP.. -o FOLDER                  on this machine, a worker for each processor
    dask_canonical.py DUMP.. -o FOLDER --workers 0      in this process alone, without Dask; --threads N for N threads
    dask_canonical.py DUMP.. -o FOLDER --scheduler tcp://10.0.0.1:8786

A DUMP is a file of documents, one after the other, or a folder, below which all *.bson are taken. FOLDER gets a dump of
the same name for each, and report.json: how many documents there are, how many were canonical before, how many repeat an
earlier one of any dump, and each fault with its file and offset. The result is the same, byte for byte, however many
workers there are and whichever of them die.

The package bsonraw has to be on each machine where workers run. Workers on several machines see DUMP and FOLDER under the same
paths.

1. A dump is cut into partitions at the ends of documents, for which only the documents' lengths are read.
2. Partitions are independent: each is brought to its canonical forms by one call. A form that is its own document is left in the
   dump; the others go to a file of the partition. Where each form lies, and its hash, go to a second one.
3. Forms are sorted into buckets by their hashes. Of those that share a hash the first one of each BLAKE2b of 32 bytes, in the
   order of the dumps, is kept. Two forms with one digest count as equal; no two unequal texts with one are known.
4. What each partition keeps goes to its place in the result, which is known by the lengths.

A task whose worker dies is run again on another worker, and writes the same bytes to the same place. One process needs none
of these files: its threads bring partitions to their forms, and it writes what it keeps in order, and compares those of one
hash. No dump may change meanwhile.
"""

import argparse
import errno
import hashlib
import json
import mmap
import os
import shutil
import sys
import time
import uuid
from array import array
from bisect import bisect_right
from collections import Counter, deque
from concurrent.futures import Future, ThreadPoolExecutor
from contextlib import contextmanager
from functools import lru_cache
from itertools import chain
from operator import sub
from pathlib import Path
from typing import (
    Any,
    BinaryIO,
    Callable,
    Container,
    Deque,
    Dict,
    Iterable,
    Iterator,
    List,
    NamedTuple,
    Optional,
    Sequence,
    Set,
    Tuple,
    Union,
)

try:
    import bsonraw
except ImportError as error:
    raise SystemExit(f"dask_canonical: the package bsonraw isn't there ({error}): see docs/PYTHON.md") from None

PARTITION = 32 << 20
BLOCK = 1 << 20  # what is read and brought to its forms at a time, so that it stays in a processor's cache
AT_ONCE = 256 << 10  # what is written at a time
BUCKETS = 16
bytes(4 * BLOCK)  # glibc keeps freed memory of the size that it has seen: else that of each block is mapped and cleared anew

Fault = Tuple[int, str]
Formed = Tuple[bsonraw.Forms, List[Fault]]
"""The canonical forms of a block, and its faults."""


class Dump(NamedTuple):
    path: str
    name: str
    """its name below the folder of the result"""
    size: int


class Part(NamedTuple):
    """A partition: documents of a dump, in blocks."""

    dump: Dump
    ends: Tuple[int, ...]
    """where its blocks begin, and the last one ends"""
    files: str
    """what the names of its own files begin with"""

    @property
    def behind(self) -> int:
        """Where its own forms are said to begin: after the dump, and not right after it, so that no run is of both files."""
        return self.dump.size + 1


class Count(NamedTuple):
    """What came of the documents of a partition: how many there are, how many bytes their forms have, and how many of the
    forms fall into each bucket."""

    documents: int
    canonical: int
    size: int
    buckets: List[int]
    faults: List[Fault]


class Repeats(NamedTuple):
    """The forms of a partition that repeat an earlier one: their numbers, and how many bytes they have."""

    numbers: "array[int]"
    size: int


# ---- the tasks -------------------------------------------------------------------------------------------------------


def mapped(path: str) -> Union[bytes, mmap.mmap]:
    """The bytes of a file, which are read where they are looked at."""
    with open(path, "rb") as file:
        if os.fstat(file.fileno()).st_size == 0:
            return b""
        return mmap.mmap(file.fileno(), 0, access=mmap.ACCESS_READ)


def said(error: bsonraw.BsonError) -> str:
    return f"{error.kind.name}: {error}"


def cut(path: str, size: int) -> Tuple[List[int], Optional[Fault]]:
    """Where the blocks of a dump begin and the last one ends, each of this many bytes or a little more, and why that is before the
    end of its file."""
    ends, error = bsonraw.partitions(mapped(path), size)
    return ends, None if error is None else (ends[-1], f"{said(error)}; the rest isn't read")


def digest(form: Union[bytes, memoryview]) -> bytes:
    return hashlib.blake2b(form, digest_size=32).digest()


def formed(path: str, start: int, end: int) -> Formed:
    """The forms of a block. While they are made, another thread may run."""
    with open(path, "rb") as file:
        file.seek(start)
        forms = bsonraw.canonical_all(file.read(end - start), before=start)
    return forms, [(offset, said(error)) for offset, error in forms.faults]


@contextmanager
def written(path: str) -> Iterator[BinaryIO]:
    """A new file, which has its name once it is whole."""
    unfinished = f"{path}.{uuid.uuid4().hex}"
    with open(unfinished, "wb", buffering=AT_ONCE) as out:
        yield out
    os.replace(unfinished, path)


def bucketed(hashes: Iterable[int]) -> List[Tuple["array[int]", "array[int]"]]:
    """The numbers of the hashes of each bucket, and the hashes."""
    buckets = [(array("Q"), array("Q")) for _ in range(BUCKETS)]
    for number, mark in enumerate(hashes):
        numbers, marks = buckets[mark % BUCKETS]
        numbers.append(number)
        marks.append(mark)
    return buckets


def canonise(part: Part) -> Count:
    """Writes those forms of a partition that aren't in its dump, and where each form lies; then the forms' numbers and hashes by
    bucket."""
    offsets, sizes, hashes = array("Q"), array("Q"), array("Q")
    faults: List[Fault] = []
    canonical = 0
    end = part.behind
    with written(f"{part.files}.forms") as out:
        for block in zip(part.ends, part.ends[1:]):
            forms, wrong = formed(part.dump.path, *block)
            ends = forms.ends.tolist()
            starts = [0, *ends]
            own = bytes(forms.own)
            first = len(offsets)
            offsets.frombytes(bytes(forms.starts))
            sizes.extend(map(sub, ends, starts))
            hashes.frombytes(bytes(forms.hashes))
            faults += wrong
            canonical += forms.canonical
            number = own.find(0)
            while number >= 0:
                offsets[first + number] = end
                end += out.write(forms.data[starts[number] : ends[number]])
                number = own.find(0, number + 1)
    buckets = bucketed(hashes)
    with written(f"{part.files}.index") as out:
        for column in (offsets, sizes, *chain.from_iterable(buckets)):
            column.tofile(out)
    counts = [len(numbers) for numbers, _ in buckets]
    return Count(len(offsets) + len(faults), canonical, sum(sizes), counts, faults)


def numbers_of(part: Part) -> memoryview:
    """The numbers in the index of a partition."""
    return memoryview(mapped(f"{part.files}.index")).cast("Q")


def places_of(part: Part, count: Count) -> Tuple[memoryview, memoryview]:
    """Where each form of a partition lies, and how long it is."""
    numbers, total = numbers_of(part), sum(count.buckets)
    return numbers[:total], numbers[total : 2 * total]


def bucket_of(part: Part, count: Count, bucket: int) -> Tuple[memoryview, memoryview]:
    """The numbers of those forms of a partition that are in a bucket, and their hashes."""
    numbers, size = numbers_of(part), count.buckets[bucket]
    start = 2 * sum(count.buckets) + 2 * sum(count.buckets[:bucket])
    return numbers[start : start + size], numbers[start + size : start + 2 * size]


def reader_of(part: Part) -> Callable[[int, int], memoryview]:
    """Gives the bytes of forms side by side: of the dump, or, after the dump's end, of the partition's own file."""
    dump, own, behind = memoryview(mapped(part.dump.path)), memoryview(mapped(f"{part.files}.forms")), part.behind
    if len(dump) < part.dump.size:
        raise OSError(errno.EIO, "it became shorter meanwhile", part.dump.path)

    def read(start: int, end: int) -> memoryview:
        return dump[start:end] if start < behind else own[start - behind : end - behind]

    return read


def find_repeats(parts: Sequence[Part], counts: Sequence[Count], bucket: int) -> List[Repeats]:
    """Of one bucket of all partitions in their order: which forms repeat an earlier one. Those with a hash of others are read."""
    columns = [bucket_of(part, count, bucket) for part, count in zip(parts, counts)]
    hashes = Counter(chain.from_iterable(hashes for _, hashes in columns))
    seen: Set[bytes] = set()
    found = []
    for part, count, (numbers, marks) in zip(parts, counts, columns):
        repeats, size = array("Q"), 0
        offsets, sizes = places_of(part, count)
        read = reader_of(part)
        for number, mark in zip(numbers, marks):
            if hashes[mark] > 1:
                form = digest(read(offsets[number], offsets[number] + sizes[number]))
                if form in seen:
                    repeats.append(number)
                    size += sizes[number]
                seen.add(form)
        found.append(Repeats(repeats, size))
    return found


def kept(offsets: Iterable[int], sizes: Iterable[int], repeated: Container[int]) -> Iterator[Tuple[int, int]]:
    """From where to where forms lie that aren't repeated; those side by side are one."""
    start = end = 0
    for number, (offset, size) in enumerate(zip(offsets, sizes)):
        if number not in repeated:
            if offset != end:
                yield start, end
                start = offset
            end = offset + size
    yield start, end


def keep(part: Part, count: Count, repeated: Iterable[int], result: str, offset: int) -> None:
    """Writes the forms of a partition except for repeated ones to their place in the result."""
    read = reader_of(part)
    with open(result, "r+b", buffering=AT_ONCE) as out:
        out.seek(offset)
        for start, end in kept(*places_of(part, count), set(repeated)):
            out.write(read(start, end))


# ---- the whole run ---------------------------------------------------------------------------------------------------


def dumps_in(names: Sequence[str]) -> List[Dump]:
    """The dumps of these names, those in a folder in the order of their names."""
    dumps: List[Dump] = []
    for name in names:
        path = Path(name).resolve()
        if not path.exists():
            raise SystemExit(f"dask_canonical: {name} isn't there")
        if path.is_dir():
            found = [(file, str(file.relative_to(path))) for file in sorted(path.rglob("*.bson"))]
        else:
            found = [(path, path.name)]
        dumps += [Dump(str(file), name, file.stat().st_size) for file, name in found]
    if len({dump.name for dump in dumps}) < len(dumps):
        raise SystemExit("dask_canonical: two dumps have the same name, and would have the same result")
    return dumps


def prepare(dumps: Sequence[Dump], folder: Path) -> Path:
    """The folder for what isn't finished yet."""
    if any(folder / dump.name == Path(dump.path) for dump in dumps):
        raise SystemExit("dask_canonical: the result would take the place of a dump")
    work = folder / "unfinished"
    shutil.rmtree(work, ignore_errors=True)
    for dump in dumps:
        (work / "result" / dump.name).parent.mkdir(parents=True, exist_ok=True)
        (folder / dump.name).parent.mkdir(parents=True, exist_ok=True)
    (work / "forms").mkdir(parents=True)
    return work


class Report:
    """What came of all documents."""

    def __init__(self) -> None:
        self.documents = self.canonical = self.repeated = 0
        self.faults: List[Dict[str, Any]] = []

    def add(self, dump: Dump, documents: int, canonical: int, faults: Sequence[Fault]) -> None:
        self.documents += documents
        self.canonical += canonical
        self.faults += [{"file": dump.name, "offset": offset, "fault": said} for offset, said in faults]

    def numbers(self) -> Dict[str, int]:
        return {"documents": self.documents, "canonical before": self.canonical, "repeated": self.repeated}


def finish(dumps: Sequence[Dump], folder: Path, report: Report) -> Report:
    """Moves the result to its place and writes the report."""
    for dump in dumps:
        os.replace(folder / "unfinished" / "result" / dump.name, folder / dump.name)
    (folder / "report.json").write_text(json.dumps({**report.numbers(), "faults": report.faults}, indent=1) + "\n")
    shutil.rmtree(folder / "unfinished")
    return report


class Progress:
    """Says once a second how far a run is."""

    def __init__(self, what: str, total: int) -> None:
        self.what = what
        self.total = total
        self.done = 0
        self.said = time.monotonic()

    def add(self, done: int) -> None:
        self.done += done
        if time.monotonic() - self.said >= 1:
            self.said = time.monotonic()
            print(f"dask_canonical: {self.done:,} of {self.total:,} {self.what}", file=sys.stderr, flush=True)


class Written:
    """The result of one process, and where each form is in it, by its hash. Of forms that share one the first is noted by it and
    the others by their digests."""

    def __init__(self) -> None:
        self.paths: List[Path] = []
        self.starts: List[int] = []
        """how many bytes are before each file"""
        self.size = 0
        self.places: Dict[Union[int, bytes], int] = {}
        self.opened = lru_cache(maxsize=64)(lambda number: open(self.paths[number], "r+b", buffering=0))

    def begin(self, path: Path) -> None:
        """Goes on in a new file."""
        path.touch()
        self.paths.append(path)
        self.starts.append(self.size)

    def write(self, forms: memoryview) -> None:
        file = self.opened(len(self.paths) - 1)
        self.size += len(forms)
        file.seek(0, os.SEEK_END)
        while forms:
            forms = forms[file.write(forms) :]

    def is_at(self, place: int, form: bytes) -> bool:
        number = bisect_right(self.starts, place) - 1
        return os.pread(self.opened(number).fileno(), len(form), place - self.starts[number]) == form

    def key_of(self, form: bytes, mark: int) -> Optional[bytes]:
        """What notes a form whose hash is noted already; None where the form is there."""
        if self.is_at(self.places[mark], form):
            return None
        found = digest(form)
        return None if found in self.places else found

    def add(self, forms: bsonraw.Forms) -> int:
        """Writes the forms that aren't there, and says how many are."""
        repeated = begin = start = 0
        for end, mark in zip(forms.ends, forms.hashes):
            key: Union[int, bytes, None] = mark
            if mark in self.places:
                self.write(forms.data[begin:start])
                begin = start
                key = self.key_of(bytes(forms.data[start:end]), mark)
            if key is None:
                repeated += 1
                begin = end
            else:
                self.places[key] = self.size + start - begin
            start = end
        self.write(forms.data[begin:start])
        return repeated


def in_order(pool: ThreadPoolExecutor, blocks: Sequence[Tuple[str, int, int]], ahead: int) -> Iterator[Formed]:
    """The forms of blocks in their order, of which this many are made ahead."""
    tasks: Deque["Future[Formed]"] = deque()
    for block in blocks:
        tasks.append(pool.submit(formed, *block))
        if len(tasks) > ahead:
            yield tasks.popleft().result()
    while tasks:
        yield tasks.popleft().result()


def run_alone(dumps: Sequence[Dump], folder: Path, threads: int = 1, block: int = BLOCK) -> Report:
    """All in this process: threads bring blocks to their forms, and this one writes them in order."""
    work = prepare(dumps, folder)
    progress = Progress("bytes", sum(dump.size for dump in dumps))
    written = Written()
    report = Report()
    with ThreadPoolExecutor(threads) as pool:
        for dump in dumps:
            ends, last = cut(dump.path, block)
            blocks = [(dump.path, start, end) for start, end in zip(ends, ends[1:])]
            written.begin(work / "result" / dump.name)
            for (forms, faults), (_, start, end) in zip(in_order(pool, blocks, threads), blocks):
                report.add(dump, len(forms.ends) + len(faults), forms.canonical, faults)
                report.repeated += written.add(forms)
                progress.add(end - start)
            report.add(dump, 0, 0, [last] if last else [])
    return finish(dumps, folder, report)


def engine() -> Any:
    """Dask's module for workers."""
    try:
        import distributed
    except ImportError as error:
        raise SystemExit(f"dask_canonical: Dask isn't there ({error}): --workers 0 does without") from None
    return distributed


def grouped(ends: Sequence[int], size: int) -> Iterator[Tuple[int, ...]]:
    """The blocks of each partition of this many bytes or a little more."""
    first = 0
    for last in range(1, len(ends)):
        if ends[last] - ends[first] >= size or last == len(ends) - 1:
            yield tuple(ends[first : last + 1])
            first = last


def joined(buckets: Iterable[Repeats]) -> Repeats:
    """The repeated forms of a partition in all buckets."""
    found = list(buckets)
    return Repeats(array("Q", chain.from_iterable(one.numbers for one in found)), sum(one.size for one in found))


def writes_of(
    parts: Sequence[Part], counts: Sequence[Count], repeats: Sequence[Repeats], folder: Path
) -> List[Tuple[Part, Count, "array[int]", str, int]]:
    """What each partition writes to the result: the dumps in turns, since two workers can't write to one file at a time."""
    places: Dict[Dump, int] = Counter()
    writes = []
    for part, count, repeated in zip(parts, counts, repeats):
        writes.append((part, count, repeated.numbers, str(folder / part.dump.name), places[part.dump]))
        places[part.dump] += count.size - repeated.size
    return sorted(writes, key=lambda write: write[0].ends)


def run_on(client: Any, dumps: Sequence[Dump], folder: Path, partition: int = PARTITION) -> Report:
    """On the workers of a Dask client."""
    work = prepare(dumps, folder)
    report = Report()
    cuts = client.gather(client.map(cut, [dump.path for dump in dumps], size=min(partition, BLOCK), pure=False))
    parts: List[Part] = []
    for dump, (ends, _) in zip(dumps, cuts):
        for blocks in grouped(ends, partition):
            parts.append(Part(dump, blocks, str(work / "forms" / f"{len(parts):06}")))

    tasks = client.map(canonise, parts, pure=False)
    progress = Progress("partitions", len(parts))
    for _ in engine().as_completed(tasks):
        progress.add(1)
    counts = client.gather(tasks)
    found = client.gather([client.submit(find_repeats, parts, counts, bucket, pure=False) for bucket in range(BUCKETS)])
    repeats = [joined(buckets) for buckets in zip(*found)]
    for dump in dumps:
        open(work / "result" / dump.name, "wb").close()
    writes = writes_of(parts, counts, repeats, work / "result")
    client.gather([client.submit(keep, *write, pure=False) for write in writes])

    for part, count, repeated in zip(parts, counts, repeats):
        report.add(part.dump, count.documents, count.canonical, count.faults)
        report.repeated += len(repeated.numbers)
    for dump, (_, last) in zip(dumps, cuts):
        report.add(dump, 0, 0, [last] if last else [])
    order = {dump.name: number for number, dump in enumerate(dumps)}
    report.faults.sort(key=lambda fault: (order[fault["file"]], fault["offset"]))
    return finish(dumps, folder, report)


def run_here(workers: int, dumps: Sequence[Dump], folder: Path, partition: int) -> Report:
    """On this many worker processes of this machine."""
    dask = engine()
    dask.config["distributed"]["worker"]["profile"]["enabled"] = False  # it looks at a worker's threads 100 times a second
    with dask.LocalCluster(
        n_workers=workers, threads_per_worker=1, processes=True, host="127.0.0.1", dashboard_address=None
    ) as cluster, dask.Client(cluster) as client:
        return run_on(client, dumps, folder, partition)


def run(options: argparse.Namespace, dumps: Sequence[Dump], folder: Path) -> Report:
    if not options.scheduler and not options.workers:
        return run_alone(dumps, folder, max(1, options.threads), min(options.partition, BLOCK))
    if not options.scheduler:
        return run_here(options.workers, dumps, folder, options.partition)
    with engine().Client(options.scheduler) as client:
        client.upload_file(__file__)
        return run_on(client, dumps, folder, options.partition)


def main() -> int:
    parser = argparse.ArgumentParser(description=__doc__, formatter_class=argparse.RawDescriptionHelpFormatter)
    parser.add_argument("dumps", nargs="+", metavar="DUMP")
    parser.add_argument("-o", dest="folder", required=True, type=Path, metavar="FOLDER")
    parser.add_argument("--workers", type=int, default=os.cpu_count(), metavar="N")
    parser.add_argument("--threads", type=int, default=os.cpu_count(), metavar="N")
    parser.add_argument("--scheduler", metavar="ADDRESS")
    parser.add_argument("--partition", type=int, default=PARTITION, metavar="BYTES")
    options = parser.parse_args()
    folder = options.folder.resolve()
    try:
        report = run(options, dumps_in(options.dumps), folder)
    except OSError as error:
        where = "" if error.filename is None else f"{error.filename}: "
        raise SystemExit(f"dask_canonical: {where}{error.strerror or error}") from None
    except KeyboardInterrupt:
        raise SystemExit("dask_canonical: interrupted") from None
    print(", ".join(f"{number} {what}" for what, number in report.numbers().items()), end=", ")
    print(f"{len(report.faults)} faults; {folder}/report.json has them all", flush=True)
    return 1 if report.faults else 0


if __name__ == "__main__":
    import dask_canonical  # so that workers find the tasks by the name of this module

    sys.exit(dask_canonical.main())
