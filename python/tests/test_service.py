"""What a service relies on: bounded memory, streams that lie or stall, bytes that others write, signals, threads, interpreters."""

import asyncio
import gc
import io
import os
import signal
import socket
import subprocess
import sys
import threading
import time
import tracemalloc
import unittest
import weakref
from typing import Any, Callable, Iterator, List

import bsonraw
from bsonraw import BsonError, ErrorKind, Reason
from made import framed

ONE = bsonraw.encode({"a": 1})
TOO_LONG_A_NAME = framed(b"\x02a\0" + (1001).to_bytes(4, "little") + b"x" * 1000 + b"\0")
READERS = (
    lambda source, **options: [bytes(document) for _, document in bsonraw.documents(source, **options)],
    bsonraw.decode_all,
    bsonraw.columns,
)


class Endless(io.RawIOBase):
    """A stream that says a length, and sends zeros for as long as it is read."""

    def __init__(self, front: bytes) -> None:
        self.front, self.sent = front, 0

    def read(self, size: int = -1) -> bytes:
        block = (self.front + bytes(size))[:size]
        self.front = b""
        self.sent += size
        return block


class Limits(unittest.TestCase):
    def test_a_stream_that_lies_about_its_length(self) -> None:
        for read in READERS:
            for length in (1001, 1 << 24, 0x7FFFFFFF):
                stream = Endless(ONE + length.to_bytes(4, "little"))
                tracemalloc.start()
                with self.assertRaises(BsonError) as caught:
                    read(stream, max_bytes=1000)
                peak = tracemalloc.get_traced_memory()[1]
                tracemalloc.stop()
                error = caught.exception
                self.assertEqual((error.kind, error.reason, error.offset), (ErrorKind.REFUSED, Reason.TOO_MANY_BYTES, 12))
                self.assertLess((stream.sent, peak), (2 << 20, 4 << 20))
        self.assertRaises(BsonError, bsonraw.decode_all, Endless(b"\xff\xff\xff\x7f"))

    def test_the_limit_is_that_of_each_document(self) -> None:
        dump = ONE * 50 + TOO_LONG_A_NAME + ONE
        for read in READERS:
            for source in (dump, bytearray(dump), io.BytesIO(dump)):
                read(source, max_bytes=len(TOO_LONG_A_NAME))
            for source in (dump, bytearray(dump), io.BytesIO(dump)):
                with self.assertRaises(BsonError) as caught:
                    read(source, max_bytes=len(TOO_LONG_A_NAME) - 1)
                self.assertEqual((caught.exception.reason, caught.exception.offset), (Reason.TOO_MANY_BYTES, 600))

    def test_a_length_that_is_too_large_is_refused_at_once(self) -> None:
        """Of a peer that sends four bytes and waits."""
        here, there = socket.socketpair()
        with here, there, here.makefile("rb") as stream:
            here.settimeout(10)
            there.sendall(b"\0\0\0\x40")
            self.assertRaises(BsonError, next, bsonraw.documents(stream))

    def test_no_memory_for_bytes_that_are_no_document(self) -> None:
        data = b"\5\0\0\0" + bytes(8 << 20)
        for call in (bsonraw.decode, bsonraw.walk, bsonraw.to_json, bsonraw.check, bsonraw.first_fault):
            tracemalloc.start()
            try:
                error = call(data)
            except BsonError as raised:
                error = raised
            peak = tracemalloc.get_traced_memory()[1]
            tracemalloc.stop()
            self.assertEqual(error.reason, Reason.LENGTH_INCORRECT)
            self.assertLess(peak, 1 << 20)

    def test_a_document_of_nothing_but_nulls(self) -> None:
        """Its values take eight bytes for two of its own; beside them there is little."""
        data = framed(b"\4a\0" + framed(b"\x0a\0" * 2_000_000))
        tracemalloc.start()
        self.assertEqual(len(bsonraw.decode(data)["a"]), 2_000_000)
        self.assertLess(tracemalloc.get_traced_memory()[1], 5 * len(data))
        tracemalloc.stop()

    def test_encode(self) -> None:
        document = {"a": "x" * 100, "b": [1, 2]}
        data = bsonraw.encode(document)
        self.assertEqual(bsonraw.encode(document, max_bytes=len(data)), data)
        self.assertEqual(bsonraw.encode(document, max_bytes=None), data)
        for limit in range(len(data)):
            with self.assertRaises(BsonError) as caught:
                bsonraw.encode(document, max_bytes=limit)
            self.assertEqual(caught.exception.reason, Reason.TOO_MANY_BYTES)
        self.assertRaises(ValueError, bsonraw.encode, document, max_bytes=-1)


class Streams(unittest.TestCase):
    def setUp(self) -> None:
        self.addCleanup(signal.alarm, 0)
        signal.alarm(30)

    def test_a_pipe_gives_what_is_there(self) -> None:
        out, into = os.pipe()
        with open(out, "rb") as stream, open(into, "wb", buffering=0) as writer:
            documents = bsonraw.documents(stream)
            for offset in (0, 24, 48):
                writer.write(ONE + ONE[:5])
                self.assertEqual(next(documents), (offset, ONE))
                writer.write(ONE[5:])
                self.assertEqual(next(documents), (offset + 12, ONE))

    def test_request_and_answer_over_a_socket(self) -> None:
        here, there = socket.socketpair()

        def answer() -> None:
            with there.makefile("rb") as requests:
                for _, request in bsonraw.documents(requests):
                    there.sendall(bsonraw.encode({"twice": 2 * bsonraw.decode(request)["number"]}))
            there.close()

        thread = threading.Thread(target=answer)
        thread.start()
        with here, here.makefile("rb") as answers:
            documents = bsonraw.documents(answers)
            for number in range(5):
                here.sendall(bsonraw.encode({"number": number}))
                self.assertEqual(bsonraw.decode(next(documents)[1]), {"twice": 2 * number})
            here.shutdown(socket.SHUT_WR)
            self.assertRaises(StopIteration, next, documents)
        thread.join()

    def test_a_stream_that_is_waited_for(self) -> None:
        async def read(data: bytes, size: int, **options: int) -> List[Any]:
            reader = asyncio.StreamReader()
            for at in range(0, len(data), size):
                reader.feed_data(data[at : at + size])
            reader.feed_eof()
            return [document async for document in bsonraw.documents_async(reader, **options)]

        dump = ONE + TOO_LONG_A_NAME + ONE
        for size in (1, 7, 100_000):
            self.assertEqual(asyncio.run(read(dump, size)), list(bsonraw.documents(dump)))
        for data in (b"\4\0\0\0\0", b"\5", b"\6\0\0\0\0", b"\xff\xff\xff\x7f\0", b"\xff\xff\xff\xff\0", ONE + b"\0\0\0\0"):
            wanted: Any = None
            try:
                list(bsonraw.documents(data, max_bytes=100))
            except BsonError as error:
                wanted = error
            with self.assertRaises(BsonError) as caught:
                asyncio.run(read(data, 1, max_bytes=100))
            error = caught.exception
            self.assertEqual((error.kind, error.reason, error.offset), (wanted.kind, wanted.reason, wanted.offset))

    def test_with(self) -> None:
        data = bytearray(ONE * 2)
        for iterate in (bsonraw.documents, bsonraw.elements, bsonraw.walk):
            with iterate(ONE) as steps:
                next(steps)
            self.assertRaises(StopIteration, next, steps)
        with bsonraw.documents(data) as documents:
            self.assertRaises(BufferError, data.append, 0)
            self.assertIs(iter(documents), documents)
        data.append(0)


WRITTEN_MEANWHILE = """
import mmap, os, random, signal, sys, time
import bsonraw

data = bsonraw.encode({"a": {"b": ["text", 1, True, bsonraw.Int64(5)]}, "c": bsonraw.Code("f()", {"x": None}), "d": b"xyz",
                       "e": bsonraw.Regex("a", "i"), "f": bsonraw.Binary(b"abc", 2), "g": "more text of some length"})
room = mmap.mmap(-1, len(data) * 20)
room[:] = data * 20
child = os.fork()
if child == 0:
    rng = random.Random(1)
    while True:
        for _ in range(100):
            room[rng.randrange(len(room))] = rng.randrange(256)
        room[:] = data * 20
calls = [bsonraw.decode, bsonraw.canonical, bsonraw.check, bsonraw.first_fault, bsonraw.to_json,
         lambda one: [element.value for element in bsonraw.elements(one)], lambda one: bsonraw.find(one, "a.b.0"),
         lambda one: [element.value for _, element in bsonraw.walk(one)], lambda one: bsonraw.get(one, "g").value]
dumps = [bsonraw.decode_all, bsonraw.columns, bsonraw.canonical_all, lambda one: bsonraw.partitions(one, 100),
         lambda one: bsonraw.decode_all(one, errors="skip")]
counted = failed = 0
end = time.monotonic() + float(sys.argv[1])
try:
    while time.monotonic() < end:
        for call in calls + dumps:
            try:
                call(memoryview(room)[: len(data)] if call in calls else room)
            except (bsonraw.BsonError, AttributeError):
                failed += 1
            counted += 1
finally:
    os.kill(child, signal.SIGKILL)
    os.waitpid(child, 0)
print(counted > 100, failed > 10)
"""


class Written(unittest.TestCase):
    def test_bytes_that_another_process_writes(self) -> None:
        done = subprocess.run(
            [sys.executable, "-c", WRITTEN_MEANWHILE, "1.5"], stdout=subprocess.PIPE, stderr=subprocess.PIPE, timeout=120
        )
        self.assertEqual((done.returncode, done.stdout, done.stderr), (0, b"True True\n", b""))

    def test_a_call_has_the_bytes_of_one_moment(self) -> None:
        data = bytearray(ONE)
        element = bsonraw.get(data, "a")
        steps, walk = bsonraw.elements(data), bsonraw.walk(data)
        data[:] = bytes(len(data))
        data += b"and more"
        self.assertEqual((element.value, bytes(element.payload)), (1, b"\1\0\0\0"))
        self.assertEqual((next(steps).value, next(walk)[1].value), (1, 1))


def many(count: int) -> bytes:
    return bsonraw.encode({"a": 1, "b": "text", "c": [1, 2, 3]}) * count


class Held(unittest.TestCase):
    def test_signals_are_heard_between_documents(self) -> None:
        dump = many(1_000_000)

        class Heard(Exception):
            pass

        def hear(*_: Any) -> None:
            raise Heard

        before = signal.signal(signal.SIGALRM, hear)
        self.addCleanup(signal.signal, signal.SIGALRM, before)
        large = framed(b"\4a\0" + framed(b"\x0a\0" * 5_000_000))
        damaged = framed(b"\x08a\0\2") * 200_000

        def pass_over(data: bytes) -> Any:
            return bsonraw.decode_all(data, errors="skip", max_bytes=10)

        def search(data: bytes) -> Any:
            return list(bsonraw.documents(data, resync=True))

        rows = ((bsonraw.decode_all, dump), (bsonraw.columns, dump), (bsonraw.decode, large), (pass_over, dump), (search, damaged))
        for read, data in rows:
            begun = time.process_time()
            signal.setitimer(signal.ITIMER_REAL, 0.02)
            self.assertRaises(Heard, read, data)
            self.assertLess(time.process_time() - begun, 0.3)

    def test_others_run_between_documents(self) -> None:
        dump = many(1_000_000)
        counted = [0]
        is_on = [True]

        def count() -> None:
            while is_on[0]:
                time.sleep(0.0005)
                counted[0] += 1

        def counted_during(read: Callable[[Any], Any], source: Any) -> int:
            before = counted[0]
            read(source)
            return counted[0] - before

        # The lock changes hands once before a call and once after it in any case.
        thread = threading.Thread(target=count)
        thread.start()
        try:
            for read in (bsonraw.decode_all, bsonraw.columns):
                for source in (dump, bytearray(dump)):
                    end = time.monotonic() + 60
                    while counted_during(read, source) < 4:
                        self.assertLess(time.monotonic(), end)
        finally:
            is_on[0] = False
            thread.join()

    def test_the_collector_is_as_others_have_it(self) -> None:
        """Where a call runs code of others, this never finds it off that was on; nor does a child that is forked there."""
        seen: List[bool] = []

        def look(*_: Any) -> None:
            seen.append(gc.isenabled())

        def fork(*_: Any) -> None:
            child = os.fork()
            if child == 0:
                os._exit(0 if gc.isenabled() else 1)
            seen.append(gc.isenabled() and os.waitpid(child, 0)[1] == 0)

        class File(io.BytesIO):
            def read(self, size: Any = -1) -> bytes:
                fork()
                return super().read(1000)

            read1 = read

        before = signal.signal(signal.SIGALRM, look)
        self.addCleanup(signal.signal, signal.SIGALRM, before)
        dump = many(50)
        large = framed(b"".join(b"\4a%d\0" % number + framed(b"\x0a0\0" * 3) for number in range(50_000)))
        code = bsonraw.encode({"a": bsonraw.Code("f"), "b": [{"c": bsonraw.Code("g", {"d": [1]})}]})
        for read in (bsonraw.decode_all, bsonraw.columns):
            read(File(dump))
            read(framed(b"\4a\0" + framed(b"\x08a\0\2")) * 5, errors=fork)
            for data in (many(30_000), large):
                signal.setitimer(signal.ITIMER_REAL, 0.01, 0.01)
                read(data)
                signal.setitimer(signal.ITIMER_REAL, 0)
        bsonraw.decode_all(dump, object_hook=look)
        bsonraw.decode_all(dump, object_pairs_hook=look)
        made = bsonraw.Code.__new__
        try:
            bsonraw.Code.__new__ = lambda *given: look() or made(*given)  # type: ignore[method-assign, assignment, func-returns-value]
            bsonraw.decode_all(code * 20)
        finally:
            bsonraw.Code.__new__ = made  # type: ignore[method-assign]
        self.assertEqual(set(seen), {True})
        self.assertGreater(len(seen), 150)

    def test_who_turns_the_collector_off_or_on_meanwhile_is_not_overruled(self) -> None:
        def turned(turn: Callable[[], None]) -> Callable[[Any], None]:
            return lambda _: turn()

        damaged = framed(b"\x08a\0\2")
        self.addCleanup(gc.enable)
        for read in (bsonraw.decode_all, bsonraw.columns):
            for was_on in (True, False):
                (gc.enable if was_on else gc.disable)()
                read(many(10))
                self.assertRaises(BsonError, read, b"\1\0\0\0\0")
                self.assertEqual(gc.isenabled(), was_on)
                for turn, is_on in ((gc.disable, False), (gc.enable, True)):
                    (gc.enable if was_on else gc.disable)()
                    read(many(10) + damaged + many(10), errors=turned(turn))
                    self.assertEqual(gc.isenabled(), is_on)

    def test_another_thread_and_the_collector(self) -> None:
        """It sees it on all the time that a call runs, of many documents or of a large one; and turns it off for good."""
        large = framed(b"".join(b"\4a%d\0" % number + framed(b"\x0a0\0" * 3) for number in range(100_000)))
        self.addCleanup(gc.enable)
        for data in (many(100_000), large):
            seen: List[bool] = []
            is_on = [True]

            def look() -> None:
                while is_on[0]:
                    seen.append(gc.isenabled())
                    time.sleep(0.0005)
                gc.disable()

            thread = threading.Thread(target=look)
            gc.enable()
            thread.start()
            end = time.monotonic() + 60
            while len(seen) < 10:
                self.assertLess(time.monotonic(), end)
                bsonraw.decode_all(data)
            is_on[0] = False
            bsonraw.decode_all(data)
            thread.join()
            self.assertEqual((set(seen), gc.isenabled()), ({True}, False))

    @unittest.skipIf(sys.version_info < (3, 10), "the collector can't be turned off from C")
    def test_the_collector_looks_through_no_document_that_is_being_made(self) -> None:
        seen: List[Any] = []

        def count(*given: Any) -> None:
            seen.append(given)

        gc.callbacks.append(count)
        try:
            made = bsonraw.decode_all(many(20_000))
            count_of = len(seen)
        finally:
            gc.callbacks.remove(count)
        self.assertEqual((len(made), count_of), (20_000, 0))

    def test_cycles_are_freed(self) -> None:
        class File(io.BytesIO):
            pass

        class Room(bytearray):
            pass

        def begun() -> Iterator[Callable[[Any], Any]]:
            yield lambda source: bsonraw.documents(source)
            yield lambda source: next(bsonraw.documents(source))[1]
            if source_kind is Room:
                yield lambda source: bsonraw.elements(source)
                yield lambda source: bsonraw.walk(source)
                yield lambda source: bsonraw.get(source, "a")
                yield lambda source: bsonraw.get(source, "a").payload

        for source_kind in (File, Room):
            for make in begun():
                source = source_kind(ONE)
                source.kept = make(source)
                gone = weakref.ref(source)
                del source
                gc.collect()
                self.assertIsNone(gone())


if __name__ == "__main__":
    unittest.main()
