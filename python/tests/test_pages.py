"""The Python that the pages and the package's own text show does what they say."""

import doctest
import os
import re
import socket
import socketserver
import subprocess
import sys
import tempfile
import threading
import tracemalloc
import unittest
from contextlib import redirect_stdout
from io import StringIO
from pathlib import Path
from typing import Any

import bsonraw
from made import framed

FOLDER = Path(__file__).resolve().parents[2]
if not (FOLDER / "docs").is_dir():
    raise unittest.SkipTest("the pages aren't in a source archive")
PAGE = FOLDER / "docs" / "PYTHON.md"
BOUND = 96 << 20  # what the page says of the service
DEAREST = (b"\5\0\0\0\0\0\x80", b"\3\0" + framed(b"\x0a\0"), b"\x0d\0\1\0\0\0\0", b"\x0b\0\0\0", b"\x0a\0")  # elements whose values take most memory
SAID = """\
['Ada', 'Max']
maths
Zürich 1
me ['logic', 'poetry']
{"name":"Ada","born":1815,"tags":["maths","poetry"]}
2
0 name Ada
{'price': {'amount': Decimal128('9.90'), 'tags': ['new']}} ['price']
2.5
at key 'tags.0': int in place of str ('tags', '0')
1 documents repeat another
bad.bson 5: at offset 4: at key 'a': a boolean is neither 0 nor 1: 2
2 documents kept
2 forms, 1 canonical before, [5]
[{"$numberLong": "1"}, {"_id": {"$oid": "5f2b00000000000000000001"}, "user": {"$ref": "users", "$id": {"$numberInt": "1"}}, "tags": ["a"]}]
"""


def blocks_of(page: Path) -> list:
    return re.findall(r"^```python\n(.*?)^```$", page.read_text(), re.M | re.S)


class Pages(unittest.TestCase):
    def test_the_page_for_python(self) -> None:
        blocks = blocks_of(PAGE)
        self.assertEqual(len(blocks), 17)
        names: dict = {}
        before = os.getcwd()
        with tempfile.TemporaryDirectory() as folder, redirect_stdout(StringIO()) as said:
            os.chdir(folder)
            self.addCleanup(os.chdir, before)
            for block in blocks:
                if "pandas" in block and not has_pandas():
                    print("2")
                    continue
                exec(compile(block, str(PAGE), "exec"), names)
            os.chdir(before)
        self.assertEqual(said.getvalue(), SAID)

    def test_the_service_of_the_page(self) -> None:
        """It takes what a peer sends that lies about a length, one that damages, and one that doesn't, in memory that is bounded."""
        (block,) = (block for block in blocks_of(PAGE) if "socketserver" in block)
        self.assertLessEqual(len([line for line in block.split("\n\n\n")[1].splitlines() if line]), 10)
        names: dict = {"bsonraw": bsonraw}
        exec(compile(block, str(PAGE), "exec"), names)
        most = (1 << 20) - 13
        largest = [framed(b"\4a\0" + framed(one * (most // len(one)))) for one in DEAREST]
        numbered = framed(b"".join(b"\5%x\0\0\0\0\0\x80" % number for number in range(most // 12)))
        good = bsonraw.encode({"a": 1, "b": 2})
        rows = [
            (good * 3, [{"keys": 2}] * 3, ""), (good + b"\xff\xff\xff\x7f" + bytes(50 << 20), [{"keys": 2}], "more bytes than allowed: max_bytes is 1048576"),
            (b"".join(largest) + good[:-3], [{"keys": 1}] * 5, "a document's length is wrong"), (numbered, [{"keys": most // 12}], ""), (bsonraw.encode({"a": 1})[:-1] + b"\1", [], "no final 0"),
        ]
        tracemalloc.start()
        for sent, wanted, why in rows:
            answers, peak = self.serve(names["Uploads"], sent)
            error = answers.pop()["error"] if why else ""
            self.assertEqual((answers, error.endswith(why)), (wanted, True), error)
            self.assertLess(peak, BOUND)
        tracemalloc.stop()

    def serve(self, handler: Any, sent: bytes) -> Any:
        """What a service answers, and the peak of its memory beside what is sent."""
        server = socketserver.TCPServer(("127.0.0.1", 0), handler)
        with server, socket.create_connection(server.server_address, timeout=30) as peer:

            def send() -> None:
                try:
                    peer.sendall(sent)
                    peer.shutdown(socket.SHUT_WR)
                except OSError:
                    pass  # the service has ended

            thread = threading.Thread(target=send)
            thread.start()
            tracemalloc.clear_traces()
            request = server.get_request()
            handler(request[0], request[1], server)
            peak = tracemalloc.get_traced_memory()[1]
            answers = b""
            request[0].shutdown(socket.SHUT_WR)
            try:
                while block := peer.recv(1 << 16):
                    answers += block
            except OSError:
                pass
            request[0].close()
            thread.join()
        return bsonraw.decode_all(answers), peak

    def test_the_first_page(self) -> None:
        (block,) = blocks_of(FOLDER / "README.md")
        done = subprocess.run(
            [sys.executable, "-c", block],
            stdout=subprocess.PIPE,
            stderr=subprocess.PIPE,
            env={**os.environ, "PYTHONPATH": os.path.dirname(os.path.dirname(bsonraw.__file__))},
            timeout=60,
        )
        wanted = (0, "{'hi': \"y'all\"}\n", "")
        self.assertEqual((done.returncode, done.stdout.decode(), done.stderr.decode()), wanted)

    def test_the_text_of_the_package(self) -> None:
        outcome = doctest.testmod(bsonraw)
        self.assertEqual((outcome.failed, outcome.attempted > 15), (0, True))

    def test_help(self) -> None:
        for name in bsonraw.__all__:
            found = getattr(bsonraw, name)
            self.assertTrue(getattr(found, "__doc__", None), name)
            if callable(found) and not isinstance(found, type):
                self.assertRegex(str(__import__("inspect").signature(found)), r"^\(")

    def test_nothing_there_is_a_line(self) -> None:
        folder = FOLDER / "examples"
        for program, arguments in (("greeting.py", []), ("dask_canonical.py", ["x.bson", "-o", "y"])):
            done = subprocess.run(
                [sys.executable, "-S", "-I", str(folder / program), *arguments],
                stdin=subprocess.DEVNULL,
                stdout=subprocess.PIPE,
                stderr=subprocess.PIPE,
                timeout=60,
            )
            self.assertEqual((done.returncode, done.stdout, done.stderr.count(b"\n")), (1, b"", 1), done.stderr)
            self.assertIn(b"bsonraw isn't there", done.stderr)


def has_pandas() -> bool:
    try:
        import pandas  # noqa: F401
    except ImportError:
        return False
    return True


if __name__ == "__main__":
    unittest.main()
