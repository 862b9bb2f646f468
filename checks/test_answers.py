"""The program bsonraw on the rows of answers.txt, on documents of many levels and long keys, on damaged documents beside the slow reader of
python/tests/plain.py, and with reads and writes that fail or come in pieces."""

import fcntl
import os
import resource
import signal
import socket
import struct
import subprocess
import sys
import tempfile
import termios
import time
from concurrent.futures import ThreadPoolExecutor
from functools import partial
from itertools import islice
from typing import Callable, Iterator, List, NamedTuple, Tuple

from checks.checklist import ROOT
from checks.programs import BSONRAW, Case

sys.path.insert(0, str(ROOT / "python" / "tests"))

import plain  # noqa: E402
from made import cut_off, flipped, framed  # noqa: E402

COMMANDS = ("list", "canon", "check")
GREETING = b"13000000 02686900 06000000 792761 6C6C00 00"
GREETED = {"list": b"02 6869 10\nend\n", "canon": b"1300000002686900060000007927616c6c0000\n", "check": b"canonical\n"}
USAGE = b"usage: bsonraw list|canon|check\n"
PAGE = 4096

Result = Tuple[int, bytes]
Way = Callable[[str, bytes], Result]
"""How a program is run with a command on a text."""


def at_once(command: str, text: bytes) -> Result:
    """What is written to standard error counts as output, so that there is none."""
    done = subprocess.run([BSONRAW, command], input=text, stdout=subprocess.PIPE, stderr=subprocess.STDOUT)
    return done.returncode, done.stdout


def read_to_failure(command: str, text: bytes) -> Result:
    """Standard input gives the text, and then a read fails: its other end was closed with a byte that nothing had read."""
    other, stdin = socket.socketpair()
    with stdin:
        stdin.send(b"x")
        other.sendall(text)
        other.close()
        done = subprocess.run([BSONRAW, command], stdin=stdin, stdout=subprocess.PIPE, stderr=subprocess.STDOUT)
    return done.returncode, done.stdout


def read_nothing(command: str, text: bytes) -> Result:
    """Each read of standard input fails, as it is a folder."""
    stdin = os.open("/", os.O_RDONLY)
    done = subprocess.run([BSONRAW, command], stdin=stdin, stdout=subprocess.PIPE, stderr=subprocess.STDOUT)
    os.close(stdin)
    return done.returncode, done.stdout


def read_by_bytes(command: str, text: bytes) -> Result:
    """Each read of standard input gives a byte."""
    other, stdin = socket.socketpair(socket.AF_UNIX, socket.SOCK_SEQPACKET)
    with stdin:
        for byte in text:
            other.send(bytes([byte]))
        other.close()
        done = subprocess.run([BSONRAW, command], stdin=stdin, stdout=subprocess.PIPE, stderr=subprocess.STDOUT)
    return done.returncode, done.stdout


def write_to_failure(command: str, text: bytes, room: int) -> Result:
    """Standard output takes this many bytes, and then a write fails; of an unknown command nothing may be read before."""
    with tempfile.TemporaryFile() as stdin, tempfile.TemporaryFile() as stdout:
        stdin.write(text)
        stdin.seek(0)
        limits = partial(resource.setrlimit, resource.RLIMIT_FSIZE, (room, room))
        done = subprocess.run([BSONRAW, command], stdin=stdin, stdout=stdout, preexec_fn=limits, restore_signals=False)
        if command not in COMMANDS and os.lseek(stdin.fileno(), 0, os.SEEK_CUR) != 0:
            return -1, b"standard input was read"
        stdout.seek(0)
        return done.returncode, stdout.read()


def write_by_pages(command: str, text: bytes) -> Result:
    """Standard output is a pipe with room for a page, and a stop cuts each write short that waits for more."""
    out, stdout = os.pipe()
    fcntl.fcntl(stdout, 1031, PAGE)  # F_SETPIPE_SZ
    with tempfile.TemporaryFile() as stdin:
        stdin.write(text)
        stdin.seek(0)
        process = subprocess.Popen([BSONRAW, command], stdin=stdin, stdout=stdout)
    os.close(stdout)
    pieces = []
    while process.poll() is None and waits_for_room(out):
        process.send_signal(signal.SIGSTOP)
        os.waitid(os.P_PID, process.pid, os.WSTOPPED | os.WEXITED | os.WNOWAIT)
        process.send_signal(signal.SIGCONT)
        pieces.append(os.read(out, PAGE))
    with open(out, "rb") as rest:
        pieces.append(rest.read())
    return process.wait(), b"".join(pieces)


def waits_for_room(pipe: int) -> bool:
    """Whether the pipe is full within a second, as it is before what is longer ends."""
    for _ in range(1000):
        (size,) = struct.unpack("i", fcntl.ioctl(pipe, termios.FIONREAD, b"1234"))
        if size == PAGE:
            return True
        time.sleep(0.001)
    return False


class Row(NamedTuple):
    """A run, and what has to come of it."""

    command: str
    text: bytes
    status: int
    output: bytes
    way: Way = at_once

    def difference(self) -> str:
        """What goes wrong; empty where nothing does."""
        found = self.way(self.command, self.text)
        if found == (self.status, self.output):
            return ""
        way = self.way.func if isinstance(self.way, partial) else self.way
        return f"{self.command} {shown(self.text)} {way.__name__}: {found[0]} {shown(found[1])}, not {self.status} {shown(self.output)}"


def shown(text: bytes) -> str:
    return repr(text if len(text) < 300 else text[:300] + b"..")[1:]


def lines(*texts: str) -> bytes:
    return "".join(text + "\n" for text in texts).encode()


def rows_of(table: str) -> Iterator[Row]:
    """The rows of a table: one of each command is three."""
    found: List[Tuple[str, List[str]]] = []
    for line in table.splitlines():
        if line.startswith("  "):
            found[-1][1].append(line[2:])
        elif line and not line.startswith("#"):
            found.append((line, []))
    for head, output in found:
        command, status, *rest = head.split(" ", 2)
        text = "".join(rest).encode().decode("unicode_escape").encode()
        for name in COMMANDS if command == "each" else (command,):
            yield from with_form(Row(name, text, int(status), lines(*output)))


def with_form(row: Row) -> Iterator[Row]:
    """The row, and where it prints a form two more: a form's form is the form, and it is canonical."""
    yield row
    if row.command == "canon" and row.status == 0:
        yield row._replace(text=row.output)
        yield Row("check", row.output, 0, b"canonical\n")


def levels(count: int) -> bytes:
    """This many levels of documents, each but the innermost holding the next under the empty key."""
    data = framed(b"")
    for _ in range(count - 1):
        data = framed(b"\3\0" + data)
    return lines(data.hex())


def made_rows() -> Iterator[Row]:
    """Documents at the limit of levels, which `check` hasn't, and a null under a key of each short length."""
    yield Row("canon", levels(500), 0, levels(500))
    yield Row("canon", levels(501), 1, b"refused 7\n")
    yield Row("check", levels(501), 0, b"canonical\n")
    for size in range(71):
        data = framed(b"\x0a" + b"a" * size + b"\0")
        yield Row("list", data.hex().encode(), 0, lines(f"0a {'61' * size or '-'} 0", "end"))


def beside_plain(data: bytes) -> Iterator[Row]:
    """What the slow reader finds, which calls nothing of the library. It calls just those documents canonical that are their forms."""
    text = data.hex().encode()
    listing, form, verdict = plain.list_lines(data), plain.canon(data), plain.check_line(data)
    if (verdict == "canonical") != (form == data):
        raise ValueError(f"plain.py contradicts itself: {data.hex()}")
    yield Row("list", text, int(listing[-1] != "end"), lines(*listing))
    canonized = (0, lines(form.hex())) if isinstance(form, bytes) else (1, lines(form))
    yield from with_form(Row("canon", text, *canonized))
    yield Row("check", text, int(verdict != "canonical"), lines(verdict))


def damaged_rows(rows: List[Row]) -> Iterator[Row]:
    """Each document that a row of `check` has, cut off, and with each bit flipped; of one of more than 24 bytes every seventh."""
    for text in [row.text for row in rows if row.command == "check" and row.status < 2]:
        data = bytes.fromhex(text.decode())
        for damaged in (*cut_off(data), *islice(flipped(data), 0, None, 1 if len(data) <= 24 else 7)):
            yield from beside_plain(damaged)


def rows_of_streams() -> Iterator[Row]:
    """Reads and writes that fail, and that come in pieces."""
    for command, output in GREETED.items():
        yield Row(command, GREETING, 0, output, read_by_bytes)
        for size in range(len(GREETING) + 1):
            yield Row(command, GREETING[:size], 5, b"", read_to_failure)
        for room in range(len(output)):
            yield Row(command, GREETING, 5, output[:room], partial(write_to_failure, room=room))
    yield Row("show", GREETING, 3, USAGE, read_nothing)
    for room in range(len(USAGE)):
        yield Row("show", GREETING, 5, USAGE[:room], partial(write_to_failure, room=room))
    nulls = framed(b"\x0a\0" * 2000)
    yield Row("list", nulls.hex().encode(), 0, b"0a - 0\n" * 2000 + b"end\n", write_by_pages)


def table() -> List[Row]:
    """The rows of answers.txt."""
    return list(rows_of((ROOT / "checks" / "answers.txt").read_text()))


class Answers(Case):
    programs = (BSONRAW,)

    def test_rows(self) -> None:
        rows = table()
        with ThreadPoolExecutor(os.cpu_count()) as pool:
            wrong = [it for it in pool.map(Row.difference, dict.fromkeys([*rows, *made_rows(), *damaged_rows(rows)])) if it]
        self.none_of(wrong[:50])

    def test_streams(self) -> None:
        self.none_of([it for it in map(Row.difference, rows_of_streams()) if it][:50])
