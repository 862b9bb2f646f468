#!/usr/bin/env python3
"""reads.py PROGRAM [SIZE]: counts, by lackey of valgrind, how often PROGRAM check --resync reads memory for each byte of files in which
a document that reaches to the file's end begins every seven bytes, and is damaged: in each way that its form allows, right after the
last of them or at the end. Fails if it reads more than MOST times for a byte, as it would if it read what it doesn't count; and if it
reads more than twice as often for a byte of files four times as long, in which a document that isn't believed begins every few bytes."""
import re, struct, subprocess, sys, tempfile

MOST = 22
HEAD = b"\x10a\0"


def number(n):
    return struct.pack("<i", n)


def tails(size):
    """What is after the last document's first element, in this many bytes with a final 0: one element with a fault."""
    left = size - 8  # after tag, key and a length, before the final 0
    text = number(left) + b"x" * (left - 1)
    yield "a tag of no kind", b"\x66a\0" + b"x" * (left + 4)
    yield "a key without an end", b"\x10" + b"x" * (left + 6)
    yield "a boolean of 2", b"\x08a\0\2" + b"x" * (left + 3)
    yield "a negative length", b"\2a\0" + number(-1) + b"x" * left
    yield "a string past the end", b"\2a\0" + number(2 * size) + b"x" * left
    yield "a string without a final 0", b"\2a\0" + text + b"x"
    yield "a string that isn't UTF-8 at its end", b"\2a\0" + text[:-1] + b"\xff\0"
    yield "a string of 0 bytes", b"\2a\0" + number(0) + b"x" * left
    yield "a binary past the end", b"\5a\0" + number(2 * size) + b"x" * left
    yield "an old binary with a wrong inner length", b"\5a\0" + number(left - 1) + b"\2" + b"x" * (left - 1)
    yield "a document past the end", b"\3a\0" + number(2 * size) + b"x" * left
    yield "a document without a final 0", b"\3a\0" + number(left + 4) + b"x" * left
    yield "a fault at the front of a document", b"\3a\0" + number(left + 4) + b"\x66b\0" + b"x" * (left - 4) + b"\0"
    yield "a fault at the end of a document", b"\3a\0" + number(left + 4) + b"\5b\0" + number(left - 12) + b"\0" + b"x" * (left - 12) + b"\x66b\0" + b"\0"
    yield "a pattern without options", b"\x0ba\0" + b"x" * (left + 4)
    yield "options that aren't UTF-8", b"\x0ba\0p\0" + b"x" * left + b"\xff\0"
    yield "a pointer that isn't UTF-8", b"\x0ca\0" + number(left - 12) + b"x" * (left - 14) + b"\xff\0" + b"x" * 12
    yield "a code with a wrong scope", b"\x0fa\0" + number(left + 4) + number(left - 9) + b"x" * (left - 10) + b"\0" + number(-5) + b"\0"


def file_of(size, tail):
    places = (size - len(tail) - 1) // 7
    end = 7 * places + 4 + len(tail) + 1
    return b"".join(number(end - 7 * i) + HEAD for i in range(places)) + number(0) + tail + b"\0"


SMALL = number(12) + HEAD + number(1) + b"\0"


def wrong_lengths(size, ends):
    """Documents damaged at once, two without damage after each, and then only such; each length ends before one of the last."""
    each, count, after = 7 + 2 * len(SMALL), size // 62, size // 24
    heads = (number(each * (count - i) + len(SMALL) * ends(i, after)) + b"\x66a\0" + 2 * SMALL for i in range(count))
    return b"".join(heads) + after * SMALL


def late_faults(size):
    """Documents in one another's binaries, with two without damage before each; all are damaged at their end, before such."""
    each, count = 12 + 2 * len(SMALL), size // 36
    end = 4 + each * count + 3 + len(SMALL)
    values = (b"\5b\0" + number(2 * len(SMALL) + 4) + b"\0" + 2 * SMALL + number(end - each * (i + 1)) for i in range(count))
    return number(end) + b"".join(values) + b"\x66a\0" + SMALL + 4 * SMALL


def wrongs(size):
    """Files in which documents that aren't believed are so numerous that what is done for each has to be bounded."""
    yield "wrong lengths with one end", wrong_lengths(size, lambda i, after: after - 2)
    yield "wrong lengths with ends further and further off", wrong_lengths(size, lambda i, after: 2 + i % (after - 4))
    yield "wrong lengths with ends nearer and nearer", wrong_lengths(size, lambda i, after: after - 2 - i % (after - 4))
    yield "wrong lengths of documents with a late fault", late_faults(size)


def loads(program, name):
    """How often a run reads memory, and its status."""
    run = subprocess.run(["valgrind", "--tool=lackey", "--detailed-counts=yes", program, "check", "--resync", name], capture_output=True, text=True)
    rows = re.findall(r"^==\d+== +[IFDV]\d+ +([\d,]+)", run.stderr, re.M)
    return sum(int(row.replace(",", "")) for row in rows), run.returncode


def main(program, size="60000"):
    size, failed = int(size), 0
    with tempfile.TemporaryDirectory() as folder:
        name = folder + "/dump.bson"

        def reads(content, status):
            with open(name, "wb") as file:
                file.write(content)
            count, ended = loads(program, name)
            if not count or ended != status:
                sys.exit(f"reads.py: a run ended with {ended}, and reads that were counted: {count}")
            return count

        empty = reads(b"", 0)
        for kind, tail in tails(size // 2):
            for front in (b"", b"\4\0\0\0\0"):
                content = front + file_of(size, tail)
                count = (reads(content, 3 if front else 1) - empty) / len(content)
                failed |= count > MOST
                print(f"{'FAILED ' if count > MOST else ''}{kind}{', after an unsound length' if front else ''}: {count:.1f} reads a byte", flush=True)
        for (kind, few), (_, many) in zip(wrongs(size // 8), wrongs(size // 2)):
            fewer, more = ((reads(content, 3) - empty) / len(content) for content in (few, many))
            failed |= more > 2 * fewer
            print(f"{'FAILED ' if more > 2 * fewer else ''}{kind}: {fewer:.1f} reads a byte, of four times as many bytes {more:.1f}", flush=True)
    return failed


if __name__ == "__main__":
    sys.exit(main(*sys.argv[1:]))
