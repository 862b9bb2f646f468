"""python -m bsonraw check|json FILE: what is wrong with a dump, and its documents as JSON.

The programs bsonraw-dump and bsonraw do the same and more.
"""

import argparse
import os
import sys
from typing import Any, BinaryIO, Iterator, List, Optional, Tuple

from . import MAX_BYTES, MAX_DEPTH, BsonError, documents, first_fault, to_json


def _opened(name: str) -> BinaryIO:
    return sys.stdin.buffer if name == "-" else open(name, "rb")


def _each(file: BinaryIO, options: Any) -> Iterator[Tuple[int, bytes, Optional[BsonError]]]:
    """The documents with their offsets, and what is wrong with each; where none can be cut, the last one is empty."""
    cut = documents(file, max_bytes=options.max_bytes)
    while True:
        try:
            offset, data = next(cut)
        except StopIteration:
            return
        except BsonError as error:
            yield error.offset or 0, b"", error
            return
        yield offset, data, first_fault(data, max_bytes=options.max_bytes, max_depth=options.max_depth)


def _name(name: str, offset: int, error: BsonError) -> str:
    return f"{'-' if name == '-' else name}:{offset}: {error}"


def check(options: Any) -> int:
    """Prints each fault: 1 where there is one, else 0."""
    count = faults = 0
    for name in options.files:
        with _opened(name) as file:
            for offset, data, error in _each(file, options):
                count += bool(data)
                if error is not None:
                    faults += 1
                    print(_name(name, offset, error))
    print(f"{count} documents, {faults} faults", file=sys.stderr)
    return 1 if faults else 0


def json(options: Any) -> int:
    """Prints the documents, one in a line; faults go to standard error: 1 where there is one, else 0."""
    faults, begins = 0, "["
    for name in options.files:
        with _opened(name) as file:
            for offset, data, error in _each(file, options):
                if error is not None:
                    faults += 1
                    print(_name(name, offset, error), file=sys.stderr)
                    continue
                text = to_json(data, style="canonical" if options.canonical else "relaxed", max_bytes=options.max_bytes, max_depth=options.max_depth)
                sys.stdout.buffer.write((f"{begins}{text}" if options.array else f"{text}\n").encode())
                begins = ",\n"
    if options.array:
        sys.stdout.buffer.write(b"]\n" if begins != "[" else b"[]\n")
    return 1 if faults else 0


def _end_output() -> None:
    """Writes what standard output holds, or lets it go: Python would write it once more as it ends, and if that failed, give the status 120."""
    try:
        sys.stdout.flush()
    except OSError:
        os.dup2(os.open(os.devnull, os.O_WRONLY), sys.stdout.fileno())


def main(arguments: Optional[List[str]] = None) -> int:
    parser = argparse.ArgumentParser(prog="python -m bsonraw", description=__doc__, formatter_class=argparse.RawDescriptionHelpFormatter)
    commands = parser.add_subparsers(dest="command", metavar="COMMAND")
    for call, text in ((check, "says what is wrong with each document"), (json, "prints each document in a line")):
        command = commands.add_parser(call.__name__, help=text)
        command.set_defaults(call=call)
        command.add_argument("files", nargs="+", metavar="FILE", help="a file of documents one after the other, or - for standard input")
        command.add_argument("--max-bytes", type=int, default=MAX_BYTES, metavar="N", help="how many a document has at most")
        command.add_argument("--max-depth", type=int, default=MAX_DEPTH, metavar="N", help="how many levels it has at most")
    command.add_argument("--canonical", action="store_true", help="with the kind of each value")
    command.add_argument("--array", action="store_true", help="as an array")
    options = parser.parse_args(arguments)
    if options.command is None:
        parser.print_help(sys.stderr)
        return 2
    try:
        result: int = options.call(options)
        sys.stdout.flush()
    except BrokenPipeError:
        _end_output()
        return 1
    except OSError as error:
        print(f"{error.filename or 'standard output'}: {error.strerror}", file=sys.stderr)
        _end_output()
        return 2
    return result


if __name__ == "__main__":
    sys.exit(main())
