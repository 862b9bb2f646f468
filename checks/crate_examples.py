#!/usr/bin/env python3
"""Prints the examples in the comments of another crate's files as a page of Markdown, for rustdoc --test, with that crate's name replaced.

    checks/crate_examples.py bson bsonraw FOLDER    FOLDER: that of the files *.rs, or *.rs.txt
"""
import pathlib
import re
import sys

FENCE = "```"


def examples(text):
    """The examples of a file. One whose end is missing ends with its comment, as rustdoc reads it."""
    block = None
    for line in [*text.splitlines(), ""]:
        comment = re.match(r"\s*//[/!] ?(.*)", line)
        is_fence = comment and comment[1].strip().startswith(FENCE)
        if block is None and is_fence:
            block = []
        elif block is not None and (is_fence or not comment):
            yield block
            block = None
        elif block is not None:
            block.append(comment[1])


def main():
    name, other, folder = sys.argv[1:]
    files = sorted(it for it in pathlib.Path(folder).rglob("*") if it.name.endswith((".rs", ".rs.txt")))
    for file in files:
        for block in examples(file.read_text()):
            code = re.sub(rf"\b{name}::", f"{other}::", "\n".join(block))
            print(f"{FENCE}rust,edition2021\n{code}\n{FENCE}\n")


main()
