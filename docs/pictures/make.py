#!/usr/bin/env python3
"""Makes the pictures of the pages from what they show: the documents of examples/, crates.txt, the tables of docs/SPEED.md.

    docs/pictures/make.py [FOLDER]    writes bytes.svg, crates.svg, rescue.svg and speed.svg there, or beside this file

Their colours are readable on a light and on a dark page. Graphviz's dot draws crates.svg. `bin/test shown` sees that they are up to
date, and that nothing in them runs over an edge.
"""

import re
import shutil
import struct
import subprocess
import sys
import textwrap
from pathlib import Path
from xml.sax.saxutils import escape

ROOT = Path(__file__).resolve().parents[2]
TEXT = "#737a83"
FONT = "ui-sans-serif, system-ui, 'Helvetica Neue', Arial, 'DejaVu Sans', sans-serif"
MONO = "ui-monospace, 'SF Mono', Menlo, Consolas, 'DejaVu Sans Mono', monospace"
BLUE, GREEN, GREY, RED, LIGHT_RED, BROWN = "#2f6fb3", "#2d7d46", "#69717b", "#c2413a", "#d9534f", "#9a5b13"


class Picture:
    """Shapes, and how high the picture is."""

    def __init__(self, title, width):
        self.title, self.width, self.height, self.shapes = title, width, 0, []

    def box(self, x, y, width, height, fill, radius=4):
        self.shapes.append(f'<rect x="{x}" y="{y}" width="{width}" height="{height}" rx="{radius}" fill="{fill}"/>')

    def line(self, points, colour=TEXT, arrow=False):
        end = ' marker-end="url(#arrow)"' if arrow else ""
        path = " ".join(f"{x},{y}" for x, y in points)
        self.shapes.append(f'<polyline points="{path}" fill="none" stroke="{colour}" stroke-width="1.5"{end}/>')

    def text(self, x, y, text, colour=TEXT, size=13, anchor="start", bold=False, mono=False):
        weight = ' font-weight="600"' if bold else ""
        font = f' font-family="{MONO}"' if mono else ""
        self.shapes.append(
            f'<text x="{x}" y="{y}" fill="{colour}" font-size="{size}" text-anchor="{anchor}"{weight}{font}>{escape(text)}</text>'
        )

    def svg(self):
        return "\n".join(
            [
                f'<svg xmlns="http://www.w3.org/2000/svg" viewBox="0 0 {self.width} {self.height}" width="{self.width}" '
                f'height="{self.height}" font-family="{FONT}" role="img">',
                f"<title>{escape(self.title)}</title>",
                '<defs><marker id="arrow" viewBox="0 0 8 8" refX="7" refY="4" markerWidth="7" markerHeight="7" orient="auto">'
                f'<path d="M0 0L8 4L0 8z" fill="{TEXT}"/></marker></defs>',
                *self.shapes,
                "</svg>",
                "",
            ]
        )


# ---- the bytes of a document ---------------------------------------------------------------------------------------------


def parts_of(data):
    """The parts of a document of texts, booleans and nulls: (offset, length, what, colour); then where its elements stop,
    if they do, and why."""
    parts = [(0, 4, f"length {struct.unpack('<i', data[:4])[0]}", GREY)]
    at = 4
    while at < len(data) - 1:
        tag, key_end = data[at], data.index(0, at + 1)
        payload = key_end + 1
        kind = {2: "text", 8: "boolean", 10: "null"}[tag]
        parts += [(at, 1, "tag", BLUE), (at + 1, payload - at - 1, f"key {data[at + 1:key_end].decode()}", BLUE)]
        size = {8: 1, 10: 0}.get(tag)
        if size is None:
            text = struct.unpack("<i", data[payload : payload + 4])[0]
            left = len(data) - payload - 4
            parts.append((payload, 4, f"length {text}", GREEN))
            if text > left:
                return parts + [(payload + 4, left, "final 0", GREY)], (at, f"the text claims {text} bytes, {left} is left")
            parts.append((payload + 4, text, data[payload + 4 : payload + 3 + text].decode(), GREEN))
            size = 4 + text
        else:
            parts.append((payload, size, kind, GREEN if data[payload] < 2 else RED))
        at = payload + size
    return parts + [(at, 1, "final 0", GREY)], None


def bytes_picture():
    picture = Picture("The bytes of a sound document and of two damaged ones", 900)
    cell, left, y = 37, 24, 30
    for name, heading, remark in [
        ("greeting", "A sound document", ""),
        ("truncated", "A document that stops", ""),
        ("boolean-two", "A document with a damaged value", "; its value is damaged, since a boolean is 0 or 1"),
    ]:
        data = bytes.fromhex((ROOT / f"examples/{name}.hex").read_text())
        parts, stop = parts_of(data)
        printed = (ROOT / f"examples/{name}.list").read_text().splitlines()[0]
        picture.text(left, y, f"{heading}: examples/{name}.hex", size=15, bold=True)
        y += 26
        for offset, length, what, colour in parts:
            x = left + offset * cell
            picture.text(x + 2, y + 8, str(offset), size=11)
            for place in range(offset, offset + length):
                shown = RED if stop and place >= stop[0] and colour != GREY else colour
                picture.box(left + place * cell, y + 14, cell - 2, 30, shown, 3)
                picture.text(left + place * cell + cell / 2 - 1, y + 34, f"{data[place]:02x}", "#ffffff", 14, "middle", mono=True)
            if offset + length == len(data):
                picture.text(x + length * cell + 6, y + 34, what, size=12)
            else:
                picture.text(x + 2, y + 60, what, size=12)
        y += 70
        begin, end = left + 4 * cell, left + (len(data) - 1) * cell - 2
        picture.line([(begin, y), (begin, y + 6), (end, y + 6), (end, y)], LIGHT_RED if stop else TEXT)
        label = f"no element at offset {stop[0]}: {stop[1]}" if stop else f"an element at offset 4{remark}"
        picture.text(begin, y + 24, label, LIGHT_RED if stop or remark else TEXT, 13)
        picture.text(begin, y + 42, f"list prints: {printed}", size=13, mono=True)
        y += 84
    picture.height = y - 30
    return picture


# ---- a damaged dump ------------------------------------------------------------------------------------------------------

SEARCHED = "after a length that can't be right, each place is looked at until documents go on"


def rescue_picture():
    """A dump of three documents, the length of the second damaged, and what is kept of it."""
    picture = Picture("What is kept of a dump with a damaged length", 900)
    whole = bytes.fromhex((ROOT / "examples/greeting.hex").read_text())
    dump = [whole, struct.pack("<i", 2**31 - 1) + whole[4:], whole]
    cell, left, size = 14, 24, len(whole)

    def put(document, at, y):
        for place, byte in enumerate(document):
            wrong = document != whole
            colour = RED if wrong and place < 4 else LIGHT_RED if wrong else GREY if place < 4 else GREEN
            picture.box(at + place * cell, y, cell - 1, 26, colour, 2)
            picture.text(at + place * cell + (cell - 1) / 2, y + 17, f"{byte:02x}", "#ffffff", 9, "middle", mono=True)

    picture.text(left, 30, "three.bson: the length of the second document is damaged", size=15, bold=True)
    for number, document in enumerate(dump):
        at = left + number * size * cell
        put(document, at, 44)
        said = struct.unpack("<i", document[:4])[0]
        picture.text(at, 88, f"at {number * size}: {said:,} bytes long", LIGHT_RED if said != size else TEXT, 13)
    lines = [
        ("check:", f'"three.bson":{size}: unsound length {2**31 - 1}: {2 * size} bytes not read, --resync goes on'),
        ("check --resync:", f'"three.bson":{size}: unsound length {2**31 - 1}: {size} bytes passed over'),
    ]
    for number, (command, line) in enumerate(lines):
        picture.text(left, 158 + 22 * number, command, size=13, bold=True)
        picture.text(left + 120, 158 + 22 * number, line, size=13, mono=True)
    begin = left + size * cell
    picture.line([(begin, 104), (begin + size * cell - 4, 104)], arrow=True)
    picture.text(begin, 124, SEARCHED, size=13)
    picture.text(left, 216, "sound --resync -o good.bson three.bson", size=15, bold=True)
    for number in range(2):
        put(whole, left + number * size * cell, 230)
    picture.height = 274
    return picture


# ---- the crates ----------------------------------------------------------------------------------------------------------

GIVES = {
    "bson_model": "owned values, the ordered tree",
    "raw_view": "views, elements, values, faults",
    "key_set": "which keys of a level are the same",
    "raw_tree": "trees, encodings, first faults, breaches",
    "raw_form": "canonical forms and tokens; no tree",
    "raw_resync": "where documents go on in a damaged dump",
    "raw_bson": "buffers, owned values, canonical forms",
    "raw_shelf": "canonical documents, each once",
    "bson_to_json": "documents as Extended JSON",
    "values_from_json": "single values from Extended JSON",
    "bson_from_json": "documents from Extended JSON",
    "json_round_trip": "that what is printed is read back",
    "bsonraw": "the program for one document in hex",
    "dump_io": "what is read, and how lines are written",
    "dump_commands": "what each command makes of a document",
    "dump_runs": "runs over dumps and over texts",
    "bsonraw_dump": "the program for dumps: command line, files",
    "bsonraw_c": "the library for C, and so for Python and Rust",
    "bson_uses": "proved callers, to copy from",
    "reader": "the program of RATTLE.md, to copy",
}


# The layers, from the lowest up, and what is in each.
LAYERS = {
    "Core": "bson_model raw_view key_set raw_tree raw_form raw_bson raw_shelf",
    "Extended JSON": "bson_to_json values_from_json bson_from_json json_round_trip",
    "Dumps": "raw_resync dump_io dump_commands dump_runs bsonraw_dump",
    "C, and over it Python and Rust": "bsonraw_c python rust",
}
OVER_C = {"python": "the package for Python", "rust": "the crate for Rust"}  # what is over the C library, and no crate of Rattle


def crates_of():
    """Each crate that isn't for tests, and the crates that it uses, of the repository and of the kit."""
    crates = {}
    for line in (ROOT / "crates.txt").read_text().splitlines():
        found = re.match(r"([a-z_]+)[^:]*: *(.*)", line)
        if found and not re.search(r"_tests$|^calls$", found[1]):
            crates[found[1]] = found[2].split()
    return crates


def all_below(crates, name):
    """All crates of the repository that this one uses, by others too."""
    reached = set()
    for below in crates.get(name, []):
        if below in crates:
            reached |= {below} | all_below(crates, below)
    return reached


def edges_of(crates):
    """Which crate uses which, without what follows from other edges."""
    return {
        (name, below)
        for name, listed in crates.items()
        for below in listed
        if below in crates and not any(below in all_below(crates, other) for other in listed if other != below)
    }


def colour_of(name):
    return BLUE if name.startswith("bsonraw") or name in OVER_C else GREY if name in ("bson_uses", "reader") else GREEN


def label_of(name, kit):
    """What a crate's box says: its name, what it gives, and the libraries of the kit that it uses."""
    rows = [f'<b><font face="DejaVu Sans Mono" point-size="14">{name}</font></b>']
    rows += [f'<font point-size="12">{escape(row)}</font>' for row in textwrap.wrap({**GIVES, **OVER_C}[name], 23)]
    if kit:
        rows += [f'<font point-size="10">{escape(row)}</font>' for row in textwrap.wrap(f"with the kit's {', '.join(kit)}", 28)]
    return "<br/>".join(rows)


CRATES_LABEL = "An arrow goes to the crate that uses the one where it begins."


def crates_graph():
    """The crates as dot reads them, in layers; an edge goes from a crate to one that uses it."""
    crates = crates_of()
    edges = sorted(edges_of(crates)) + [(name, "bsonraw_c") for name in OVER_C]
    lines = [
        "digraph crates {",
        f'graph [rankdir=BT, newrank=true, bgcolor=transparent, nodesep=0.2, ranksep=0.4, margin=0.1, pad=0.2, label="{CRATES_LABEL}", '
        f'labelloc=b, fontname="DejaVu Sans", fontsize=12, fontcolor="{TEXT}"]',
        'node [shape=box, style=filled, color=transparent, fontname="DejaVu Sans", fontcolor=white, margin="0.1,0.08"]',
        f'edge [color="{TEXT}", arrowsize=0.7]',
    ]
    for name in [*crates, *OVER_C]:
        kit = [it for it in crates.get(name, []) if it not in crates]
        lines.append(f'{name} [fillcolor="{colour_of(name)}", label=<{label_of(name, kit)}>]')
    for number, (layer, names) in enumerate(LAYERS.items()):
        lines.append(f'subgraph cluster_{number} {{ label="{layer}"; labelloc=b; labeljust=r; margin=12; style=dashed; color="{TEXT}"; {"; ".join(names.split())} }}')
    lines += [f"{below} -> {name}" for name, below in edges]
    return "\n".join([*lines, "}", ""])


def crates_picture():
    drawn = subprocess.run(["dot", "-Tsvg"], input=crates_graph(), stdout=subprocess.PIPE, check=True, text=True).stdout
    drawn = re.sub(r"<!--.*?-->\n|<\?xml.*?\?>\n|<!DOCTYPE.*?>\n", "", drawn, flags=re.DOTALL)
    # (Verdana is as wide as DejaVu Sans, which sizes the boxes)
    drawn = drawn.replace('"DejaVu Sans"', '"DejaVu Sans, Verdana, sans-serif"').replace('"DejaVu Sans Mono"', '"DejaVu Sans Mono, Menlo, monospace"')
    return drawn.replace("<title>crates</title>", "<title>The crates, and what each gives to those above it</title>", 1)


# ---- speed ---------------------------------------------------------------------------------------------------------------


def tables():
    """The tables of SPEED.md: of each its section, its headings and its rows."""
    found, section, rows = [], "", []
    for line in (ROOT / "docs/SPEED.md").read_text().splitlines() + [""]:
        if line.startswith("## "):
            section = line[3:]
        if line.startswith("|"):
            rows.append([cell.strip() for cell in line.strip().strip("|").split("|")])
        elif rows:
            found.append((section, rows[0], rows[2:]))
            rows = []
    return found


def figures(section, row, columns):
    """The figures of a row of a section, under these headings; a picture without them is no picture."""
    for name, headings, rows in tables():
        for cells in rows:
            if name.startswith(section) and cells[0].startswith(row) and all(column in headings for column in columns):
                return [float(cells[headings.index(column)].replace(",", "")) for column in columns]
    sys.exit(f"make.py: docs/SPEED.md has no row {row!r} with {columns} in {section!r}")


PEER = "libbson, 1"  # a row that is a share of libbson's figure
READERS = ["This library", "Rust crate", "libbson", "C by hand"]
BARS = [
    ("Elements of a typical document, in Rattle", "instructions an element", "Reading", "elements of a typical document", READERS),
    ("Elements from C, a call for each", "share of libbson's instructions", "From C", "`bsonraw_iter_next` of", ["instructions", PEER]),
    ("Keys and values of a typical document", "instructions an element", "Reading", "keys and values, typical", READERS),
    ("Look-up of the last of 1,000 keys", "instructions an element", "Reading", "look-up of the last of 1,000 keys", READERS),
    ("Append of 1,000,000 int32", "instructions an element", "Reading", "append of 1,000,000 int32", READERS),
    ("Tree from bytes, typical", "instructions an element", "Reading", "tree from bytes, typical", READERS[:2]),
    ("All levels of 499", "instructions an element", "Reading", "all levels, 499 of them", READERS),
    ("Validation of a typical document", "instructions an element", "Reading", "validation, typical", ["This library", "libbson"]),
    ("Decoding of a typical document, from Python", "microseconds a call", "From Python", "`decode`, typical", ["`bsonraw`", "MongoDB's package"]),
]
SPEED_REMARKS = [
    "Shorter is faster. Instructions are shown, since they don't depend on what else a machine does; SPEED.md has the times beside them.",
    "Going over elements and looking up, libbson doesn't check that keys are UTF-8; bson_validate looks for no repeated key.",
]
NAMES = {"`bsonraw`": "This library", "instructions": "This library", PEER: "libbson"}
COLOURS = {"This library": BLUE, "Rust crate": BROWN, "libbson": GREEN, "C by hand": GREY, "MongoDB's package": GREEN}


def speed_picture():
    picture = Picture("Speed beside the Rust crate, libbson, C by hand and MongoDB's package for Python: shorter is faster", 900)
    left, right, y = 190, 800, 30
    for remark in SPEED_REMARKS:
        picture.text(24, y, remark, size=12)
        y += 18
    y += 12
    for title, unit, section, row, columns in BARS:
        values = [1.0 if column == PEER else figures(section, row, [column])[0] for column in columns]
        picture.text(24, y, title, size=14, bold=True)
        picture.text(right + 76, y, unit, size=12, anchor="end")
        for column, value in zip(columns, values):
            name = NAMES.get(column, column)
            y += 19
            length = max(2, round((right - left) * value / max(values)))
            picture.text(left - 10, y + 4, name, size=13, anchor="end", bold=name == "This library")
            picture.box(left, y - 7, length, 14, COLOURS[name], 2)
            picture.text(left + length + 8, y + 4, f"{value:,.0f}" if value >= 100 else f"{value:g}", size=13)
        y += 31
    picture.height = y - 8
    return picture


DRAWN = {"bytes": bytes_picture, "rescue": rescue_picture, "speed": speed_picture}


def main():
    folder = Path(sys.argv[1]) if len(sys.argv) == 2 else Path(__file__).resolve().parent
    for name, make in DRAWN.items():
        (folder / f"{name}.svg").write_text(make().svg(), encoding="utf-8")
    if shutil.which("dot"):
        (folder / "crates.svg").write_text(crates_picture(), encoding="utf-8")
    else:
        print("make.py: crates.svg isn't made, since graphviz's dot isn't there", file=sys.stderr)


if __name__ == "__main__":
    main()
