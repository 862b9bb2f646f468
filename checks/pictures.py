"""Sees that nothing in a picture runs over its edge, nor a text over the box that it begins in, and that crates.svg is of crates.txt.

    pictures.py PICTURE.svg..

A text is as wide as in DejaVu Sans. Where that font isn't installed, texts aren't measured, and that is said.
"""

import importlib.util
import re
import struct
import sys
import xml.etree.ElementTree as ElementTree
from functools import lru_cache
from pathlib import Path
from xml.sax.saxutils import unescape

ROOT = Path(__file__).resolve().parent.parent
SVG = "{http://www.w3.org/2000/svg}"
FONTS = Path("/usr/share/fonts/truetype/dejavu")
ROOM = 1  # how far over an edge a shape may be: half of the width of its line


class Font:
    """The widths of a TrueType font's glyphs, for characters of the basic plane."""

    def __init__(self, path):
        data = path.read_bytes()
        count = struct.unpack(">H", data[4:6])[0]
        tables = {}
        for index in range(count):
            name, _, offset, length = struct.unpack(">4sIII", data[12 + 16 * index : 28 + 16 * index])
            tables[name] = data[offset : offset + length]
        self.em = struct.unpack(">H", tables[b"head"][18:20])[0]
        self.metrics = struct.unpack(">H", tables[b"hhea"][34:36])[0]
        self.hmtx = tables[b"hmtx"]
        self.glyphs = self.read_glyphs(tables[b"cmap"])

    @staticmethod
    def read_glyphs(cmap):
        """The glyph of each character, from the table of format 4."""
        count = struct.unpack(">H", cmap[2:4])[0]
        offsets = [struct.unpack(">I", cmap[8 + 8 * it : 12 + 8 * it])[0] for it in range(count)]
        table = next(cmap[it:] for it in offsets if struct.unpack(">H", cmap[it : it + 2])[0] == 4)
        segments = struct.unpack(">H", table[6:8])[0] // 2
        words = struct.unpack(f">{(len(table) - 14) // 2}H", table[14 : 14 + (len(table) - 14) // 2 * 2])
        ends, starts = words[:segments], words[segments + 1 : 2 * segments + 1]
        deltas, ranges = words[2 * segments + 1 : 3 * segments + 1], words[3 * segments + 1 :]
        glyphs = {}
        for index in range(segments):
            for code in range(starts[index], min(ends[index], 0xFFFE) + 1):
                if ranges[index] == 0:
                    glyphs[code] = (code + deltas[index]) & 0xFFFF
                else:
                    glyph = ranges[index + ranges[index] // 2 + code - starts[index]]
                    glyphs[code] = (glyph + deltas[index]) & 0xFFFF if glyph else 0
        return glyphs

    def width(self, text, size):
        places = [min(self.glyphs.get(ord(it), 0), self.metrics - 1) for it in text]
        return sum(struct.unpack(">H", self.hmtx[4 * it : 4 * it + 2])[0] for it in places) * size / self.em


@lru_cache(None)
def font_of(is_mono, is_bold):
    path = FONTS / f"DejaVuSans{'Mono' if is_mono else ''}{'-Bold' if is_bold else ''}.ttf"
    return Font(path) if path.exists() else None


def numbers(text):
    return [float(it) for it in re.findall(r"-?\d+(?:\.\d+)?", text)]


def moved(element, by):
    """Where the picture's elements are moved to, below this one."""
    found = re.search(r"translate\(([^)]*)\)", element.get("transform", ""))
    return (by[0] + numbers(found[1])[0], by[1] + numbers(found[1])[1]) if found else by


def shapes(element, by=(0, 0)):
    """Each shape and text of a picture, with its name, its corners, and its own text: text, its size and font decide the corners."""
    by = moved(element, by)
    for child in element:
        name = child.tag.removeprefix(SVG)
        if name == "g":
            yield from shapes(child, by)
        elif name == "rect":
            x, y, width, height = (float(child.get(it)) for it in ("x", "y", "width", "height"))
            yield name, corners([x, y, x + width, y + height], by), child
        elif name in ("polygon", "polyline", "path"):
            yield name, corners(numbers(child.get("points") or child.get("d")), by), child
        elif name == "text":
            yield name, text_corners(child, by), child


def corners(flat, by):
    xs, ys = [it + by[0] for it in flat[::2]], [it + by[1] for it in flat[1::2]]
    return min(xs), min(ys), max(xs), max(ys)


def text_corners(element, by):
    x, y, size = float(element.get("x")) + by[0], float(element.get("y")) + by[1], float(element.get("font-size"))
    font = font_of("mono" in element.get("font-family", "").lower(), element.get("font-weight") in ("bold", "600"))
    width = font.width(element.text or "", size) if font else 0
    left = x - {"start": 0, "middle": width / 2, "end": width}[element.get("text-anchor", "start")]
    return left, y - 0.76 * size, left + width, y + 0.24 * size


def is_inside(inner, outer, room=ROOM):
    return inner[0] >= outer[0] - room and inner[1] >= outer[1] - room and inner[2] <= outer[2] + room and inner[3] <= outer[3] + room


def wrongs(path):
    """What runs over an edge in this picture."""
    top = ElementTree.parse(path).getroot()
    x, y, width, height = numbers(top.get("viewBox"))
    found = list(shapes(top))
    boxes = [(at, it) for name, at, it in found if name == "rect" or name == "polygon" and at[3] - at[1] > 20]
    for name, at, element in found:
        what = element.text if name == "text" else name
        if not is_inside(at, (x, y, x + width, y + height)):
            yield f"{path.name}: {what!r} leaves the picture"
        if name == "text":
            middle = (at[1] + at[3]) / 2
            for box, _ in boxes:
                if box[0] <= at[0] <= box[2] and box[1] <= middle <= box[3] and not is_inside(at, box):
                    yield f"{path.name}: {what!r} runs over its box"


def crates_wrongs(path):
    """What crates.svg lacks of crates.txt, or has besides."""
    spec = importlib.util.spec_from_file_location("make", ROOT / "docs" / "pictures" / "make.py")
    make = importlib.util.module_from_spec(spec)
    spec.loader.exec_module(make)
    wanted = make.crates_graph()
    top = ElementTree.parse(path).getroot()
    drawn = {it.text for it in top.iter(f"{SVG}title")} - {"The crates, and what each gives to those above it"}
    names = set(re.findall(r"^(?:subgraph )?(\w+) (?:\[fillcolor|\{)", wanted, re.M))
    edges = {it.replace(" ", "") for it in re.findall(r"^\w+ -> \w+$", wanted, re.M)}
    said = {it.text for it in top.iter(f"{SVG}text") if it.text} - {make.CRATES_LABEL}
    texts = {unescape(it) for it in re.findall(r">([^<>\n]+)<", wanted)} | set(make.LAYERS)
    yield from (f"crates.svg: {it} is wrong or missing" for it in sorted((names | edges) ^ drawn))
    yield from (f"crates.svg: {it!r} is wrong or missing" for it in sorted(texts ^ said))


def main(paths):
    found = [it for path in paths for it in wrongs(path)]
    found += [it for path in paths if path.name == "crates.svg" for it in crates_wrongs(path)]
    if font_of(False, False) is None:
        print("pictures: texts aren't measured, since DejaVu Sans isn't installed")
    for it in found:
        print(f"pictures: {it}", file=sys.stderr)
    return 1 if found else 0


if __name__ == "__main__":
    sys.exit(main([Path(it) for it in sys.argv[1:]]))
