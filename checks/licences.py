"""Whether a file has the whole text of the licence of each of these libraries of the Rattle kit; says which it lacks.

    licences.py KIT FILE PART..

Of a part that leaves the choice the licence MIT is meant. Lines may be broken and indented otherwise, and a text that each Debian has may
be named in its place. A part for which the kit has no licence has to be named. What a part's sources quote or name is needed, too.
"""

import re
import sys
from pathlib import Path


def words(text: str) -> str:
    """The text on one line; a dot alone on its line is an empty line of Debian's form."""
    return " ".join(word for line in text.splitlines() if line.strip() != "." for word in line.split())


def quoted(kit: Path, part: str) -> "dict[str, str]":
    """The licences that comments of a part's sources quote, and that of Unicode's data where they name it."""
    found = {}
    for source in (kit / "rattle" / part / "src").rglob("*.rt"):
        comments = words("\n".join(it.lstrip("/") for it in source.read_text().splitlines() if it.startswith("//")))
        for text in re.findall(r"Permission is hereby granted.*?DEALINGS IN THE SOFTWARE\.", comments):
            found[source.name] = text
        if re.search("unicode.{0,3} licen[cs]e", comments, re.I):
            found[source.name] = words((kit / "rattle" / "unicode" / "LICENSE-UNICODE").read_text())
    return found


def lacks(kit: Path, said: str, part: str) -> "list[str]":
    files = sorted((kit / "rattle" / part).glob("LICEN[CS]E*"))
    names = {it.name for it in files}
    wanted = {it.name: words(it.read_text()) for it in files if not (it.name == "LICENSE-APACHE" and "LICENSE-MIT" in names)}
    if not wanted and not re.search(rf"\b{part}\b", said):
        return [part]
    wanted.update(quoted(kit, part))
    on_debian = {"Apache License"} if "/usr/share/common-licenses/Apache-2.0" in said else set()
    return [f"{part}: {name}" for name, text in wanted.items() if text not in said and not any(text.startswith(it) for it in on_debian)]


def main(kit: str, file: str, *parts: str) -> None:
    said = words(Path(file).read_text())
    found = [it for part in parts for it in lacks(Path(kit), said, part)]
    for it in found:
        print(it)
    sys.exit(1 if found or not parts else 0)


if __name__ == "__main__":
    main(*sys.argv[1:])
