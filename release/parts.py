"""The parts of a release that aren't this repository's: libraries of the Rattle kit, which are compiled into what is shipped.

    parts.py KIT [CRATE..]            prints the name of each part, and its licences, a line each
    parts.py KIT --licences CRATE..   prints the texts of their licences
    parts.py KIT --debian CRATE..     the same without the text that each Debian has
    parts.py KIT --spdx CRATE..       prints them as a list in the form of SPDX 2.3

They are the libraries that the crates' lines of crates.txt name, and those that these libraries name in turn. KIT is the kit's
folder. The time in the list is SOURCE_DATE_EPOCH. Of a part that leaves the choice the licence MIT is taken. A licence whose text isn't
known here is an error, and so is a source that names one which isn't.
"""

import hashlib
import json
import os
import re
import sys
import time
from pathlib import Path

TOP = Path(__file__).resolve().parent.parent

# how a licence's text shows which it is, by its name in SPDX's list
KNOWN = {
    "Apache-2.0": r"Apache License\s+Version 2\.0",
    "BSL-1.0": r"Boost Software License - Version 1\.0",
    "MIT": r"Permission is hereby granted, free of charge, to any\s+person\s+obtaining\s+a\s+copy\s+of\s+this\s+software\s+and\s+associated",
    "Unicode-3.0": r"UNICODE LICENSE V3",
}

# what sources of the kit say that they have from elsewhere: the file of the kit with the licence of that; none where it asks for no notice
TAKEN = {
    "fast-float2": "fast_float/LICENSE",
    "Unicode License v3": "unicode/LICENSE-UNICODE",
    "(Unlicense)": "",
}

# what the linker puts into a program around its own code: each licence has an exception for just that, which asks for no notice
START_CODE = {
    "glibc": ("start code of the GNU C library", "LGPL-2.1-or-later WITH GCC-exception-2.0-note"),
    "gcc": ("start code of GCC, and of its libgcc", "GPL-3.0-or-later WITH GCC-exception-3.1"),
}


def crates() -> "dict[str, list[str]]":
    """The repository's crates, and the libraries that each is over."""
    lines = [it.partition("#")[0].partition(":") for it in (TOP / "crates.txt").read_text().splitlines()]
    return {head.split()[0]: tail.split() for head, colon, tail in lines if colon}


def parts(kit: Path, wanted: "list[str]") -> "list[str]":
    """The names of the kit's libraries below these crates."""
    own, found, left = crates(), set(), list(wanted) + ["std"]
    while left:
        name = left.pop()
        if name in own:
            left += own[name]
        elif name not in found:
            found.add(name)
            left += re.findall(r"^dep (\w+)$", (kit / "rlibs" / f"{name}.rlib" / "format").read_text(), re.M)
    return sorted(found)


def texts(kit: Path, part: str) -> "dict[str, str]":
    """The texts of the licences under which a part is taken, by the names of their files; none of a library that is the kit's own."""
    found = {it.name: it.read_text() for it in sorted((kit / "rattle" / part).glob("LICENSE*"))}
    if set(found) == {"LICENSE-APACHE", "LICENSE-MIT"}:
        del found["LICENSE-APACHE"]
    return found


def taken(kit: Path, part: str) -> "dict[str, str]":
    """The texts of the licences of what a part's sources say that they have from elsewhere, by the names of their files in the kit."""
    found = set()
    for source in sorted((kit / "rattle" / part / "src").rglob("*.rt")):
        text = source.read_text()
        named = {file for word, file in TAKEN.items() if word in text}
        if not named and re.search("licen[cs]e|copyright", text, re.I):
            sys.exit(f"parts: {source} names a licence that isn't known here")
        found |= named - {""}
    return {file: (kit / "rattle" / file).read_text() for file in sorted(found)}


def name_of(part: str, file: str, text: str) -> str:
    """Which licence a text is, in the words of SPDX."""
    for name, pattern in KNOWN.items():
        if re.search(pattern, text):
            return name
    sys.exit(f"parts: {part}/{file} is a licence that isn't known here")


def licence(kit: Path, part: str) -> str:
    return " AND ".join(name_of(part, *it) for it in texts(kit, part).items()) or "NOASSERTION"


def has_program(wanted: "list[str]") -> bool:
    return any((TOP / "crates" / it / "src" / "main.rt").exists() for it in wanted)


def licences(kit: Path, found: "list[str]", on_debian: bool, programs: bool) -> str:
    own = [it for it in found if not texts(kit, it)]
    said = ["Compiled into this release, besides its own code, are these libraries of the Rattle kit.\n"]
    said += [f"{part} ({licence(kit, part)})" for part in found if part not in own]
    said += ["", "and of the kit's own, for which the kit states no licence: " + ", ".join(own) + ".\n"]
    for part in found:
        said += [f"{part} has code or data of others: {file}, {name_of(part, file, text)}" for file, text in taken(kit, part).items()]
    said += [""]
    if programs:
        said += ["A program also has, by exceptions in their licences that ask for no notice:\n"]
        said += [f"{what} ({licence})" for what, licence in START_CODE.values()] + [""]
    for part in found:
        for file, text in {**texts(kit, part), **taken(kit, part)}.items():
            name = name_of(part, file, text)
            if on_debian and name == "Apache-2.0":
                text = "Its text is in /usr/share/common-licenses/Apache-2.0."
            said += ["-" * 100, f"{part}: {file}, {name}\n", text.strip("\n") + "\n"]
    return "\n".join(said)


def spdx(kit: Path, found: "list[str]", version: str, programs: bool) -> str:
    now = time.strftime("%Y-%m-%dT%H:%M:%SZ", time.gmtime(int(os.environ["SOURCE_DATE_EPOCH"])))
    named = hashlib.sha256("\n".join([version, now, *found]).encode()).hexdigest()
    kit_version = (kit / "KIT-ID").read_text().split()[0]

    def package(name: str, version: str, licence: str) -> "dict[str, object]":
        return {
            "SPDXID": f"SPDXRef-{name.replace('_', '-')}",
            "name": name,
            "versionInfo": version,
            "downloadLocation": "NOASSERTION",
            "filesAnalyzed": False,
            "licenseConcluded": licence,
            "licenseDeclared": licence,
            "copyrightText": "NOASSERTION",
        }

    listed = [package(it, kit_version, licence(kit, it)) for it in found]
    listed += [
        package(f"{it}-{Path(file).parent}", "NOASSERTION", name_of(it, file, text)) for it in found for file, text in taken(kit, it).items()
    ]
    listed += [package(f"{name}-start-code", "NOASSERTION", it) for name, (_, it) in START_CODE.items() if programs]
    related = [("SPDXRef-DOCUMENT", "DESCRIBES", "SPDXRef-bsonraw"), *[("SPDXRef-bsonraw", "STATIC_LINK", it["SPDXID"]) for it in listed]]
    document = {
        "spdxVersion": "SPDX-2.3",
        "dataLicense": "CC0-1.0",
        "SPDXID": "SPDXRef-DOCUMENT",
        "name": f"bsonraw-{version}",
        "documentNamespace": f"urn:sha256:{named}",
        "creationInfo": {"created": now, "creators": ["Tool: release/parts.py"]},
        "packages": [package("bsonraw", version, "MIT"), *listed],
        "relationships": [dict(zip(("spdxElementId", "relationshipType", "relatedSpdxElement"), it)) for it in related],
    }
    return json.dumps(document, indent=1) + "\n"


def main(kit: str, *words: str) -> None:
    folder, wanted = Path(kit), [it for it in words if not it.startswith("--")]
    unknown = [it for it in wanted if it not in crates()]
    if unknown:
        sys.exit(f"parts: crates.txt has no crate {unknown[0]}")
    found = parts(folder, wanted)
    if "--licences" in words or "--debian" in words:
        print(licences(folder, found, "--debian" in words, has_program(wanted)), end="")
    elif "--spdx" in words:
        print(spdx(folder, found, (TOP / "VERSION").read_text().strip(), has_program(wanted)), end="")
    else:
        for part in found:
            print(part, licence(folder, part))


if __name__ == "__main__":
    if len(sys.argv) < 2:
        sys.exit("usage: parts.py KIT [--licences|--debian|--spdx] CRATE..")
    main(*sys.argv[1:])
