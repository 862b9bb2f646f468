"""Makes the wheels of a release: the package's from the one that pip built, and one of the programs, if there are any.

    wheel.py READELF MACHINE WHEEL FOLDER PROVED PAGES PROGRAMS [MARK]

Adds the files of the folder PAGES and PROVED, with the sums of all files, to what a wheel says of itself, and the mark to its
version. The second wheel has the programs of the folder PROGRAMS, which pip installs as it does scripts; where PROGRAMS is empty, there
is no second one. Looks at each program and module: they need the C library and its loader alone, and of Python no private symbol but
those of its stable interface. The youngest symbol of the C library that they ask for says of which manylinux a wheel is, on processors
of the kind MACHINE, as x86_64. Writes them to FOLDER so that the same content is the same bytes. READELF is a program like readelf.
"""

import base64
import hashlib
import os
import re
import subprocess
import sys
import tempfile
import time
import zipfile
from pathlib import Path
from typing import Tuple

Content = Tuple[bytes, int]  # of a file: its bytes and its mode
OLDEST = (2, 17)  # of the C library, that a wheel is made for; pip knows it by a second name, too
LIBRARIES = ["libc.so.6", "ld-linux-aarch64.so.1"]
STABLE = set(
    "_PyArg_ParseTuple_SizeT _PyArg_ParseTupleAndKeywords_SizeT _PyArg_Parse_SizeT _PyObject_CallFunction_SizeT"
    " _PyObject_CallMethod_SizeT _PyObject_GC_New _PyObject_GC_NewVar _PyObject_New _PyObject_NewVar _Py_BuildValue_SizeT"
    " _Py_CheckRecursiveCall _Py_Dealloc _Py_DecRef _Py_IncRef _Py_EllipsisObject _Py_FalseStruct _Py_NoneStruct"
    " _Py_NotImplementedStruct _Py_TrueStruct".split()
)
"""Private names that Python's Misc/stable_abi.toml keeps, since its macros use them."""


def asked(readelf: str, content: bytes) -> str:
    """What this ELF file asks for, as readelf says it."""
    with tempfile.NamedTemporaryFile() as file:
        file.write(content)
        file.flush()
        flags = ["--dynamic-table", "--version-info", "--dyn-syms", "--wide"]
        return subprocess.run([readelf, *flags, file.name], check=True, stdout=subprocess.PIPE, universal_newlines=True).stdout


def wrongs(name: str, said: str) -> "list[str]":
    """What a file asks for that it mustn't."""
    needed = re.findall(r"\(NEEDED\).*\[(.*)\]", said)
    private = re.findall(r" UND (_Py\w+)", said)
    return [f"{name} needs {library}" for library in needed if library not in LIBRARIES] + [
        f"{name} needs {symbol}, which is no part of Python's stable interface" for symbol in private if symbol not in STABLE
    ]


def platforms(said: "list[str]", machine: str) -> "list[str]":
    """The names of the platforms with such processors that have what these files ask for."""
    found = [tuple(map(int, version.split("."))) for text in said for version in re.findall(r"GLIBC_(\d+\.\d+)", text)]
    youngest = max([OLDEST, *found])
    names = ["manylinux_{}_{}_{}".format(*youngest, machine)]
    return [*names, f"manylinux2014_{machine}"] if youngest == OLDEST else names


def digest(content: bytes) -> str:
    return "sha256=" + base64.urlsafe_b64encode(hashlib.sha256(content).digest()).rstrip(b"=").decode()


def renamed(files: "dict[str, Content]", version: str, marked: str, names: "list[str]") -> "dict[str, Content]":
    """The files of the wheel of this version, on the platforms of these names, except for RECORD."""
    result = {}
    info = f"bsonraw-{marked}.dist-info/"
    for name, (content, mode) in files.items():
        name = re.sub(r"^bsonraw-[^/]*\.(dist-info|data)/", rf"bsonraw-{marked}.\1/", name)
        if name == info + "METADATA":
            content = content.replace(f"\nVersion: {version}\n".encode(), f"\nVersion: {marked}\n".encode(), 1)
        if name == info + "WHEEL":
            (tag,) = re.findall(rb"^Tag: (\S+-\S+)-linux_\w+$", content, re.M)
            content = re.sub(rb"^Tag: .*$", lambda _: tags(tag.decode(), names), content, flags=re.M)
        if name != info + "RECORD":
            result[name] = (content, mode)
    return result


def tags(python: str, names: "list[str]") -> bytes:
    return "\n".join(f"Tag: {python}-{it}" for it in names).encode()


def of_programs(programs: "dict[str, bytes]", marked: str, names: "list[str]") -> "dict[str, Content]":
    """The files of the wheel of the programs, except for RECORD."""
    info = f"bsonraw_programs-{marked}.dist-info/"
    metadata = f"Metadata-Version: 2.1\nName: bsonraw-programs\nVersion: {marked}\nSummary: The programs bsonraw and bsonraw-dump\nLicense: MIT\n"
    head = b"Wheel-Version: 1.0\nGenerator: release/wheel.py\nRoot-Is-Purelib: false\n"
    files = {f"bsonraw_programs-{marked}.data/scripts/{name}": (content, 0o755) for name, content in programs.items()}
    return {**files, info + "METADATA": (metadata.encode(), 0o644), info + "WHEEL": (head + tags("py3-none", names) + b"\n", 0o644)}


def with_pages(files: "dict[str, Content]", info: str, pages: "dict[str, bytes]", proved: bytes) -> "dict[str, Content]":
    """The files with the pages, and PROVED with the sums of all of them that pip leaves as they are, under the names that it gives them."""
    files = {**files, **{f"{info}licenses/{name}": (content, 0o644) for name, content in pages.items()}}
    sums = "".join(
        f"{hashlib.sha256(content).hexdigest()}  {name}\n" for name, (content, _) in sorted(files.items()) if ".data/" not in name
    )
    sums += "".join(
        f"{hashlib.sha256(content).hexdigest()}  ../../../bin/{Path(name).name}\n"
        for name, (content, _) in sorted(files.items())
        if ".data/scripts/" in name
    )
    return {**files, info + "PROVED": (proved + b"\nsha256 of what is shipped:\n" + sums.encode(), 0o644)}


def write(path: Path, files: "dict[str, Content]", info: str) -> None:
    """Writes the wheel with its RECORD, in a fixed order and with the time of the commit."""
    lines = [f"{name},{digest(content)},{len(content)}\n" for name, (content, _) in sorted(files.items())]
    files = {**dict(sorted(files.items())), info + "RECORD": ("".join(lines + [info + "RECORD,,\n"]).encode(), 0o644)}
    date = time.gmtime(int(os.environ["SOURCE_DATE_EPOCH"]))[:6]
    with zipfile.ZipFile(path, "w") as wheel:
        for name, (content, mode) in files.items():
            entry = zipfile.ZipInfo(name, date)
            entry.compress_type = zipfile.ZIP_DEFLATED
            entry.create_system = 3
            entry.external_attr = (0o100000 | (0o755 if mode & 0o100 else 0o644)) << 16
            wheel.writestr(entry, content, compresslevel=9)


def seen(readelf: str, machine: str, files: "dict[str, bytes]") -> "list[str]":
    """The names of the platforms that have what these programs and modules ask for; ends where they ask for what they mustn't."""
    said = {name: asked(readelf, content) for name, content in files.items() if content.startswith(b"\x7fELF")}
    found = [wrong for name, text in said.items() for wrong in wrongs(name, text)]
    if found:
        sys.exit("\n".join(found))
    return platforms(list(said.values()), machine)


def read_folder(folder: str) -> "dict[str, bytes]":
    return {it.name: it.read_bytes() for it in sorted(Path(folder).iterdir())}


def main(readelf: str, machine: str, source: str, folder: str, proved: str, pages: str, programs: str, mark: str = "") -> None:
    _, version, python, abi, _ = Path(source).stem.split("-")
    marked = version + (f"+{mark}" if mark else "")
    said, head = read_folder(pages), Path(proved).read_bytes()
    with zipfile.ZipFile(source) as wheel:
        built = {e.filename: (wheel.read(e), e.external_attr >> 16) for e in wheel.infolist() if not e.is_dir()}
    names = seen(readelf, machine, {name: content for name, (content, _) in built.items()})
    info = f"bsonraw-{marked}.dist-info/"
    files = with_pages(renamed(built, version, marked, names), info, said, head)
    write(Path(folder, f"bsonraw-{marked}-{python}-{abi}-{'.'.join(names)}.whl"), files, info)

    if not programs:
        return
    own = read_folder(programs)
    names = seen(readelf, machine, own)
    info = f"bsonraw_programs-{marked}.dist-info/"
    files = with_pages(of_programs(own, marked, names), info, said, head)
    write(Path(folder, f"bsonraw_programs-{marked}-py3-none-{'.'.join(names)}.whl"), files, info)


if __name__ == "__main__":
    main(*sys.argv[1:])
