"""Builds the compiled module, linked with the static library libbsonraw.a.

The header and the library are those of the prefix that BSONRAW_PREFIX names, where bin/install put them; without it, those of
the first prefix that has them, ~/.local, /usr/local or /usr, or else those that pkg-config finds, such as those of Debian's
packages. They are looked for when the module is compiled: the metadata and the source archive don't need them. A build by CPython
3.11 or later serves it and all later ones; an older one makes a build for itself.
"""

import hashlib
import os
import re
import subprocess
import sys
import sysconfig
from importlib.util import find_spec
from pathlib import Path

from setuptools import Extension, setup
from setuptools.command.build_ext import build_ext

FOLDER = Path(__file__).resolve().parent


def found_by_pkg_config() -> "list[tuple[Path, Path]]":
    """The folders of the header and of the library where pkg-config finds them; none where it doesn't, or isn't there."""
    command = [os.environ.get("PKG_CONFIG", "pkg-config"), "bsonraw", "--variable"]
    try:
        include, lib = (subprocess.check_output([*command, it], stderr=subprocess.DEVNULL, text=True) for it in ("includedir", "libdir"))
    except (OSError, subprocess.CalledProcessError):
        return []
    return [(Path(include.strip()), Path(lib.strip()))]


def folders() -> "tuple[Path, Path]":
    """The folders of the header and of the library."""
    named = os.environ.get("BSONRAW_PREFIX")
    tried = [Path(named)] if named else [Path.home() / ".local", Path("/usr/local"), Path("/usr")]
    for include, lib in [(it / "include", it / "lib") for it in tried] + ([] if named else found_by_pkg_config()):
        if (include / "bsonraw.h").exists() and (lib / "libbsonraw.a").exists():
            return include.resolve(), lib.resolve()
    raise SystemExit(
        f"bsonraw: include/bsonraw.h and lib/libbsonraw.a aren't in {', '.join(map(str, tried))}{'' if named else ', nor does pkg-config find them'}:"
        " install a release's libbsonraw-dev, or run bin/install PREFIX in a clone of Foyeranise and set BSONRAW_PREFIX to PREFIX"
    )


def version_of(header: Path) -> str:
    number = int(re.findall(r"^#define BSONRAW_VERSION (\d+)", header.read_text(), re.M)[0])
    return f"{number // 10000}.{number // 100 % 100}.{number % 100}"


def version() -> str:
    """The version: in a source archive that of its PKG-INFO, in a clone that of its VERSION, and elsewhere the library's."""
    if (FOLDER / "PKG-INFO").exists():
        return re.findall(r"^Version: (.*)", (FOLDER / "PKG-INFO").read_text(), re.M)[0]
    if (FOLDER.parent / "c" / "bsonraw.h").exists() and (FOLDER.parent / "VERSION").exists():
        return (FOLDER.parent / "VERSION").read_text().strip()
    return version_of(folders()[0] / "bsonraw.h")


class Build(build_ext):
    """Builds anew what an earlier build made of another library or header, whatever the times of the files."""

    def build_extension(self, extension: Extension) -> None:
        include, lib = folders()
        files = (include / "bsonraw.h", lib / "libbsonraw.a")
        extension.include_dirs.append(str(include))
        extension.extra_objects.append(str(files[1]))
        content = hashlib.sha256(b"".join(hashlib.sha256(file.read_bytes()).digest() for file in files)).hexdigest()
        noted = Path(self.build_temp) / "library.sha256"
        if not noted.exists() or noted.read_text() != content:
            self.force = True
        super().build_extension(extension)
        noted.parent.mkdir(parents=True, exist_ok=True)
        noted.write_text(content)


if "dist_info" in sys.argv and not find_spec("wheel") and not find_spec("setuptools.command.bdist_wheel"):
    python = os.path.realpath(sys.executable)
    raise SystemExit(f"bsonraw: {python} has no package wheel, which setuptools needs here; Debian's python3-wheel is for /usr/bin/python3")
limited = sys.version_info >= (3, 11) and not sysconfig.get_config_var("Py_GIL_DISABLED")
os.chdir(FOLDER)
setup(
    name="bsonraw",
    packages=["bsonraw", "bsonraw.compat"],
    package_data={"bsonraw": ["py.typed", "*.pyi"]},
    version=version(),
    ext_modules=[
        Extension(
            "bsonraw._native",
            sorted(str(path) for path in Path("src").glob("*.c")),
            depends=sorted(str(path) for path in Path("src").glob("*.h")),
            define_macros=[("Py_LIMITED_API", "0x030B0000")] if limited else [],
            py_limited_api=limited,
            extra_compile_args=["-O3", "-falign-functions=64", "-g0", "-fno-plt", "-fvisibility=hidden", *os.environ.get("BSONRAW_CFLAGS", "").split()],
            extra_link_args=["-Wl,--exclude-libs,ALL", *os.environ.get("BSONRAW_LDFLAGS", "").split()],
        )
    ],
    cmdclass={"build_ext": Build},
    options={"bdist_wheel": {"py_limited_api": "cp311"}} if limited else {},
)
