"""What the checks in Python share: the programs, and how they are run; a folder of one's own; what isn't tried, and why."""

import os
import resource
import shutil
import subprocess
import tempfile
import unittest
from pathlib import Path
from typing import Any, List, NamedTuple, Optional, Sequence, Tuple, Union

from checks.checklist import ROOT, tracked

BSONRAW = ROOT / "crates" / "bsonraw" / "out" / "bsonraw"
DUMP = ROOT / "crates" / "bsonraw_dump" / "out" / "bsonraw_dump"
GREETING = b"\x13\0\0\0\x02hi\0\x06\0\0\0y'all\0\0"
Word = Union[str, bytes, Path]


# (so that no file of a run has this number by chance; see `reported`)
os.dup2(os.open(os.devnull, os.O_RDWR), 3)


class Ran(NamedTuple):
    """What came of a run."""

    status: int
    out: bytes
    err: bytes


def run(*words: Word, **how: Any) -> Ran:
    """Runs a command with nothing on standard input, unless it is given some."""
    if "stdin" not in how and "input" not in how:
        how["stdin"] = subprocess.DEVNULL
    how.setdefault("stdout", subprocess.PIPE)
    how.setdefault("stderr", subprocess.PIPE)
    done = subprocess.run(list(words), **how)
    return Ran(done.returncode, done.stdout or b"", done.stderr or b"")


def kit() -> Path:
    """The kit's folder."""
    return Path(os.path.realpath(run("rt", "doc").out.decode().strip())).parent


def compiled(source: str, to: Path, *flags: str) -> Path:
    """A file of C of this folder, compiled by the kit's clang, so that no other is needed."""
    words = [kit() / "toolchain/bin/clang", "-nostdlib", "-fuse-ld=lld", *flags, "-o", to, ROOT / "checks" / source]
    subprocess.run(words, check=True)
    return to


def preloaded(source: str, to: Path) -> Path:
    """Such a file as a library that LD_PRELOAD names."""
    return compiled(source, to, "-shared", "-fPIC", "-O1")


def reported(shim: Path, *words: Word, stack: Optional[int] = None, **how: Any) -> Tuple[Ran, List[int]]:
    """Runs a command with such a library, and a stack of this many KiB. Returns what came of it, and the numbers that the library wrote to
    its file 3."""
    with tempfile.TemporaryFile() as report:

        def prepare() -> None:
            os.dup2(report.fileno(), 3)
            resource.setrlimit(resource.RLIMIT_CORE, (0, 0))
            if stack:
                resource.setrlimit(resource.RLIMIT_STACK, (stack << 10, resource.getrlimit(resource.RLIMIT_STACK)[1]))

        how["env"] = {**os.environ, **how.get("env", {}), "LD_PRELOAD": str(shim)}
        ran = run(*words, preexec_fn=prepare, close_fds=False, **how)
        report.seek(0)
        return ran, [int(it) for it in report.read().split()]


def copy_tracked(to: Path, *starts: str) -> None:
    """Copies the repository's files, also new ones, whose names start with one of these."""
    for name in tracked():
        if name.startswith(starts or ("",)):
            (to / name).parent.mkdir(parents=True, exist_ok=True)
            shutil.copy2(ROOT / name, to / name, follow_symlinks=False)


def skip(what: str) -> None:
    """Notes that this isn't tried, as checks/skips.sh does; WHAT names Debian's package."""
    if "SKIPS" in os.environ:
        with open(os.environ["SKIPS"], "a") as skips:
            print(f"{os.environ.get('CHECK', 'checks')}: {what}", file=skips)


def hexed(text: Union[str, bytes]) -> bytes:
    """The bytes that a text of hex digits writes."""
    return bytes.fromhex(text if isinstance(text, str) else text.decode())


def document(*elements: bytes) -> bytes:
    """The document of these elements."""
    body = b"".join(elements)
    return (len(body) + 5).to_bytes(4, "little") + body + b"\0"


def levels(count: int) -> bytes:
    """This many levels of documents, each but the innermost holding the next under the empty key."""
    heads = ((5 + 7 * inside).to_bytes(4, "little") + b"\3\0" for inside in range(count - 1, 0, -1))
    return b"".join(heads) + b"\5\0\0\0\0" + b"\0" * (count - 1)


class Case(unittest.TestCase):
    """Tests in a folder of their own, which goes at the end."""

    work: Path
    programs: Sequence[Path] = ()
    """What has to be built for them."""

    @classmethod
    def setUpClass(cls) -> None:
        for it in cls.programs:
            if not os.access(it, os.X_OK):
                raise AssertionError(f"{it.relative_to(ROOT)} isn't built; bin/install PREFIX builds the programs, `rt test` in its crate the tests")
        cls.work = Path(tempfile.mkdtemp(prefix="checks-"))
        cls.addClassCleanup(shutil.rmtree, cls.work, ignore_errors=True)

    def put(self, name: str, *parts: bytes) -> Path:
        (self.work / name).write_bytes(b"".join(parts))
        return self.work / name

    def none_of(self, wrong: Sequence[str], what: str = "") -> None:
        """Fails with these lines, if there are any."""
        self.assertFalse(list(wrong), "\n".join(["", *wrong, what]))
