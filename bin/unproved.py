"""Runs a program without a proof: `rt try` compiles it for this one run. bin/build.sh runs this, after words.py.

    unproved.py ME CRATE --unproved WORD..   the status is that of the program, or 125 if the run has no result
"""

import os
import re
import shutil
import signal
import subprocess
import sys
import tempfile
from pathlib import Path
from typing import Iterator, List, NoReturn

sys.path.insert(0, str(Path(__file__).resolve().parent))
sys.dont_write_bytecode = True

from words import Asked, Program, texts  # noqa: E402

MIB = 1 << 20
MOST_READ = 64 * MIB
MOST_WRITTEN = MIB
"""Bytes on standard output, and on standard error, by `rt try` itself."""
MOST_SECONDS = 600
"""How long a run may take once it is compiled."""
WRITES = {"list": MOST_WRITTEN, "canon": MOST_WRITTEN, "sound": MOST_WRITTEN, "json": 4 * MOST_WRITTEN}
"""Commands that write about what they read, and how many bytes certainly make too much. An array's numbers are shorter in JSON."""
PORTIONS = {"--at", "--skip", "--take"}
TAKEN = ("program", "stdin", "stdout", "stderr", "case")
"""Names that `rt try` has in the folder of the run."""


class Unproved:
    def __init__(self, me: str, crate: str, words: List[str], folder: Path) -> None:
        self.me, self.crate, self.words, self.folder = me, crate, words, folder

    def fail(self, why: str) -> NoReturn:
        print(f"{self.me}: {why}", file=sys.stderr)
        sys.exit(125)

    def run(self, asked: Asked) -> int:
        if "--output" in asked.options:
            self.fail("without a proof nothing is written to an OUTPUT; redirect standard output")
        read = sum(it.stat().st_size for it in self.read_by(asked.files))
        self.limit(asked, read)
        if "-" in asked.files or not asked.files:
            given = self.take_input()
            if given > MOST_READ:
                self.fail(f"without a proof standard input has at most {MOST_READ // MIB} MiB; name a FILE, or leave out --unproved")
            self.limit(asked, read + given)
        else:
            (self.folder / "stdin").touch()
        data = [word for name, file in self.copies(asked.files) for word in ("--data", f"{name}={file}")]
        words = [self.seen_as(it) if it in asked.files else it for it in self.words]
        say = "nothing is proved in this run; the program is compiled for it, as for each run without a proof, which takes half a minute to two"
        print(f"{self.me}: {say}", file=sys.stderr, flush=True)
        return self.try_program(["--steps", "1", "--seconds", str(MOST_SECONDS), *data, "--", *words])

    def limit(self, asked: Asked, read: int) -> None:
        """Ends the run where it reads or writes too much."""
        if PORTIONS.intersection(asked.options):
            return
        if read > MOST_READ:
            self.fail(f"without a proof at most {MOST_READ // MIB} MiB are read, and this is more; add --take N, or leave out --unproved")
        if read > WRITES.get(asked.command, read):
            self.fail(f"without a proof at most {MOST_WRITTEN // MIB} MiB is written, and this is more; add --take N, or leave out --unproved")

    def take_input(self) -> int:
        """Puts standard input into a file, since `rt try` takes a pipe that is silent for two seconds for one that has ended; returns its length."""
        with open(self.folder / "stdin", "wb") as file:
            while file.tell() <= MOST_READ:
                block = os.read(sys.stdin.fileno(), MIB)
                if not block:
                    break
                file.write(block)
            return file.tell()

    @staticmethod
    def is_copied(name: str) -> bool:
        """Whether the run gets a copy under the same name: what is below this folder, as the run has a folder of its own."""
        first = os.path.normpath(name).split("/")[0]
        return name != "-" and first not in ("", "..", ".", *TAKEN)

    def seen_as(self, name: str) -> str:
        """The name by which the run finds a FILE."""
        if name == "-" or os.path.isabs(name) or (self.is_copied(name) and any(True for _ in self.copies([name]))):
            return name
        return os.path.realpath(name)

    def read_by(self, files: List[str]) -> Iterator[Path]:
        """The files that are read: of a folder its dumps."""
        for name in files:
            if os.path.isfile(name) and name != "-":
                yield Path(name)
            elif os.path.isdir(name):
                yield from (it for it in sorted(Path(name).glob("*.bson")) if it.is_file())

    def copies(self, files: List[str]) -> Iterator["tuple[str, str]"]:
        """The files of which the run gets a copy, each with its name there."""
        for name in filter(self.is_copied, files):
            for file in self.read_by([name]):
                if "=" in str(file):
                    self.fail(f"without a proof a FILE's name can't have an = in it: {file}")
                yield os.path.normpath(file), os.path.realpath(file)

    def try_program(self, words: List[str]) -> int:
        """Compiles and runs the program, and passes on what it writes and its status, if it comes to its end."""
        said = self.folder / "said"
        with open(self.folder / "stdin", "rb") as given, open(said, "wb") as errors, open(self.folder / "output", "wb") as output:
            top = Path(__file__).resolve().parent.parent
            ran = subprocess.Popen(["rt", "try", *words], cwd=top / "crates" / self.crate, stdin=given, stdout=output, stderr=errors)
            try:
                ran.wait()
            finally:
                ran.terminate()
                ran.wait()
        text = said.read_text(errors="surrogateescape")
        ended = re.search(r"(?m)^run=ended status=(\d+) ", text)
        if not ended:
            self.fail(self.why(text))
        own = re.split(r"(?m)^interpreter: ", text)[0]
        sys.stderr.buffer.write(own.encode(errors="surrogateescape"))
        sys.stderr.flush()
        with open(self.folder / "output", "rb") as output:
            shutil.copyfileobj(output, sys.stdout.buffer)
        return int(ended[1])

    def why(self, text: str) -> str:
        """Why a run has no result, by what `rt try` says."""
        last: List[str] = re.findall(r"(?m)^checked: (?:no-answer: )?(.*)", text)
        if last and "wrote more than" in last[-1]:
            return f"the program wrote more than the {MOST_WRITTEN // MIB} MiB that it may without a proof, so nothing of it is shown; leave out --unproved"
        if last and "second" in last[-1]:
            return f"the program took more than the {MOST_SECONDS} seconds that it may without a proof; leave out --unproved"
        return "this run has no result: " + (last[-1] if last else "\n".join(text.splitlines()[-20:]))


def main(me: str, crate: str, _: str, *words: str) -> int:
    def end(number: int, _: object) -> NoReturn:
        sys.exit(128 + number)

    for it in (signal.SIGTERM, signal.SIGHUP, signal.SIGINT):
        signal.signal(it, end)
    with tempfile.TemporaryDirectory() as folder:
        return Unproved(me, crate, [*words], Path(folder)).run(Program(texts(crate)).look([*words]))


if __name__ == "__main__":
    sys.exit(main(*sys.argv[1:]))
