"""The example on Dask: the result is that of one plain loop, byte for byte, also where a worker dies."""

import json
import os
import random
import signal
import subprocess
import sys
import tempfile
import threading
import time
import unittest
from array import array
from pathlib import Path
from typing import Any, Dict, List
from unittest.mock import patch

import bsonraw
from made import Maker, with_repeats

EXAMPLES = Path(__file__).resolve().parents[2] / "examples"
if not EXAMPLES.is_dir():
    raise unittest.SkipTest("the examples aren't in a source archive")
sys.path.insert(0, str(EXAMPLES))
import dask_canonical  # noqa: E402

try:
    from distributed import Client, LocalCluster
except ImportError:
    LocalCluster = None


def make_dumps(folder: Path) -> None:
    """Three dumps with repeated, damaged and loose documents; one is empty, one ends in a length that is unsound."""
    rng = random.Random(99)
    makers = [Maker(rng), Maker(rng, is_loose=True)]
    pool = [makers[number % 2].document() for number in range(300)]
    (folder / "deeper").mkdir()
    for name, count in (("a.bson", 2000), ("deeper/b.bson", 1500), ("empty.bson", 0), ("z.bson", 700)):
        documents = []
        for _ in range(count):
            data = rng.choice(pool) if rng.random() < 0.5 else rng.choice(makers).document()
            if rng.random() < 0.1:
                data = with_repeats(data)
            if rng.random() < 0.02:
                data = data[:4] + b"\x14" + data[5:]
            documents.append(data)
        (folder / name).write_bytes(b"".join(documents) + (b"\4\0\0\0" + pool[0] if name == "z.bson" else b""))


def plain_loop(folder: Path) -> Dict[str, Any]:
    """What the result has to be: the dumps in the order of their names, and the numbers of the report."""
    seen = set()
    wanted: Dict[str, Any] = {"documents": 0, "canonical before": 0, "repeated": 0, "faults": [], "dumps": {}}
    for path in sorted(folder.rglob("*.bson")):
        name = str(path.relative_to(folder))
        forms: List[bytes] = []
        data = path.read_bytes()
        at = 0
        while at < len(data):
            size = int.from_bytes(data[at : at + 4], "little")
            if size < 5:
                wanted["faults"].append((name, at))
                break
            wanted["documents"] += 1
            document = data[at : at + size]
            try:
                form = bsonraw.canonical(document)
            except bsonraw.BsonError:
                wanted["faults"].append((name, at))
            else:
                wanted["canonical before"] += form == document
                wanted["repeated"] += form in seen
                forms += [] if form in seen else [form]
                seen.add(form)
            at += size
        wanted["dumps"][name] = b"".join(forms)
    return wanted


class Here:
    """A client whose tasks are run at once, in this process."""

    as_completed = staticmethod(iter)

    def map(self, call: Any, items: List[Any], pure: bool, **more: Any) -> List[Any]:
        return [call(item, **more) for item in items]

    def submit(self, call: Any, *arguments: Any, pure: bool) -> Any:
        return call(*arguments)

    def gather(self, found: List[Any]) -> List[Any]:
        return found


class Canonical(unittest.TestCase):
    @classmethod
    def setUpClass(cls) -> None:
        folder = tempfile.TemporaryDirectory()
        cls.addClassCleanup(folder.cleanup)
        cls.folder = Path(folder.name)
        (cls.folder / "in").mkdir()
        make_dumps(cls.folder / "in")
        cls.dumps = dask_canonical.dumps_in([str(cls.folder / "in")])
        cls.wanted = plain_loop(cls.folder / "in")

    def compare(self, folder: Path) -> None:
        report = json.loads((folder / "report.json").read_text())
        for what in ("documents", "canonical before", "repeated"):
            self.assertEqual(report[what], self.wanted[what], what)
        self.assertEqual([(fault["file"], fault["offset"]) for fault in report["faults"]], self.wanted["faults"])
        self.assertGreater(min(report["repeated"], report["canonical before"], len(report["faults"])), 50)
        found = {str(path.relative_to(folder)): path.read_bytes() for path in folder.rglob("*.bson")}
        self.assertEqual(sorted(found), sorted(self.wanted["dumps"]))
        for name, data in found.items():
            self.assertTrue(data == self.wanted["dumps"][name], name)
        self.assertFalse((folder / "unfinished").exists())

    def test_in_one_process(self) -> None:
        for threads, block in ((1, dask_canonical.BLOCK), (4, 20_000)):
            folder = self.folder / f"alone{threads}"
            dask_canonical.run_alone(self.dumps, folder, threads, block)
            self.compare(folder)

    def test_marks_that_many_forms_share(self) -> None:
        alone, tasks = self.folder / "shared", self.folder / "tasks"
        canonical_all = bsonraw.canonical_all

        def few_hashes(data: bytes, before: int) -> bsonraw.Forms:
            forms = canonical_all(data, before=before)
            return forms._replace(hashes=memoryview(array("Q", (mark % 20 for mark in forms.hashes))))

        with patch.object(bsonraw, "canonical_all", few_hashes):
            dask_canonical.run_alone(self.dumps, alone, block=50_000)
            self.compare(alone)
            with patch.object(dask_canonical, "engine", Here):
                dask_canonical.run_on(Here(), self.dumps, tasks, partition=50_000)
            self.compare(tasks)

    def test_what_is_missing_gets_a_line(self) -> None:
        script = str(EXAMPLES / "dask_canonical.py")
        missing, dump = str(self.folder / "missing.bson"), str(self.folder / "in" / "a.bson")
        nowhere = str(self.folder / "in" / "a.bson" / "below")
        for arguments, says in (([missing, "-o", str(self.folder)], "missing.bson isn't there"), ([dump, "-o", nowhere], "a.bson/below")):
            ended = subprocess.run([sys.executable, script, *arguments, "--workers", "0"], capture_output=True, text=True)
            self.assertEqual((ended.returncode, ended.stderr.count("\n")), (1, 1), ended.stderr)
            self.assertIn(says, ended.stderr)
        ended = subprocess.run([sys.executable, "-S", "-E", script, dump, "-o", nowhere], capture_output=True, text=True)
        self.assertEqual((ended.returncode, ended.stderr.count("\n")), (1, 1), ended.stderr)
        self.assertIn("the package bsonraw isn't there", ended.stderr)

    def test_no_dump_is_overwritten(self) -> None:
        self.assertRaises(SystemExit, dask_canonical.run_alone, self.dumps, self.folder / "in")
        twice = [str(self.folder / "in" / "a.bson")] * 2
        self.assertRaises(SystemExit, dask_canonical.dumps_in, twice)

    @unittest.skipIf(LocalCluster is None, "Dask isn't there (Debian: python3-dask, python3-distributed)")
    def test_on_workers_one_of_which_dies(self) -> None:
        out = self.folder / "workers"
        with LocalCluster(
            n_workers=2, threads_per_worker=1, processes=True, host="127.0.0.1", dashboard_address=None, silence_logs=50
        ) as cluster, Client(cluster) as client:
            processes = client.run(os.getpid)
            self.assertEqual(len(set(processes.values()) - {os.getpid()}), 2)
            victim = sorted(processes.values())[0]
            killed: List[int] = []

            def kill_in_mid_run() -> None:
                forms = out / "unfinished" / "forms"
                while not forms.exists() or len(list(forms.iterdir())) < 4:
                    time.sleep(0.002)
                os.kill(victim, signal.SIGKILL)
                killed.append(victim)

            killer = threading.Thread(target=kill_in_mid_run, daemon=True)
            killer.start()
            dask_canonical.run_on(client, self.dumps, out, partition=50_000)
            killer.join(timeout=20)
            self.assertEqual(killed, [victim])
        self.compare(out)


if __name__ == "__main__":
    unittest.main()
