"""What the module keeps is its own: it is imported again, in several interpreters, and in several rounds of one program."""

import os
import subprocess
import sys
import sysconfig
import tempfile
import threading
import time
import unittest
from pathlib import Path
from typing import List

import bsonraw

AGAIN = """
import gc, importlib, sys
import bsonraw
first, Error, Id = bsonraw, bsonraw.BsonError, bsonraw.ObjectId
old = first.decode(first.encode({"i": first.Int64(5), "o": Id(), "key": "text"}))
def purge():
    for name in [name for name in sys.modules if name.split(".")[0] == "bsonraw"]:
        del sys.modules[name]
purge()
import bsonraw as second
assert second.ObjectId is not Id and second.BsonError is not Error
for module in (first, second):
    try:
        module.decode(b"")
    except module.BsonError as error:
        assert isinstance(error, module.DamagedError)
    value = module.decode(module.encode({"i": module.Int64(5), "o": module.ObjectId(), "r": module.Regex("a"), "t": module.DatetimeMS(1)}))
    assert [type(value[key]) for key in "ior"] == [module.Int64, module.ObjectId, module.Regex], value
    assert isinstance(module.find(module.encode({"a": 1}), "a"), module.Element)
    assert module.ObjectId(bytes(12)) == module.ObjectId(bytes(12)) and module.RawDocument(module.encode({"a": {}}))["a"] == {}
    assert type(module.decode_all(module.encode({"i": module.Int64(5)}))[0]["i"]) is module.Int64
assert second.encode(old) == first.encode(old)
assert second.ObjectId(bytes(12)) == first.ObjectId(bytes(12))
importlib.reload(second._native)
importlib.reload(second)
assert second.decode(second.encode({"i": second.Int64(5)})) == {"i": 5}
import weakref
gone = weakref.ref(second._native)
del first, Error, Id, old, second, module, value
for name in ("bsonraw", "error"):
    globals().pop(name, None)
purge()
import bsonraw  # typing keeps what overload is over, up to this import
gc.collect()
assert bsonraw.decode(bsonraw.encode({"a": bsonraw.Int64(1)})) == {"a": 1}
print("right", gone() is None)
"""

INTERPRETERS = """
import sys
try:
    import _interpreters as interpreters
except ImportError:
    import _xxsubinterpreters as interpreters
code = '''
import sys
sys.path[:] = %r
import bsonraw
value = {"i": bsonraw.Int64(5), "o": bsonraw.ObjectId(bytes(12)), "d": bsonraw.decode(bsonraw.encode({"t": bsonraw.DatetimeMS(10)}))["t"]}
for _ in range(2000):
    assert bsonraw.decode(bsonraw.encode(value)) == value
    try:
        bsonraw.decode(b"12345")
    except bsonraw.BsonError as error:
        assert type(error) is bsonraw.DamagedError
ids = {bsonraw.ObjectId() for _ in range(1000)}
assert len(ids) == 1000
assert bsonraw.RawDocument(bsonraw.encode({"a": {"b": 1}}))["a"]["b"] == 1
import os
os.write(1, ("right " + value["d"].isoformat() + chr(10)).encode())
''' % (sys.path,)
def run(one):
    failed = getattr(interpreters, "run_string")(one, code)
    if failed is not None:
        print("wrong", failed, flush=True)
import bsonraw
all_of_them = [interpreters.create() for _ in range(3)]
if "threads" in sys.argv:
    import threading
    threads = [threading.Thread(target=run, args=(one,)) for one in all_of_them]
    for thread in threads: thread.start()
    exec(code)
    for thread in threads: thread.join()
else:
    run(all_of_them[0])
    exec(code)
    run(all_of_them[1])
    interpreters.destroy(all_of_them.pop(0))
    run(all_of_them[1])
for one in all_of_them:
    interpreters.destroy(one)
print(bsonraw.decode(bsonraw.encode({"a": 1})))
"""

EMBEDDED = r"""
#include <Python.h>
#include <stdio.h>
#include <stdlib.h>

int main(int count, char **arguments) {
    int round;
    for (round = 0; round < 3; round++) {
        int status;
        Py_Initialize();
        status = PyRun_SimpleString(getenv("TRIED_CODE"));
        if (status != 0) return 1;
        if (Py_FinalizeEx() != 0) return 2;
        printf("round %d\n", round);
        fflush(stdout);
    }
    return 0;
}
"""

ROUND = """
import os, sys
sys.path[:0] = os.environ["TRIED_PATH"].split(os.pathsep)
import bsonraw, bsonraw.compat
value = {'i': bsonraw.Int64(5), 'o': bsonraw.ObjectId(), 'u': bsonraw.decode(bsonraw.encode({'t': bsonraw.DatetimeMS(0)}))['t']}
assert bsonraw.decode(bsonraw.encode(value)) == value
assert len(bsonraw.decode_all(bsonraw.encode(value) * 3)) == 3
assert bsonraw.first_fault(b'').kind == bsonraw.ErrorKind.NO_DOCUMENT
assert bsonraw.edit(bsonraw.encode({'a': 1}), {'a': 2}) == bsonraw.encode({'a': 2})
assert bsonraw.decode(bsonraw.encode({'u': bsonraw.Binary(bytes(16), 4)}), uuid=True)['u'].int == 0
assert bsonraw.to_json(bsonraw.encode({'a': 'é'})) == '{"a":"é"}'
"""


def output_of(code: str, *arguments: str) -> List[str]:
    done = subprocess.run([sys.executable, "-X", "faulthandler", "-c", code, *arguments], stdout=subprocess.PIPE, stderr=subprocess.PIPE, timeout=120)
    if b"No module named '_xxsubinterpreters'" in done.stderr:
        raise unittest.SkipTest("this Python makes no second interpreter")
    if done.returncode != 0 or done.stderr:
        raise AssertionError((done.returncode, done.stdout, done.stderr))
    return done.stdout.decode().splitlines()


class State(unittest.TestCase):
    def test_imported_again(self) -> None:
        """Two modules are side by side after a purge and another import, each with its classes; and what nobody uses goes."""
        self.assertEqual(output_of(AGAIN), ["right True"])

    def test_interpreters(self) -> None:
        lines = output_of(INTERPRETERS)
        self.assertEqual(lines, ["right 1970-01-01T00:00:00.010000+00:00"] * 4 + ["{'a': 1}"])

    @unittest.skipUnless(sys.version_info[:2] == (3, 11) or sys.version_info >= (3, 13), "imports in interpreters of several threads hang or crash")
    def test_interpreters_in_threads(self) -> None:
        lines = output_of(INTERPRETERS, "threads")
        self.assertEqual(lines, ["right 1970-01-01T00:00:00.010000+00:00"] * 4 + ["{'a': 1}"])

    def test_rounds_of_one_program(self) -> None:
        version, folder = sysconfig.get_config_var("LDVERSION"), sysconfig.get_config_var("LIBDIR")
        include = sysconfig.get_paths()["include"]
        folders = [folder, os.path.join(folder, sysconfig.get_config_var("MULTIARCH") or "")]
        libraries = [Path(one, f"libpython{version}{ending}") for one in folders for ending in (".so", ".a")]
        library = next((one for one in libraries if one.exists()), None)
        if library is None or not Path(include, "Python.h").exists():
            self.skipTest("a library for embedding this Python isn't there (Debian: python3-dev)")
        with tempfile.TemporaryDirectory() as made:
            source, program = Path(made, "embed.c"), Path(made, "embed")
            source.write_text(EMBEDDED)
            links = [str(library), f"-Wl,-rpath,{library.parent}", "-lpthread", "-ldl", "-lutil", "-lm", "-rdynamic"]
            try:
                built = subprocess.run(["cc", "-w", f"-I{include}", str(source), "-o", str(program), *links], stderr=subprocess.PIPE)
            except FileNotFoundError:
                self.skipTest("a C compiler isn't there (Debian: gcc, libc6-dev)")
            if built.returncode != 0 and library.suffix == ".a":
                self.skipTest("the library for embedding this Python isn't linked")
            self.assertEqual((built.returncode, built.stderr), (0, b""))
            environment = {**os.environ, "TRIED_PATH": os.pathsep.join(one for one in sys.path if one), "PYTHONHOME": sys.base_prefix}
            rounds = []
            for code in ("import datetime, decimal, uuid", ROUND):
                run = {"stdout": subprocess.PIPE, "stderr": subprocess.PIPE, "timeout": 120, "env": {**environment, "TRIED_CODE": code}}
                rounds.append(subprocess.run([str(program)], **run))  # type: ignore[call-overload]
            if rounds[0].returncode != 0:
                self.skipTest("this Python itself doesn't import datetime in a second round")
            done = rounds[1]
            self.assertEqual((done.stdout, done.returncode), (b"round 0\nround 1\nround 2\n", 0), done.stderr)
            said = [line for line in done.stderr.splitlines() if line and b"mpd_setminalloc" not in line]  # which decimal says in each round
            self.assertEqual(said, [])


WITHOUT_TABLE = """
import sys
sys.modules["_datetime"] = None
import datetime
assert not hasattr(datetime, "datetime_CAPI")
import bsonraw
when = datetime.datetime(2020, 1, 2, 3, 4, 5, 678000, datetime.timezone.utc)
data = bsonraw.encode({"t": when})
assert bsonraw.decode(data) == {"t": when} and type(bsonraw.decode(data)["t"]) is datetime.datetime
assert bsonraw.decode(data, tz_aware=False) == {"t": when.replace(tzinfo=None)}
print("right")
"""

OTHER_TABLE = """
import ctypes, datetime
address = ctypes.pythonapi.PyCapsule_GetPointer
address.restype, address.argtypes = ctypes.c_void_p, [ctypes.py_object, ctypes.c_char_p]
new = ctypes.pythonapi.PyCapsule_New
new.restype, new.argtypes = ctypes.py_object, [ctypes.c_void_p, ctypes.c_char_p, ctypes.c_void_p]
name = ctypes.create_string_buffer(b"datetime.datetime_CAPI")
table = (ctypes.c_void_p * 16).from_buffer_copy(ctypes.string_at(address(datetime.datetime_CAPI, name), 128))
table[%d], table[%d] = table[%d], table[%d]
datetime.datetime_CAPI = new(ctypes.addressof(table), name, None)
import bsonraw
when = datetime.datetime(2020, 1, 2, 3, 4, 5, 678000, datetime.timezone.utc)
assert bsonraw.decode(bsonraw.encode({"t": when})) == {"t": when}
print("right")
"""


class Times(unittest.TestCase):
    """Datetimes are made by a table that isn't in the stable interface, where it is the one that is known; else by a call of the class."""

    def test_without_the_table(self) -> None:
        self.assertEqual(output_of(WITHOUT_TABLE), ["right"])

    def test_another_table(self) -> None:
        for one, two in ((0, 1), (4, 5)):
            self.assertEqual(output_of(OTHER_TABLE % (one, two, two, one)), ["right"])


FORKS = """
import os, sys, threading, time
import bsonraw
def make():
    while True:
        bsonraw.ObjectId()
for _ in range(3):
    threading.Thread(target=make, daemon=True).start()
made, children = {bytes(bsonraw.ObjectId())}, []
for _ in range(12):
    time.sleep(0.01)
    read, write = os.pipe()
    child = os.fork()
    if child == 0:
        os.write(write, bytes(bsonraw.ObjectId()))
        os._exit(0)
    children.append((child, read))
end = time.monotonic() + 20
for child, read in children:
    while os.waitpid(child, os.WNOHANG) == (0, 0):
        if time.monotonic() > end:
            print("a child hangs")
            for other, _ in children:
                try: os.kill(other, 9)
                except OSError: pass
            os._exit(1)
        time.sleep(0.01)
    made.add(os.read(read, 12))
print(len(made), flush=True)
os._exit(0)
"""


class Ids(unittest.TestCase):
    @unittest.skipUnless(hasattr(os, "fork"), "this system has no fork")
    def test_forks_while_threads_make_ids(self) -> None:
        self.assertEqual(output_of("import warnings; warnings.simplefilter('ignore')" + FORKS), ["13"])

    def test_threads_make_different_ids(self) -> None:
        made: List[List[bytes]] = [[], [], [], []]

        def make(to: List[bytes]) -> None:
            to.extend(bytes(bsonraw.ObjectId()) for _ in range(20_000))

        threads = [threading.Thread(target=make, args=(to,)) for to in made]
        start = time.time()
        for thread in threads:
            thread.start()
        for thread in threads:
            thread.join()
        self.assertLess(time.time() - start, 60)
        self.assertEqual(len(set().union(*made)), 80_000)


if __name__ == "__main__":
    unittest.main()
