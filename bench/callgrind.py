"""Instructions by callgrind: the same on a noisy machine as on a quiet one."""
import os
import re
import subprocess


def counted(command, out):
    """Runs a program, and returns the instructions of each function that another one calls, with all that it calls itself. OUT is where
    callgrind leaves what it counts."""
    valgrind = ["valgrind", "-q", "--tool=callgrind", f"--callgrind-out-file={out}"]
    bound = {**os.environ, "LD_BIND_NOW": "1"}  # so that no first call has to look for the library's
    subprocess.run([*valgrind, *command], env=bound, check=True, stdout=subprocess.DEVNULL)
    names, counts, called, is_cost = {}, {}, "", False
    with open(out) as lines:
        for line in lines:
            if is_cost:
                counts[called] = counts.get(called, 0) + int(line.split()[1])
            elif at := re.match(r"c?fn=\((\d+)\)(?: (.*))?", line): # a name is spelled where its number comes first
                called = names.setdefault(at[1], at[2])
            is_cost = line.startswith("calls=")
    return counts
