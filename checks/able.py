"""Whether this Python, of 3.8 or later, builds the Python package: whether it has its headers, setuptools and wheel; and these modules.

    able.py [MODULE..]
"""

import importlib
import os
import sys
import sysconfig

header = os.path.join(sysconfig.get_paths()["include"], "Python.h")
if sys.version_info < (3, 8) or not os.path.exists(header):
    sys.exit(f"no {header} of 3.8 or later")
for name in ["setuptools", "wheel", *sys.argv[1:]]:
    importlib.import_module(name)
