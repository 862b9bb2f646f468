"""Measures eight daily jobs of examples/daily_bsonraw.py beside those of daily_mongodb.py, and prints a table with the lines of each.

    jobs.py [DOCUMENTS [ROUNDS]]

Each time is the least of some rounds, in which the two take turns, of the processor's time. Both have to give the same.
"""

import importlib
import io
import sys
import tempfile
import time
from datetime import datetime, timedelta, timezone
from decimal import Decimal
from pathlib import Path
from typing import Any, Callable, Dict, List

import bsonraw
from test_daily import EXAMPLES, job_lines

sys.path.insert(0, str(EXAMPLES))
NAMES = ("daily_bsonraw", "daily_mongodb")


def documents(count: int) -> List[Dict[str, Any]]:
    when = datetime(2020, 1, 1, tzinfo=timezone.utc)
    return [
        {"_id": number, "name": f"user {number % 997}", "user": {"age": number % 90, "at": {"city": ("Zürich", "Oslo", "東京")[number % 3]}},
         "tags": ["a", number / 2], "on": None, "when": when + timedelta(seconds=number), "text": "some words of a text " * 5}
        for number in range(count)
    ]  # fmt: skip


def jobs(module: Any, folder: Path, made: List[Dict[str, Any]]) -> Dict[str, Callable[[], Any]]:
    path, data = str(folder / "dump.bson"), bsonraw.encode(made[7])
    orders = [module.Order(number, Decimal("9.90"), ["new", str(number)]) for number in range(len(made) // 10)]
    return {
        "write": lambda: module.write(str(folder / "written.bson"), made),
        "read": lambda: len(module.read(path)),
        "count": lambda: dict(module.count(path, "name")),
        "look_up": lambda: [module.look_up(data, "user.at.city") for _ in range(len(made))][0],
        "change": lambda: [module.change(data, "user.age", 5) for _ in range(len(made))][0],
        "print_json": lambda: module.print_json(path, io.StringIO()),
        "table": lambda: len(module.table(path, ["_id", "name", "user.age"])),
        "store": lambda: len([module.store(one) for one in orders]),
    }


def main() -> int:
    count, rounds = (int(argument) for argument in (sys.argv[1:] + ["20000", "5"][len(sys.argv) - 1 :]))
    lines = [job_lines(f"{name}.py") for name in NAMES]
    made = documents(count)
    with tempfile.TemporaryDirectory() as folder:
        with open(Path(folder, "dump.bson"), "wb") as dump:
            dump.writelines(map(bsonraw.encode, made))
        both = [jobs(importlib.import_module(name), Path(folder), made) for name in NAMES]
        print(f"| {count:,} documents of {len(bsonraw.encode(made[7]))} bytes | lines | milliseconds | share |")
        print("|---|--:|--:|--:|")
        for name in both[0]:
            least = [9e9, 9e9]
            found = [call[name]() for call in both]
            if name != "store" and found[0] != found[1]:
                sys.exit(f"jobs: {name} gives something else: {found}")
            for _ in range(rounds):
                for number, call in enumerate(both):
                    start = time.process_time()
                    call[name]()
                    least[number] = min(least[number], (time.process_time() - start) * 1e3)
            print(f"| {name} | {lines[0][name]}; {lines[1][name]} | {least[0]:.2f}; {least[1]:.2f} | {least[0] / least[1]:.2f} |", flush=True)
    return 0


if __name__ == "__main__":
    sys.exit(main())
