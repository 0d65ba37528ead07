"""What tests/by-git runs: the parts that are named, each in a folder of its own. Each says how much was tried, and what came of it."""
from __future__ import annotations

import random
import signal
import sys
import tempfile
import time
from pathlib import Path
from typing import Callable, Dict

sys.dont_write_bytecode = True

import sshd
from changes import try_changes
from guide import try_guide
from hostile import try_hostile
from kills import try_kills

PARTS: "Dict[str, Callable[[str, Path, int, int], str]]" = {
    "changes": try_changes,
    "kills": try_kills,
    "hostile": try_hostile,
    "guide": try_guide,
}
# how many of each in the short form, and whole
SHORT = {"changes": 8, "kills": 10, "hostile": 30, "guide": 1}
WHOLE = {"changes": 40, "kills": 200, "hostile": 1000, "guide": 1}


def main(program: str, *words: str) -> int:
    why = sshd.why_not()
    if why:
        print(f"skipped: {why}")
        return 0
    for number in (signal.SIGTERM, signal.SIGINT, signal.SIGHUP):
        signal.signal(number, lambda *_: sys.exit(1))
    names = [word for word in words if word in PARTS] or list(PARTS)
    numbers = dict(word.split("=") for word in words if "=" in word)
    seed = int(numbers.get("seed", random.randrange(1 << 32)))
    told = []
    for name in names:
        count = int(numbers.get("count", (WHOLE if "whole" in words else SHORT)[name]))
        began = time.monotonic()
        with tempfile.TemporaryDirectory(prefix="by-git.") as folder:
            short, _, more = PARTS[name](program, Path(folder), count, seed).partition(": ")
        print(f"{name}, {time.monotonic() - began:.0f} s: {more}", flush=True)
        told.append(short)
    print(f"{', '.join(told)} (seed {seed}), 0 wrong")
    return 0


if __name__ == "__main__":
    sys.exit(main(*sys.argv[1:]))
