"""The program `aegis`, through which `ae` changes a project."""
from __future__ import annotations

import os
import re
import subprocess
import sys
from typing import Dict, List, NamedTuple

from .display import shown
from .failures import Failure
from .place import Place
from .under_way import UnderWay


def program() -> str:
    """The program: that which AEGIS_PROGRAM names, else the one on the PATH."""
    return os.environ.get("AEGIS_PROGRAM") or "aegis"


def user() -> str:
    """Who asks, as the program has it."""
    return os.environ.get("AEGIS_USER", os.environ.get("LOGNAME", "nobody"))


def script(name: str) -> str:
    """A script that is installed beside `ae`, or lies beside it in share/; else that on the PATH."""
    lib = os.path.dirname(os.path.dirname(os.path.abspath(__file__)))
    places = [os.path.join(lib, name), os.path.join(os.path.dirname(os.path.dirname(lib)), "bin", name)]
    return next((place for place in places if os.path.isfile(place)), name)


def answer(words: list[str], folder: str | None = None) -> subprocess.CompletedProcess[str]:
    """Runs the program, and answers its status and what it said."""
    try:
        return subprocess.run([program(), *words], cwd=folder, stdin=subprocess.DEVNULL, capture_output=True, text=True, errors="replace")
    except OSError as error:
        raise Failure(f"{program()} can't be run: {error.strerror}") from None


# descriptors that a command keeps open until it ends, so that a lock on one lasts as long; a run isn't given them, nor what it begins
kept: List[int] = []
RUNS = ("-b", "-t")
REFUSED = re.compile(r"^aegis: ([0-9]+): ", re.M)
# how long the commands wait for another one, which may be somebody's run
PATIENCE = "3600"
LONGEST = 60


class Answer(NamedTuple):
    """How a command ended, and what it said."""

    status: int
    said: str

    @property
    def refusal(self) -> int:
        """The number of the refusal; 0 where it isn't one."""
        found = REFUSED.search(self.said) if self.status == 1 else None
        return int(found[1]) if found else 0


def surroundings() -> Dict[str, str]:
    """The environment of the program: it waits for others' runs, unless the user says how long."""
    return {"AEGIS_WAIT": PATIENCE, **os.environ, "AEGIS": program()}


def give(where: Place, *words: str) -> Answer:
    """Gives a command in the project or its branch, and answers how it ended. What it says is shown by `show`."""
    command = [program(), *where.words, *words]
    known = () if words[0] in RUNS else kept
    try:
        done = subprocess.run(
            command,
            cwd=where.top,
            env=surroundings(),
            stdin=subprocess.DEVNULL,
            stderr=subprocess.PIPE,
            pass_fds=known,
            text=True,
            errors="replace",
        )
    except OSError as error:
        raise Failure(f"{program()} can't be run: {error.strerror}") from None
    return Answer(done.returncode, done.stderr)


def show(answer: Answer) -> Answer:
    """Shows what a command said, where it said it."""
    sys.stdout.flush()
    sys.stderr.write(answer.said)
    sys.stderr.flush()
    return answer


def under_way(*words: str) -> UnderWay:
    """What is shown while a command works, or waits for another one."""
    return UnderWay(shown(" ".join(["aegis", *words]))[:LONGEST])


def do(where: Place, *words: str) -> Answer:
    """Gives a command, and shows what it says."""
    with under_way(*words):
        answer = give(where, *words)
    return show(answer)
