"""ae why [REFUSAL]: what stops a command in this project, or what a refusal means and what to type."""
from __future__ import annotations

import argparse
import os
import subprocess
import sys

from . import memory
from .chosen import place_of
from .display import say
from .failures import Failure, Misused
from .place import Place
from .program import answer, program, script
from .store import Store, with_store

LAST_REFUSAL = 47
LOOKED_AT = "looked-at"
COMMANDS = {
    5: "ae status N",
    22: "ae status N",
    23: "ae status N",
    24: "ae merge N",
    26: "ae status N",
    28: "ae finish N",
    29: "ae finish N",
    30: "ae finish N",
    31: "ae finish N",
    32: "ae queue, which waits for its turn",
    33: "ae status N",
    37: "ae status N",
    41: "ae status N",
}


def words(parser: argparse.ArgumentParser) -> None:
    parser.add_argument("refusal", metavar="REFUSAL", nargs="?", type=int, help="the number of a refusal, 1 to 47")


def run(asked: argparse.Namespace) -> int:
    if asked.refusal is not None:
        return explain(asked.refusal)
    where = place_of(asked)
    damage = damage_of(where)
    if damage:
        say(f'ae: {damage}: put it back from a copy (docs/GUIDE.md, "Throwing away, backups, limits")')
    status = by_aewhy(where)
    return 1 if damage else status


def explain(refusal: int) -> int:
    """What the program says of a refusal, and what `ae` does about it."""
    if not 1 <= refusal <= LAST_REFUSAL:
        raise Misused(f"no refusal has the number {refusal}")
    found = answer(["--help", str(refusal)])
    command = COMMANDS.get(refusal)
    if found.returncode != 0 and not command:
        raise Failure("this program has no help of a refusal: docs/COMMANDS.md lists them")
    if found.returncode == 0:
        print(found.stdout, end="")
    if command:
        say(f"{refusal}: {command}")
    return 0


def damage_of(where: Place) -> str:
    """The first file of the store that is no record, in the words of the program. What was looked at once isn't again."""

    def work(store: Store) -> str:
        digest = store.digest()
        if memory.recall(where, LOOKED_AT) != digest:
            store.project, store.table, list(store.changes())
            memory.remember(where, LOOKED_AT, digest)
        return ""

    try:
        return with_store(where, work)
    except Failure as failure:
        return str(failure)


def by_aewhy(where: Place) -> int:
    """Runs aewhy in the project's folder."""
    sys.stdout.flush()
    try:
        return subprocess.run([script("aewhy")], cwd=where.top, env={**os.environ, "AEGIS": program()}).returncode
    except OSError as error:
        raise Failure(f"aewhy can't be run: {error.strerror}") from None
