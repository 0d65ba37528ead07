"""`ae audit`: a second opinion on how each delta was built, tested and reviewed, beside what the program's own audit says."""
from __future__ import annotations

import argparse
import os
import sys
from typing import List, Tuple

from . import place, program
from .failures import Failure
from .second_opinion.files import Unavailable, locked
from .second_opinion.verdict import Verdict, judge
from .under_way import UnderWay

DIFFERENT = 3


def words(parser: argparse.ArgumentParser) -> None:
    """Adds the options."""
    parser.add_argument("--alone", action="store_true", help="don't ask the program")
    parser.add_argument("--store", metavar="FOLDER", help="audit the store in this folder, as in a copy, without the program")


def opinion_on(folder: str) -> Verdict:
    """The second opinion on the store in a folder."""
    if not os.path.isdir(folder):
        raise Failure(f"there is no folder {folder}")
    try:
        with UnderWay("the second opinion"):
            return judge(folder)
    except Unavailable as error:
        raise Failure(str(error)) from None


def said_by_the_program(where: place.Place) -> Verdict:
    """What the program's audit says."""
    with UnderWay("the program's audit"):
        found = program.answer([*where.words, "-aud"], where.top)
    return Verdict(found.returncode, found.stdout, found.stderr)


def both(where: place.Place, folder: str) -> Tuple[Verdict, Verdict]:
    """The second opinion and what the program says, of one moment: no command works meanwhile."""
    try:
        with locked(folder):
            return opinion_on(folder), said_by_the_program(where)
    except Unavailable as error:
        raise Failure(str(error)) from None


def first_difference(own: Verdict, other: Verdict) -> Tuple[str, str]:
    """The first lines in which the two differ."""
    one: List[str] = [*own.lines.splitlines(), *own.message.splitlines(), f"status {own.status}"]
    two: List[str] = [*other.lines.splitlines(), *other.message.splitlines(), f"status {other.status}"]
    return next((pair for pair in zip(one, two) if pair[0] != pair[1]), (one[-1], two[-1]))


def show(verdict: Verdict) -> int:
    """Writes a verdict as the program writes its own."""
    sys.stdout.write(verdict.lines)
    sys.stdout.flush()
    sys.stderr.write(verdict.message)
    return verdict.status


def run(asked: argparse.Namespace) -> int:
    """Audits the project, and compares with the program's audit."""
    if asked.store:
        return show(opinion_on(asked.store))
    where = place.find(branch=asked.branch)
    folder = os.path.join(where.top, where.home, "store")
    if asked.alone:
        return show(opinion_on(folder))
    own, other = both(where, folder)
    if own == other:
        return show(own)
    mine, its = first_difference(own, other)
    print(f"ae: the program's audit and the second opinion differ\n  program: {its}\n  second opinion: {mine}", file=sys.stderr)
    return DIFFERENT
