"""ae begin N: begins the development of a change."""
from __future__ import annotations

import argparse
import os

from .chosen import add_change, change_of, place_of
from .new import reason
from .program import do


def words(parser: argparse.ArgumentParser) -> None:
    add_change(parser)
    parser.add_argument("--reason", metavar="TEXT", help="a reason, for the change's history")


def run(asked: argparse.Namespace) -> int:
    where = place_of(asked)
    number = change_of(asked, where)
    answer = do(where, "-db", "-c", str(number), *reason(asked.reason))
    if answer.status == 0:
        print(os.path.relpath(where.develop(number)))
    return answer.status
