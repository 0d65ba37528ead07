"""ae use N: makes a change the default of a shell. profile.sh has a function `ae` that does it, since a program can't."""
from __future__ import annotations

import argparse
import os

from .chosen import number, place_of
from .failures import Misused
from .store import with_store


def words(parser: argparse.ArgumentParser) -> None:
    parser.add_argument(
        "number", metavar="N", nargs="?", type=number, help="the number of the change; none where no change is to be the default"
    )


def run(asked: argparse.Namespace) -> int:
    if os.environ.get("AE_SHELL") != "profile":
        raise Misused("a shell's default is set by its function `ae`: . /usr/local/share/aegis/profile.sh")
    if asked.number is not None:
        print(with_store(place_of(asked), lambda store: store.change(asked.number).number))
    return 0
