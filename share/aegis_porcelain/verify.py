"""`ae verify FILE`: whether a document of `ae prove` is what this project shows, and who signed it."""
from __future__ import annotations

import argparse
import os
import re
from typing import Tuple

from . import place, signatures
from .failures import Failure
from .place import Place
from .prove import made_of

TITLE = re.compile(
    r"(?P<project>[A-Za-z][A-Za-z0-9._-]*)@(?:branch-(?P<branch>[A-Za-z][A-Za-z0-9._-]*)-)?delta-(?P<delta>[1-9][0-9]{0,3})\.(?:intoto\.json|spdx\.json|sha256)"
)


def words(parser: argparse.ArgumentParser) -> None:
    """Adds the options."""
    parser.add_argument("file", metavar="FILE", help="a document that ae prove made, by its name")
    parser.add_argument(
        "--signers", metavar="FILE", help="who may sign, as ssh-keygen has it (ALLOWED SIGNERS): ask for a signature of one"
    )


def told_by(name: str) -> Tuple[str, int]:
    """The branch and the delta of a document, by its name."""
    found = TITLE.fullmatch(name)
    if not found:
        raise Failure(f"{name} is no name of a document that ae prove makes")
    return found["branch"] or "", int(found["delta"])


def compared(where: Place, path: str, delta: int) -> bytes:
    """The document's bytes, which are just those that this project gives of the delta."""
    with open(path, "rb") as file:
        held = file.read()
    made = made_of(where, delta)
    name = os.path.basename(path)
    if name not in made:
        raise Failure(f"{path} is of another project")
    if made[name] != held:
        raise Failure(f"{path} isn't what this project shows of delta {delta}")
    return held


def run(asked: argparse.Namespace) -> int:
    """Verifies the document, and its signature where signers are named."""
    branch, delta = told_by(os.path.basename(asked.file))
    if not os.path.isfile(asked.file):
        raise Failure(f"there is no file {asked.file}")
    where = place.find(branch=branch)
    held = compared(where, asked.file, delta)
    said = f"{asked.file}: as this project shows delta {delta}"
    if asked.signers:
        users = signatures.signers_of(asked.file, held, asked.signers)
        if not users:
            raise Failure(f"{asked.file} has no signature of one who may sign")
        said += f", signed by {', '.join(users)}"
    print(said)
    return 0
