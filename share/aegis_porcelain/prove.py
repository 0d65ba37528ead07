"""`ae prove D`: writes what the records show of a delta as documents that others can check, signed where a key is named."""
from __future__ import annotations

import argparse
import os
from typing import Dict, List

from . import place, program, signatures
from .failures import Damaged, Failure, VersionGone
from .output import outside, write_whole
from .place import Place
from .statement import documents_of
from .store import opened


def words(parser: argparse.ArgumentParser) -> None:
    """Adds the options."""
    parser.add_argument("delta", type=int, metavar="D", help="the delta")
    parser.add_argument("--sign", metavar="KEY", help="sign each document by this key of ssh")
    parser.add_argument("--into", metavar="FOLDER", default=".", help="where the documents are put; else in the current folder")


def audited(where: Place) -> List[str]:
    """The lines of the program's audit, which is proved."""
    found = program.answer([*where.words, "-aud"], where.top)
    if found.returncode:
        raise Failure(f"the project isn't shown: {found.stderr.strip()}")
    return found.stdout.splitlines()


def made_of(where: Place, number: int) -> Dict[str, bytes]:
    """The documents of a delta, by their names. No command works meanwhile, so that the audit and the records are of one moment."""
    with opened(where, keeps_lock=True) as store:
        try:
            return documents_of(store, number, audited(where))
        except VersionGone:
            raise Damaged("pack") from None


def run(asked: argparse.Namespace) -> int:
    """Writes the documents."""
    where = place.find(branch=asked.branch)
    folder = outside(where, asked.into)
    for name, held in made_of(where, asked.delta).items():
        path = os.path.join(folder, name)
        write_whole(path, held)
        if asked.sign:
            signatures.sign(path, held, asked.sign)
        print(path)
    return 0
