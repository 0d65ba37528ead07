"""`ae restore BACKUP`: puts the records of a backup into this folder, which has no project."""
from __future__ import annotations

import argparse
import os
import sys
import tempfile

from .backup import AUDIT, audits_of, copy_all, last_line
from .failures import Failure
from .output import sync_folder


def words(parser: argparse.ArgumentParser) -> None:
    """Adds the options."""
    parser.add_argument("backup", metavar="BACKUP", help="the folder that ae backup made")


def kept_by(backup: str) -> str:
    """What the audits of a backup said when it was made."""
    if not os.path.isdir(os.path.join(backup, "aegis.d", "store")):
        raise Failure(f"there is no backup in {backup}")
    try:
        with open(os.path.join(backup, AUDIT), encoding="ascii") as file:
            return file.read()
    except FileNotFoundError:
        raise Failure(f"there is no {AUDIT} in {backup}") from None
    except UnicodeDecodeError:
        raise Failure(f"{backup}/{AUDIT} isn't as it was made") from None


def run(asked: argparse.Namespace) -> int:
    """Restores the project, and prints what its audit says last."""
    if os.path.lexists("aegis.d"):
        raise Failure("this folder has an aegis.d: move it away first")
    kept = kept_by(asked.backup)
    with tempfile.TemporaryDirectory(prefix=".ae-", dir=".") as folder:
        copy = os.path.join(folder, "aegis.d")
        copy_all(asked.backup, copy)
        # it is the copy that is audited: the backup may be changed meanwhile
        if audits_of(folder) != kept:
            raise Failure(f"the backup isn't as it was made: its audit says otherwise than {asked.backup}/{AUDIT}")
        os.rename(copy, "aegis.d")
    sync_folder(".")
    sys.stdout.write(last_line(kept))
    return 0
