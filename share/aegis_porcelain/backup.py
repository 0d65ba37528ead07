"""`ae backup DEST`: a copy of the project's records and of its branches, synced and audited."""
from __future__ import annotations

import argparse
import os
import shutil
import stat
import sys
import time
from typing import List

from . import place, program
from .copied import BETWEEN_TRIES, Contents, LockHeld, copy_records, is_record, open_file, open_folders
from .failures import Failure
from .output import new_folder, outside, sync_folder, write_whole
from .place import Place, places_of
from .store import patience_of_a_command

AUDIT = "audit"
# what a store has beside its records
BESIDES = ("gate", "body", "pack")
AT_ONCE = 1 << 20
TRIES = 20


def words(parser: argparse.ArgumentParser) -> None:
    """Adds the options."""
    parser.add_argument("dest", metavar="DEST", help="the new folder for the copy")


def copy_file(name: str, source: int, dest: str) -> None:
    """Copies a file of a store, and waits until it is on the disk. No link is followed."""
    given = open_file(name, source)
    if given is None:
        return
    with open(given, "rb") as file:
        mode = os.fstat(given).st_mode
        with open(os.path.join(dest, name), "xb") as copy:
            for held in iter(lambda: file.read(AT_ONCE), b""):
                copy.write(held)
            os.fchmod(copy.fileno(), stat.S_IMODE(mode) & 0o777)
            copy.flush()
            os.fsync(copy.fileno())


def copy_store(source: int, dest: str) -> None:
    """Copies the files of a store into a new folder, which gets its mode. What else a stop has left there isn't the project's."""
    os.makedirs(dest)
    for name in sorted(os.listdir(source)):
        if name in BESIDES or is_record(name):
            copy_file(name, source, dest)
    os.chmod(dest, stat.S_IMODE(os.fstat(source).st_mode))
    sync_folder(dest)


def records_in(path: str) -> Contents:
    """The records in a folder that is a copy of a store."""
    folder = os.open(path, os.O_RDONLY | os.O_DIRECTORY)
    try:
        return copy_records(folder)
    finally:
        os.close(folder)


def copy_one_moment(source: int, dest: str) -> None:
    """Copies a store as it is at one moment.

    The records in the copy are those that were there before it was made, and those that are there after it: so no command wrote one
    meanwhile, and the bytes in `pack` that they name are theirs. With the lock held that is so at once; where somebody else holds it, and
    changes nothing, too.
    """
    for _ in range(TRIES):
        before = copy_records(source)
        copy_store(source, dest)
        if records_in(dest) == before == copy_records(source):
            return
        shutil.rmtree(dest)
        time.sleep(BETWEEN_TRIES)
    raise Failure("other commands work in this project: no copy of one moment can be made")


def copy_home(where: Place, dest: str) -> None:
    """Copies the records of the trunk or of a branch into a folder, while no command works there if the lock can be had."""
    home, store = open_folders(where.top, where.branch)
    try:
        with LockHeld(home, patience_of_a_command()):
            copy_one_moment(store, os.path.join(dest, "store"))
        os.chmod(dest, stat.S_IMODE(os.fstat(home).st_mode))
        sync_folder(dest)
    finally:
        os.close(home)
        os.close(store)


def copy_all(top: str, home: str) -> None:
    """Copies the records of a project and of its branches into the folder that is to be its aegis.d."""
    # a branch is copied before the trunk, which has each delta from which one was begun
    for where in reversed(places_of(top)):
        copy_home(where, os.path.join(home, f"branch.{where.branch}") if where.branch else home)


def audit_of(where: Place) -> str:
    """What the program's audit says of a copy, which has to be shown."""
    found = program.answer([*where.words, "-aud"], where.top)
    if found.returncode:
        raise Failure(f"the copy isn't shown: {found.stderr.strip()}")
    return found.stdout


def audits_of(top: str) -> str:
    """What the audits of the trunk and of the branches say. Before the lines of a branch stands its name."""
    said: List[str] = []
    for where in places_of(top):
        said += ([f"branch {where.branch}\n"] if where.branch else []) + [audit_of(where)]
    return "".join(said)


def last_line(said: str) -> str:
    """What the audits say last."""
    return said.splitlines(keepends=True)[-1] if said else "no delta\n"


def run(asked: argparse.Namespace) -> int:
    """Makes the backup, and prints what its audit says last, which is to be kept elsewhere."""
    where = place.find(branch=asked.branch)
    with new_folder(outside(where, asked.dest)) as folder:
        copy_all(where.top, os.path.join(folder, "aegis.d"))
        said = audits_of(folder)
        write_whole(os.path.join(folder, AUDIT), said.encode())
        sync_folder(folder)
    sys.stdout.write(last_line(said))
    return 0
