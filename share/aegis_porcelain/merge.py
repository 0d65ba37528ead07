"""ae merge [N]: brings the files of a change that are out of date up to date, by three sides: the developer's, the edit from which he
began, and the project's.
"""
from __future__ import annotations

import argparse
import os
import subprocess
import tempfile
from typing import List, Tuple

from .chosen import add_change, change_of, place_of
from .directory import Directory
from .display import say
from .failures import Failure
from .held import HeldDirectory
from .place import Place
from .program import do
from .records import Change, ChangeFile
from .store import Store, with_store

MOST_CONFLICTS = 127


def words(parser: argparse.ArgumentParser) -> None:
    add_change(parser)


def run(asked: argparse.Namespace) -> int:
    where = place_of(asked)
    number = change_of(asked, where)
    change, files = with_store(where, lambda store: out_of_date(store, number))
    if not files:
        say("nothing is out of date")
    directory = Directory(where, f"develop.{number}")
    clean = [merge(where, change, directory, file, base) for file, base in files]
    return 0 if all(clean) else 1


def out_of_date(store: Store, number: int) -> Tuple[Change, List[Tuple[ChangeFile, bytes]]]:
    """The files that the change modifies and another delta has changed since, each with the bytes from which the work began."""
    change = store.change(number)
    if change.phase != "being_developed":
        raise Failure(f"change {number} is {change.phase}: nothing is developed")
    found = []
    for file in change.files:
        row = store.paths.get(file.path)
        if file.action == "modify" and row and row.past[-1].version and row.edit != file.origin:
            base = store.base_of(file.path, file.origin)
            found.append((file, store.bytes_of(base) if base else b""))
    return change, found


def merge(where: Place, change: Change, directory: Directory, file: ChangeFile, base: bytes) -> bool:
    """Takes the project's file into the change, and puts what was done to either since into it. Answers whether nothing clashes."""
    mine = directory.content(file.path) if directory.look(file.path) else None
    if do(where, "-cp", "-c", str(change.number), "-ow", file.path).status != 0:
        return False
    theirs = directory.content(file.path)
    if mine is None or theirs is None:
        say(f"{file.path}: as the project has it, since you had none")
        return True
    text, conflicts = by_three_sides(mine, base, theirs, file.origin)
    if conflicts > MOST_CONFLICTS:
        say(
            f"{file.path}: not a text; it is as the project has it, and yours is {os.path.join(where.home, directory.name)}.old/{file.path}",
            "red",
        )
        return False
    with HeldDirectory(where, directory.name) as held:
        held.put(file.path, text, text.startswith(b"#!"))
    if conflicts:
        say(f"{file.path}: {conflicts} {'conflict' if conflicts == 1 else 'conflicts'}: look for <<<<<<<", "red")
    else:
        say(f"{file.path}: merged", "green")
    return conflicts == 0


def by_three_sides(mine: bytes, base: bytes, theirs: bytes, origin: int) -> Tuple[bytes, int]:
    """The merged text and its conflicts, by git."""
    with tempfile.TemporaryDirectory() as folder:
        for name, data in (("mine", mine), ("base", base), ("theirs", theirs)):
            with open(os.path.join(folder, name), "wb") as file:
                file.write(data)
        labels = ["-L", "yours", "-L", f"edit {origin}", "-L", "the project's"]
        try:
            done = subprocess.run(["git", "merge-file", "-p", *labels, "mine", "base", "theirs"], cwd=folder, capture_output=True)
        except OSError as error:
            raise Failure(f"git can't be run: {error.strerror}") from None
    return done.stdout, done.returncode
