"""An audit of a store from its files alone: the first of what is wrong, or a line for each delta."""
import hashlib
from dataclasses import dataclass
from typing import Dict, List, Tuple

from . import rules
from .deltas import Tree, made_by, show
from .files import BadBody, Store, locked
from .grammar import Unreadable
from .records import Change, Delta, Entry, Project, Table, read_change, read_project, read_table

Entries = Dict[int, List[Tuple[bytes, Entry]]]


@dataclass(frozen=True)
class Verdict:
    """What is answered: the exit status, the lines, and the message, as those of `aegis -AUDit`."""

    status: int
    lines: str = ""
    message: str = ""


class Stop(Exception):
    """An audit ends, with this message."""

    def __init__(self, status: int, message: str) -> None:
        super().__init__(message)
        self.verdict = Verdict(status, "", f"aegis: {message}\n")


def damaged(name: str) -> Stop:
    """This file is damaged."""
    return Stop(7, f'"{name}" is damaged')


def load_project(store: Store) -> Tuple[int, Project]:
    """The format and the project."""
    text = store.bytes_of("project")
    if not text:
        raise Stop(1, "1: there is no project")
    try:
        told, project = read_project(text)
    except Unreadable as error:
        raise damaged("project") from error
    if not rules.project_is_good(project):
        raise damaged("project")
    return told, project


def load_table(store: Store, deltas: int) -> Table:
    """The file table."""
    try:
        table = read_table(store.bytes_of("files"))
    except Unreadable as error:
        raise damaged("files") from error
    if not rules.table_is_good(table, deltas):
        raise damaged("files")
    return table


def load_change(store: Store, number: int, told: int) -> Change:
    """A change."""
    try:
        change = read_change(store.bytes_of(f"change.{number}"), told)
    except Unreadable as error:
        raise damaged(f"change.{number}") from error
    if not rules.change_is_good(change, number):
        raise damaged(f"change.{number}")
    return change


def load(store: Store) -> Tuple[Project, Table, Dict[int, Change]]:
    """The records, where they keep all rules."""
    try:
        store.open_all()
    except BadBody as error:
        raise damaged("body") from error
    told, project = load_project(store)
    table = load_table(store, len(project.deltas))
    changes = {number: load_change(store, number, told) for number in project.changes}
    if not rules.project_fits(project, table, changes):
        raise damaged("project")
    if not rules.table_fits(project, table, changes):
        raise damaged("files")
    return project, table, changes


def look_at_versions(store: Store, deltas: List[Delta], made: Entries) -> None:
    """Compares the bytes of all versions of all deltas with what is kept of them."""
    versions = [entry.version for delta in deltas for _, entry in made.get(delta.number, []) if entry.version is not None]
    for version in versions:
        held = store.packed(version.at, version.length)
        if len(held) != version.length or hashlib.sha256(held).hexdigest() != version.digest:
            raise damaged("pack")


def lines_of(deltas: List[Delta], changes: Dict[int, Change], made: Entries) -> str:
    """A line for each delta, where each is shown."""
    tree, lines = Tree(), []
    for delta in deltas:
        shown = show(delta, changes[delta.change], made.get(delta.number, []), tree)
        if shown is None:
            raise Stop(1, f"42: delta {delta.number} is not shown")
        lines.append(shown.line())
    return "".join(lines)


def judge(folder: str) -> Verdict:
    """The verdict on the store in this folder. The lock is held only while the records are read: no version of a delta ever moves."""
    store = Store(folder)
    try:
        with locked(folder):
            project, table, changes = load(store)
        made = made_by(table)
        look_at_versions(store, project.deltas, made)
        return Verdict(0, lines_of(project.deltas, changes, made))
    except Stop as stop:
        return stop.verdict
    finally:
        store.close()
