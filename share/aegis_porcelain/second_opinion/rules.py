"""Section "The rules of the records" of docs/FORMATS.md, 1 to 5. Each function answers whether a rule is kept."""
from typing import Dict, Iterable, List, Optional, Set, Tuple

from .records import GROUNDS, KINDS, Change, ChangeFile, PathRow, Project, Table, Version

LAST_MOMENT = 4102444799
MOST_USERS = 256
MOST_NEXT_VERSION = 2**62 + 1000
MOST_LENGTH = 4194304
MOST_FILES = 1000
MOST_DELTAS = 1990
MOST_UNITS = 16777216

HOLDING = ("awaiting_review", "being_reviewed", "awaiting_integration", "being_integrated")
PAST_REVIEW = ("awaiting_integration", "being_integrated", "completed")


def ascends(values: List[bytes]) -> bool:
    """Whether each value is less than the next one."""
    return all(one < other for one, other in zip(values, values[1:]))


def numbers_ascend(numbers: List[int]) -> bool:
    """Whether each number is less than the next one."""
    return all(one < other for one, other in zip(numbers, numbers[1:]))


def clashes(paths: Iterable[bytes]) -> bool:
    """Whether one of the paths is a folder on the way to another."""
    known = set(paths)
    return any(path[:end] in known for path in known for end in range(len(path)) if path[end : end + 1] == b"/")


# ---- 1


def project_is_good(project: Project) -> bool:
    """The project by itself."""
    return (
        all(len(users) <= MOST_USERS for users in project.roles)
        and len(project.roles[0]) > 0
        and numbers_ascend(project.changes)
        and [delta.number for delta in project.deltas] == list(range(1, len(project.deltas) + 1))
        and all(delta.when <= LAST_MOMENT for delta in project.deltas)
        and 1 <= project.next_version <= MOST_NEXT_VERSION
    )


# ---- 2


def row_is_good(row: PathRow, deltas: int) -> bool:
    """A path with its past."""
    made = [entry.delta for entry in row.past]
    lengths = [entry.version.length for entry in row.past if entry.version is not None]
    return bool(made) and numbers_ascend([0] + made) and made[-1] <= deltas and all(length <= MOST_LENGTH for length in lengths)


def table_is_good(table: Table, deltas: int) -> bool:
    """The file table by itself, beside the number of deltas."""
    return (
        ascends([row.path for row in table.rows])
        and ascends([lock.path for lock in table.locks])
        and all(row_is_good(row, deltas) for row in table.rows)
        and not clashes(row.path for row in table.rows if row.past[-1].version is not None)
    )


# ---- 3


def passer(change: Change) -> Optional[bytes]:
    """Who made the last pass of a review, where no development ended after it."""
    found = None
    for event in change.history:
        if event.what == "review_pass":
            found = event.who
        elif event.what == "develop_end":
            found = None
    return found


def people_are_good(change: Change) -> bool:
    """Who is there in the phase of a change."""
    phase = change.phase
    return (
        bool(change.developer) == (phase != "awaiting_development")
        and bool(change.reviewer) == (phase in PAST_REVIEW and passer(change) is not None)
        and (not change.reviewing or phase == "being_reviewed" or phase in PAST_REVIEW)
        and bool(change.integrator) == (phase in ("being_integrated", "completed"))
    )


def file_is_good(file: ChangeFile, phase: str) -> bool:
    """A file of a change: it has a version exactly while it is frozen."""
    length = 0 if file.version is None else file.version.length
    return (file.version is not None) == (phase in HOLDING and file.action != "remove") and length <= MOST_LENGTH


def runs_ascend(change: Change) -> bool:
    """The runs are in their order, none twice."""
    places = [(GROUNDS.index(run.ground), KINDS.index(run.kind), run.path) for run in change.runs]
    return all(one < other for one, other in zip(places, places[1:]))


def change_is_good(change: Change, number: int) -> bool:
    """A change by itself, which is to have this number."""
    return (
        change.number == number
        and len(change.files) <= MOST_FILES
        and ascends([file.path for file in change.files])
        and runs_ascend(change)
        and all(run.when <= LAST_MOMENT for run in change.runs)
        and all(event.when <= LAST_MOMENT for event in change.history)
        and people_are_good(change)
        and all(file_is_good(file, change.phase) for file in change.files)
        and not (change.phase == "awaiting_development" and change.files)
    )


# ---- 4


def standing(table: Table, changes: Dict[int, Change]) -> List[Version]:
    """The versions that the records name: those of pasts, and those that are frozen."""
    past = [entry.version for row in table.rows for entry in row.past if entry.version is not None]
    return past + [file.version for change in changes.values() for file in change.files if file.version is not None]


def versions_are_good(project: Project, versions: List[Version]) -> bool:
    """No number is given twice, and no unit."""
    units = sorted((version.at, version.at + (version.length + 63) // 64) for version in versions if version.length > 0)
    return (
        all(version.number < project.next_version for version in versions)
        and len({version.number for version in versions}) == len(versions)
        and all(end <= MOST_UNITS for _, end in units)
        and all(one[1] <= other[0] for one, other in zip(units, units[1:]))
    )


def project_fits(project: Project, table: Table, changes: Dict[int, Change]) -> bool:
    """The project beside the changes."""
    integrated = [change for change in changes.values() if change.phase == "being_integrated"]
    completed = [number for number, change in changes.items() if change.phase == "completed"]
    return (
        len(integrated) <= 1
        and (not integrated or len(project.deltas) < MOST_DELTAS)
        and sorted(delta.change for delta in project.deltas) == sorted(completed)
        and versions_are_good(project, standing(table, changes))
    )


# ---- 5


def entries_of(table: Table) -> Set[Tuple[int, bytes, bool]]:
    """For each entry of a past its delta, its path, and whether the path was removed."""
    return {(entry.delta, row.path, entry.version is None) for row in table.rows for entry in row.past}


def entries_fit(project: Project, table: Table, changes: Dict[int, Change]) -> bool:
    """The paths with an entry of a delta are those of its change."""
    wanted = {(delta.number, file.path, file.action == "remove") for delta in project.deltas for file in changes[delta.change].files}
    return entries_of(table) == wanted


def locks_fit(table: Table, changes: Dict[int, Change]) -> bool:
    """The locks are the paths of the changes that hold them."""
    held = {(file.path, change.number) for change in changes.values() if change.phase in HOLDING for file in change.files}
    return {(lock.path, lock.change) for lock in table.locks} == held


def candidate_fits(table: Table, change: Change) -> bool:
    """No path of the baseline after this change is a folder on the way to another."""
    there = {row.path for row in table.rows if row.past[-1].version is not None}
    there -= {file.path for file in change.files}
    there |= {file.path for file in change.files if file.version is not None}
    return not clashes(there)


def table_fits(project: Project, table: Table, changes: Dict[int, Change]) -> bool:
    """The file table beside the changes."""
    return (
        entries_fit(project, table, changes)
        and locks_fit(table, changes)
        and all(candidate_fits(table, change) for change in changes.values() if change.phase == "being_integrated")
    )
