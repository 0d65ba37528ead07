"""The records of a project as values (docs/FORMATS.md, "Records"), each made from the fields of its state file.

What isn't the record that the table shows raises `BadRecord`. The rules between records aren't looked at here, which
`aegis -aud` does, but for those without which nothing can be shown.
A text that a user wrote is a `str` in which bytes that aren't UTF-8 are surrogates, so that it can be turned into its bytes again.
"""
from __future__ import annotations

import re
from typing import Callable, FrozenSet, NamedTuple, Optional, Sequence, Tuple, TypeVar

from .text import Fields, Value

PHASES = (
    "awaiting_development",
    "being_developed",
    "awaiting_review",
    "being_reviewed",
    "awaiting_integration",
    "being_integrated",
    "completed",
)
FROZEN = frozenset(PHASES[2:6])
ACTIONS = frozenset({"create", "modify", "remove"})
USAGES = frozenset({"source", "config", "test"})
CAUSES = frozenset(f"{of}_{what}" for of in ("external", "internal") for what in ("bug", "enhancement", "improvement")) | {"chain"}
GROUNDS = ("develop", "integrate")
KINDS = ("build", "test", "baseline_test", "regression_test")
EVENTS = frozenset(
    "new_change develop_begin develop_begin_undo develop_end develop_end_undo review_begin review_begin_undo review_pass "
    "review_pass_undo review_fail integrate_begin integrate_begin_undo integrate_pass integrate_fail".split()
)
END_ACTIONS = frozenset({"goto_being_reviewed", "goto_awaiting_review", "goto_awaiting_integration"})

PART = r"(?!\.\.?(?:/|\Z))[A-Za-z0-9._+-]+"
PATH = re.compile(rf"(?!-)(?!aegis\.log\Z){PART}(?:/{PART})*")
LONGEST_PATH = 255
USER = re.compile(r"[a-z_][a-z0-9_.-]{0,31}")
PROJECT_NAME = re.compile(r"[A-Za-z][A-Za-z0-9._-]{0,63}")
DIGEST = re.compile(r"[0-9a-f]{64}")
# of the rules, this one is looked at here, since no later moment has a date that can be shown
LAST_MOMENT = 4_102_444_799

T = TypeVar("T")


class BadRecord(ValueError):
    """Fields that aren't those of the record."""


class Version(NamedTuple):
    """Bytes of a file that the project keeps: the first `length` of `pack` from the unit `at` on."""

    number: int
    at: int
    length: int
    digest: str


class PastEntry(NamedTuple):
    """What a delta made of a path. Without a version it removed the file."""

    delta: int
    usage: str
    version: Optional[Version]


class ProjectFile(NamedTuple):
    """A path that the project has or had. The edit is how many deltas touched it."""

    path: str
    edit: int
    past: Tuple[PastEntry, ...]

    def at(self, delta: int) -> Optional[PastEntry]:
        """The last entry up to a delta."""
        found = None
        for entry in self.past:
            if entry.delta > delta:
                break
            found = entry
        return found


class Lock(NamedTuple):
    """A path that a change holds."""

    path: str
    change: int


class Files(NamedTuple):
    """The state file `files`: all paths, and the locks."""

    files: Tuple[ProjectFile, ...]
    locks: Tuple[Lock, ...]


class Settings(NamedTuple):
    """What the project asks of who reviews and integrates, and what becomes of a change whose development ends."""

    developer_may_review: bool
    developer_may_integrate: bool
    reviewer_may_integrate: bool
    developers_may_create_changes: bool
    develop_end_action: str
    default_test_exemption: bool


class Roles(NamedTuple):
    """Who has which role."""

    administrators: Tuple[str, ...]
    developers: Tuple[str, ...]
    reviewers: Tuple[str, ...]
    integrators: Tuple[str, ...]


class Delta(NamedTuple):
    """A step of the baseline: which change it is, when and by whom it was integrated."""

    number: int
    change: int
    when: int
    who: str


class Project(NamedTuple):
    """The state file `project`."""

    format: int
    name: str
    description: str
    settings: Settings
    roles: Roles
    next_version: int
    changes: Tuple[int, ...]
    deltas: Tuple[Delta, ...]


class ChangeFile(NamedTuple):
    """What a change does to a path. The origin is the edit from which the work began; a version is there while it's frozen."""

    path: str
    action: str
    usage: str
    origin: int
    version: Optional[Version]


class Run(NamedTuple):
    """A build or a test that was made for a change, on files of this digest."""

    ground: str
    kind: str
    path: str
    status: int
    clean: bool
    subject: str
    when: int
    who: str


class Event(NamedTuple):
    """A row of a change's history."""

    what: str
    who: str
    when: int
    why: str


class Change(NamedTuple):
    """The state file of a change."""

    number: int
    brief_description: str
    description: str
    cause: str
    test_exempt: bool
    test_baseline_exempt: bool
    regression_test_exempt: bool
    phase: str
    developer: str
    reviewing: str
    reviewer: str
    integrator: str
    files: Tuple[ChangeFile, ...]
    evidence: Tuple[Run, ...]
    history: Tuple[Event, ...]


def values(value: Value, names: str) -> Sequence[Value]:
    """The values of a structure that has just these fields, in this order."""
    if not isinstance(value, dict) or list(value) != names.split():
        raise BadRecord
    return list(value.values())


def number(value: Value) -> int:
    if not isinstance(value, int):
        raise BadRecord
    return value


def flag(value: Value) -> bool:
    if value not in ("true", "false"):
        raise BadRecord
    return value == "true"


def word(value: Value, words: FrozenSet[str]) -> str:
    if not isinstance(value, str) or value not in words:
        raise BadRecord
    return value


def text(value: Value) -> str:
    """A text that a user wrote."""
    if not isinstance(value, bytes):
        raise BadRecord
    return value.decode("utf-8", "surrogateescape")


def named(value: Value, names: "re.Pattern[str]", may_lack: bool = False) -> str:
    """A string of these names; where it may lack, also the empty one."""
    found = text(value)
    if not (names.fullmatch(found) or (may_lack and not found)):
        raise BadRecord
    return found


def path(value: Value, may_lack: bool = False) -> str:
    found = named(value, PATH, may_lack)
    if len(found) > LONGEST_PATH:
        raise BadRecord
    return found


def moment(value: Value) -> int:
    found = number(value)
    if found > LAST_MOMENT:
        raise BadRecord
    return found


def change_number(value: Value) -> int:
    found = number(value)
    if not 10 <= found <= 1999:
        raise BadRecord
    return found


def rows(value: Value, make: Callable[[Value], T]) -> Tuple[T, ...]:
    """The rows of a list."""
    if not isinstance(value, list):
        raise BadRecord
    return tuple(make(row) for row in value)


def ascending(found: Tuple[T, ...], key: Callable[[T], object]) -> Tuple[T, ...]:
    """Rows of which each comes after the one before it."""
    keys = [key(row) for row in found]
    if any(not before < after for before, after in zip(keys, keys[1:])):  # type: ignore[operator]
        raise BadRecord
    return found


def version(value: Value) -> Optional[Version]:
    if value == {}:
        return None
    row = values(value, "number at length digest")
    return Version(number(row[0]), number(row[1]), number(row[2]), named(row[3], DIGEST))


def past_entry(value: Value) -> PastEntry:
    row = values(value, "delta usage version")
    return PastEntry(number(row[0]), word(row[1], USAGES), version(row[2]))


def project_file(value: Value) -> ProjectFile:
    row = values(value, "path edit past")
    found = ProjectFile(path(row[0]), number(row[1]), rows(row[2], past_entry))
    if found.edit != len(found.past):
        raise BadRecord
    return found


def lock(value: Value) -> Lock:
    row = values(value, "path change")
    return Lock(path(row[0]), change_number(row[1]))


def files_of(fields: Fields) -> Files:
    """The record `files`."""
    row = values(fields, "files locks")
    files = ascending(rows(row[0], project_file), lambda file: file.path)
    return Files(files, ascending(rows(row[1], lock), lambda held: held.path))


def delta(value: Value) -> Delta:
    row = values(value, "delta change when who")
    return Delta(number(row[0]), change_number(row[1]), moment(row[2]), named(row[3], USER))


def user(value: Value) -> str:
    return named(value, USER)


def project_of(fields: Fields) -> Project:
    """The record `project`, of either format."""
    names = (
        "format store name description developer_may_review developer_may_integrate reviewer_may_integrate "
        "developers_may_create_changes develop_end_action default_test_exemption administrators developers reviewers integrators "
        "next_version changes deltas"
    )
    row = values(fields, names)
    if row[0] not in (1, 2) or row[1] != "packed":
        raise BadRecord
    settings = Settings(flag(row[4]), flag(row[5]), flag(row[6]), flag(row[7]), word(row[8], END_ACTIONS), flag(row[9]))
    roles = Roles(rows(row[10], user), rows(row[11], user), rows(row[12], user), rows(row[13], user))
    changes, deltas = ascending(rows(row[15], change_number), lambda change: change), rows(row[16], delta)
    if any(found.number != place for place, found in enumerate(deltas, 1)):
        raise BadRecord
    return Project(number(row[0]), named(row[2], PROJECT_NAME), text(row[3]), settings, roles, number(row[14]), changes, deltas)


def change_file(value: Value) -> ChangeFile:
    row = values(value, "path action usage origin version")
    return ChangeFile(path(row[0]), word(row[1], ACTIONS), word(row[2], USAGES), number(row[3]), version(row[4]))


def run(value: Value) -> Run:
    row = values(value, "ground kind path status clean subject when who")
    ground, kind = word(row[0], frozenset(GROUNDS)), word(row[1], frozenset(KINDS))
    who = named(row[7], USER)
    return Run(ground, kind, path(row[2], True), number(row[3]), flag(row[4]), named(row[5], DIGEST), moment(row[6]), who)


def run_order(made: Run) -> Tuple[int, int, str]:
    return GROUNDS.index(made.ground), KINDS.index(made.kind), made.path


def event(value: Value) -> Event:
    """A row of a history of the second format."""
    row = values(value, "what who when why")
    return Event(word(row[0], EVENTS), named(row[1], USER), moment(row[2]), text(row[3]))


def event_without_reason(value: Value) -> Event:
    """A row of a history of the first format."""
    row = values(value, "what who when")
    return Event(word(row[0], EVENTS), named(row[1], USER), moment(row[2]), "")


def change_of(fields: Fields, format: int) -> Change:
    """The record of a change, in a project of this format."""
    names = (
        "number brief_description description cause test_exempt test_baseline_exempt regression_test_exempt phase developer "
        "reviewing reviewer integrator files evidence history"
    )
    row = values(fields, names)
    return Change(
        number=change_number(row[0]),
        brief_description=text(row[1]),
        description=text(row[2]),
        cause=word(row[3], CAUSES),
        test_exempt=flag(row[4]),
        test_baseline_exempt=flag(row[5]),
        regression_test_exempt=flag(row[6]),
        phase=word(row[7], frozenset(PHASES)),
        developer=named(row[8], USER, may_lack=True),
        reviewing=named(row[9], USER, may_lack=True),
        reviewer=named(row[10], USER, may_lack=True),
        integrator=named(row[11], USER, may_lack=True),
        files=ascending(rows(row[12], change_file), lambda file: file.path),
        evidence=ascending(rows(row[13], run), run_order),
        history=rows(row[14], event if format == 2 else event_without_reason),
    )
