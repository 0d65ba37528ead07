"""The records of a store: which texts are records, and what they say. Section "Records" of docs/FORMATS.md has the tables."""
import re
from dataclasses import dataclass
from typing import Callable, List, Optional, Tuple, TypeVar

from .grammar import Fields, Unreadable, Value, Word, fields_of

A = TypeVar("A")
Reader = Callable[[Value], A]

USER = re.compile(rb"[a-z_][a-z0-9_.-]{0,31}")
NAME = re.compile(rb"[A-Za-z][A-Za-z0-9._-]{0,63}")
PATH = re.compile(rb"[A-Za-z0-9._+][A-Za-z0-9._+-]*(?:/[A-Za-z0-9._+-]+)*")
DIGEST = re.compile(rb"[0-9a-f]{64}")

END_ACTIONS = ("goto_being_reviewed", "goto_awaiting_review", "goto_awaiting_integration")
CAUSES = tuple(f"{side}_{kind}" for side in ("external", "internal") for kind in ("bug", "enhancement", "improvement")) + ("chain",)
PHASES = tuple(
    "awaiting_development being_developed awaiting_review being_reviewed awaiting_integration being_integrated completed".split()
)
ACTIONS = ("create", "modify", "remove")
USAGES = ("source", "config", "test")
GROUNDS = ("develop", "integrate")
KINDS = ("build", "test", "baseline_test", "regression_test")
EVENTS = tuple(
    "new_change develop_begin develop_begin_undo develop_end develop_end_undo review_begin review_begin_undo review_pass review_pass_undo"
    " review_fail integrate_begin integrate_begin_undo integrate_pass integrate_fail".split()
)


@dataclass(frozen=True)
class Version:
    """Bytes that are kept."""

    number: int
    at: int
    length: int
    digest: str


@dataclass(frozen=True)
class Delta:
    """A row of the deltas of a project."""

    number: int
    change: int
    when: int
    who: bytes


@dataclass(frozen=True)
class Project:
    """The file `project`."""

    roles: Tuple[List[bytes], ...]
    next_version: int
    changes: List[int]
    deltas: List[Delta]


@dataclass(frozen=True)
class Entry:
    """What a delta made of a path; without a version it was removed."""

    delta: int
    usage: str
    version: Optional[Version]


@dataclass(frozen=True)
class PathRow:
    """A path with its past."""

    path: bytes
    past: List[Entry]


@dataclass(frozen=True)
class Lock:
    """A path that a change holds."""

    path: bytes
    change: int


@dataclass(frozen=True)
class Table:
    """The file `files`."""

    rows: List[PathRow]
    locks: List[Lock]


@dataclass(frozen=True)
class ChangeFile:
    """A file of a change."""

    path: bytes
    action: str
    usage: str
    version: Optional[Version]


@dataclass(frozen=True)
class Run:
    """A build or a test that was run."""

    ground: str
    kind: str
    path: bytes
    status: int
    clean: bool
    subject: str
    when: int


@dataclass(frozen=True)
class Event:
    """A row of a history."""

    what: str
    who: bytes
    when: int


@dataclass(frozen=True)
class Change:
    """The file of a change. A person who isn't there has no name."""

    number: int
    test_exempt: bool
    test_baseline_exempt: bool
    regression_test_exempt: bool
    phase: str
    developer: bytes
    reviewing: bytes
    reviewer: bytes
    integrator: bytes
    files: List[ChangeFile]
    runs: List[Run]
    history: List[Event]


def is_path(text: bytes) -> bool:
    """Whether these bytes are a path."""
    return len(text) <= 255 and text != b"aegis.log" and PATH.fullmatch(text) is not None and not {b".", b".."} & set(text.split(b"/"))


def number(first: int, last: int) -> Reader[int]:
    """Reads a number of this range."""

    def read(value: Value) -> int:
        if not isinstance(value, int) or not first <= value <= last:
            raise Unreadable
        return value

    return read


def word(words: Tuple[str, ...]) -> Reader[str]:
    """Reads one of these words."""

    def read(value: Value) -> str:
        if not isinstance(value, Word) or value not in words:
            raise Unreadable
        return str(value)

    return read


def string(is_right: Callable[[bytes], object]) -> Reader[bytes]:
    """Reads a string that is right so."""

    def read(value: Value) -> bytes:
        if not isinstance(value, bytes) or not is_right(value):
            raise Unreadable
        return value

    return read


def rows(reader: Reader[A]) -> Reader[List[A]]:
    """Reads a list of these."""

    def read(value: Value) -> List[A]:
        if not isinstance(value, list):
            raise Unreadable
        return [reader(element) for element in value]

    return read


def values_of(value: Value, names: str) -> List[Value]:
    """The values of a structure that has just the fields of these names, in this order."""
    if not isinstance(value, Fields) or list(value) != names.split():
        raise Unreadable
    return list(value.values())


any_number = number(0, 2**64 - 1)
change_number = number(10, 1999)
delta_number = number(0, 1990)
any_string = string(lambda text: True)
path = string(is_path)
path_or_none = string(lambda text: not text or is_path(text))
user = string(USER.fullmatch)
user_or_none = string(lambda text: not text or USER.fullmatch(text))
digest_string = string(DIGEST.fullmatch)
flag_word = word(("false", "true"))


def flag(value: Value) -> bool:
    """Reads a flag."""
    return flag_word(value) == "true"


def digest(value: Value) -> str:
    """Reads a SHA-256."""
    return digest_string(value).decode()


def version(value: Value) -> Optional[Version]:
    """Reads a version, or that there is none."""
    if isinstance(value, Fields) and not value:
        return None
    numbered, at, length, said = values_of(value, "number at length digest")
    return Version(any_number(numbered), any_number(at), number(0, 2**32 - 1)(length), digest(said))


def delta(value: Value) -> Delta:
    """Reads a row of the deltas."""
    made, change, when, who = values_of(value, "delta change when who")
    return Delta(delta_number(made), change_number(change), any_number(when), user(who))


def role(value: Value) -> List[bytes]:
    """Reads the users of a role."""
    users = rows(user)(value)
    if len(set(users)) != len(users):
        raise Unreadable
    return users


PROJECT = (
    "format store name description developer_may_review developer_may_integrate reviewer_may_integrate developers_may_create_changes"
    " develop_end_action default_test_exemption administrators developers reviewers integrators next_version changes deltas"
)


def read_project(text: bytes) -> Tuple[int, Project]:
    """The format of a store, and its project."""
    fields = fields_of(text)
    values_of(fields, PROJECT)
    told = number(1, 2)(fields["format"])
    word(("packed",))(fields["store"])
    string(NAME.fullmatch)(fields["name"])
    any_string(fields["description"])
    for name in "developer_may_review developer_may_integrate reviewer_may_integrate developers_may_create_changes".split():
        flag(fields[name])
    word(END_ACTIONS)(fields["develop_end_action"])
    flag(fields["default_test_exemption"])
    roles = tuple(role(fields[name]) for name in ("administrators", "developers", "reviewers", "integrators"))
    next_version = any_number(fields["next_version"])
    return told, Project(roles, next_version, rows(change_number)(fields["changes"]), rows(delta)(fields["deltas"]))


def entry(value: Value) -> Entry:
    """Reads an entry of a past."""
    made, usage, kept = values_of(value, "delta usage version")
    return Entry(delta_number(made), word(USAGES)(usage), version(kept))


def path_row(value: Value) -> PathRow:
    """Reads a path with its past."""
    named, edit, past = values_of(value, "path edit past")
    row = PathRow(path(named), rows(entry)(past))
    if any_number(edit) != len(row.past):
        raise Unreadable
    return row


def lock(value: Value) -> Lock:
    """Reads a lock."""
    named, change = values_of(value, "path change")
    return Lock(path(named), change_number(change))


def read_table(text: bytes) -> Table:
    """The file table of a store, and its locks."""
    files, locks = values_of(fields_of(text), "files locks")
    return Table(rows(path_row)(files), rows(lock)(locks))


def change_file(value: Value) -> ChangeFile:
    """Reads a file of a change."""
    named, action, usage, origin, kept = values_of(value, "path action usage origin version")
    number(0, 2**32 - 1)(origin)
    return ChangeFile(path(named), word(ACTIONS)(action), word(USAGES)(usage), version(kept))


def run(value: Value) -> Run:
    """Reads a run."""
    ground, kind, named, status, clean, subject, when, who = values_of(value, "ground kind path status clean subject when who")
    user(who)
    return Run(
        word(GROUNDS)(ground),
        word(KINDS)(kind),
        path_or_none(named),
        number(0, 2**16 - 1)(status),
        flag(clean),
        digest(subject),
        any_number(when),
    )


def event(told: int) -> Reader[Event]:
    """Reads a row of a history, in this format."""

    def read(value: Value) -> Event:
        what, who, when, *why = values_of(value, "what who when why" if told == 2 else "what who when")
        for reason in why:
            any_string(reason)
        return Event(word(EVENTS)(what), user(who), any_number(when))

    return read


CHANGE = (
    "number brief_description description cause test_exempt test_baseline_exempt regression_test_exempt phase developer reviewing reviewer"
    " integrator files evidence history"
)


def read_change(text: bytes, told: int) -> Change:
    """A change of a store, in this format."""
    fields = fields_of(text)
    values_of(fields, CHANGE)
    any_string(fields["brief_description"])
    any_string(fields["description"])
    word(CAUSES)(fields["cause"])
    return Change(
        number=change_number(fields["number"]),
        test_exempt=flag(fields["test_exempt"]),
        test_baseline_exempt=flag(fields["test_baseline_exempt"]),
        regression_test_exempt=flag(fields["regression_test_exempt"]),
        phase=word(PHASES)(fields["phase"]),
        developer=user_or_none(fields["developer"]),
        reviewing=user_or_none(fields["reviewing"]),
        reviewer=user_or_none(fields["reviewer"]),
        integrator=user_or_none(fields["integrator"]),
        files=rows(change_file)(fields["files"]),
        runs=rows(run)(fields["evidence"]),
        history=rows(event(told))(fields["history"]),
    )
