"""What shows a delta: the runs that its change needed, and its review. docs/MACHINE.md says it under "Shown"."""
import hashlib
from bisect import bisect_left, insort
from dataclasses import dataclass
from typing import Dict, List, Optional, Tuple

from .records import Change, Delta, Entry, Table
from .rules import passer

Key = Tuple[str, bytes]


@dataclass(frozen=True)
class Shown:
    """A line of an audit."""

    delta: int
    change: int
    tree: str
    runs: int
    review: str

    def line(self) -> str:
        """The line, as `aegis -AUDit` writes it."""
        return f"delta {self.delta} change {self.change} tree {self.tree} runs {self.runs}, {self.review}\n"


class Tree:
    """The files of the baseline, as delta after delta makes them."""

    def __init__(self) -> None:
        self.paths: List[bytes] = []
        self.lines: Dict[bytes, bytes] = {}
        self.usages: Dict[bytes, str] = {}

    def put(self, path: bytes, entry: Entry) -> None:
        """What a delta made of a path."""
        if entry.version is None:
            self.drop(path)
            return
        if path not in self.lines:
            insort(self.paths, path)
        self.lines[path] = b"%s %d %s\n" % (path, entry.version.length, entry.version.digest.encode())
        self.usages[path] = entry.usage

    def drop(self, path: bytes) -> None:
        """The path was removed."""
        if path in self.lines:
            del self.paths[bisect_left(self.paths, path)], self.lines[path], self.usages[path]

    def digest(self) -> str:
        """The digest of the tree: of a line for each path, in their order."""
        return hashlib.sha256(b"".join(self.lines[path] for path in self.paths)).hexdigest()

    def tests(self) -> List[bytes]:
        """The tests of the tree."""
        return [path for path, usage in self.usages.items() if usage == "test"]


def tests_of(change: Change) -> List[bytes]:
    """The tests that the change creates or modifies."""
    return [file.path for file in change.files if file.usage == "test" and file.action != "remove"]


def needed(change: Change, before: Tree) -> List[Key]:
    """The kind and the path of each run that the change needs over the tree before it."""
    own, files = tests_of(change), {file.path for file in change.files}
    runs: List[Key] = [("build", b"")]
    if not change.test_exempt:
        runs += [("test", path) for path in own]
    if not change.test_exempt and not change.test_baseline_exempt and before.paths:
        runs += [("baseline_test", path) for path in own]
    if not change.regression_test_exempt:
        runs += [("regression_test", path) for path in before.tests() if path not in files]
    return runs


def review_of(change: Change) -> Optional[str]:
    """What the records say of the change's review; nothing where they don't fit one another."""
    passed_by = passer(change)
    if not change.reviewer and passed_by is None:
        return "not reviewed"
    if change.reviewer != passed_by:
        return None
    user = change.reviewer.decode()
    return f"reviewed by its developer {user}" if change.developer == change.reviewer else f"reviewed by {user}"


def have_counting(change: Change, runs: List[Key], tree: str) -> bool:
    """Whether each of these has a run of the integration that ended as wanted, changed no file, and was of this tree."""
    made = {(run.kind, run.path): run for run in change.runs if run.ground == "integrate"}
    return all(
        key in made and made[key].status == (key[0] == "baseline_test") and made[key].clean and made[key].subject == tree for key in runs
    )


def made_by(table: Table) -> Dict[int, List[Tuple[bytes, Entry]]]:
    """For each delta what it made of which paths, in the order of these."""
    made: Dict[int, List[Tuple[bytes, Entry]]] = {}
    for row in table.rows:
        for entry in row.past:
            made.setdefault(entry.delta, []).append((row.path, entry))
    return made


def show(delta: Delta, change: Change, entries: List[Tuple[bytes, Entry]], tree: Tree) -> Optional[Shown]:
    """Makes the tree before a delta that at the delta, and answers how it is shown; nothing where it isn't."""
    runs = needed(change, tree)
    for path, entry in entries:
        tree.put(path, entry)
    digest, review = tree.digest(), review_of(change)
    has_test = change.test_exempt or bool(tests_of(change))
    if review is None or not has_test or not have_counting(change, runs, digest):
        return None
    return Shown(delta.number, change.number, digest, len(runs), review)
