"""What the records say of the deltas of a project: their people, their runs, and their trees."""
from __future__ import annotations

import hashlib
from typing import Dict, Iterator, List, NamedTuple, Optional, Tuple

from .records import Change, Delta, Event, PastEntry, Run
from .store import Store


class Step(NamedTuple):
    """A delta with its change, and what it made of which paths."""

    delta: Delta
    change: Change
    entries: Tuple[Tuple[str, PastEntry], ...]

    @property
    def runs(self) -> List[Run]:
        """The runs of its integration."""
        return [run for run in self.change.evidence if run.ground == "integrate"]

    @property
    def ended(self) -> Optional[Event]:
        """The last end of its development."""
        return next((event for event in reversed(self.change.history) if event.what == "develop_end"), None)

    @property
    def passed(self) -> Optional[Event]:
        """The pass of its review, where it wasn't waived."""
        passes = [event for event in self.change.history if event.what == "review_pass" and event.who == self.change.reviewer]
        return passes[-1] if passes and self.change.reviewer else None


def made_by_deltas(store: Store) -> Dict[int, List[Tuple[str, PastEntry]]]:
    """What each delta made of which paths, in the order of these."""
    made: Dict[int, List[Tuple[str, PastEntry]]] = {}
    for path, entry in ((file.path, entry) for file in store.table.files for entry in file.past):
        made.setdefault(entry.delta, []).append((path, entry))
    return made


def steps(store: Store) -> Iterator[Step]:
    """The deltas of a store, one after another."""
    made = made_by_deltas(store)
    for delta in store.project.deltas:
        yield Step(delta, store.change(delta.change), tuple(made.get(delta.number, [])))


def digest_of(tree: Dict[str, PastEntry]) -> str:
    """The digest of a tree by docs/FORMATS.md: of its path, its length and its SHA-256 for each file, in the order of the paths."""
    digest = hashlib.sha256()
    for path in sorted(tree):
        version = tree[path].version
        digest.update(f"{path} {version.length} {version.digest}\n".encode() if version else f"{path} -\n".encode())
    return digest.hexdigest()


def put(tree: Dict[str, PastEntry], step: Step) -> None:
    """Makes the tree before a delta that at the delta."""
    for path, entry in step.entries:
        if entry.version:
            tree[path] = entry
        else:
            tree.pop(path, None)
