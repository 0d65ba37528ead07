"""refs/changes/N/head of the mirror: what change N has frozen, as a commit; of a change of a branch, refs/changes/NAME/N/head.

It is made of the versions of the store and of nothing else, so whoever fetches it has just what is passed, and its id is the same each
time. It is over the delta from which the change began. There is one while the change is frozen.
"""
from __future__ import annotations

import hashlib
import itertools
from typing import IO, Dict, Iterator, NamedTuple

from .diff import frozen_digest
from .display import shown_lines
from .git import INCOMING, Refs, change_refs, data, file_of, imported, person, refs_of, remove_files
from .git_names import kept_by_git, ref_name
from .place import Place, places_of
from .records import FROZEN, Change
from .store import Store, with_store
from .wanted import folders_of

REFS = "refs/changes"
# the lines of a commit's message
CHANGE, DELTA, DIGEST, UNCHANGED = "Aegis-Change", "Aegis-Delta", "Aegis-Digest", "Aegis-Unchanged"
# by ref, which commit it is
Keys = Dict[str, str]


class Head(NamedTuple):
    """What a change has frozen, as a commit."""

    change: Change
    base: int  # the delta over which it is; 0 where its files are all that there are
    parent: str  # the tag of the commit before it; nothing where there is none
    text: bytes  # who made it when, and its message

    @property
    def key(self) -> str:
        """Which commit it is. The digest of its files is in the message."""
        return hashlib.sha256(f"{self.parent}\n".encode() + self.text).hexdigest()


def ref_of(branch: str, number: int) -> str:
    """The ref of a change."""
    return f"{REFS}/{ref_name(branch) + '/' if branch else ''}{number}/head"


def tag_of(branch: str, delta: int) -> str:
    """The tag of a delta."""
    return f"refs/tags/branch/{ref_name(branch)}/delta-{delta}" if branch else f"refs/tags/delta-{delta}"


# ---- what a head is


def heads_of(store: Store) -> Dict[str, Head]:
    """The head of each change that is frozen, by its ref; none of one that has a path which git keeps for itself."""
    frozen = [change for change in store.open_changes() if change.phase in FROZEN]
    chosen = [change for change in frozen if not any(kept_by_git(file.path) for file in change.files)]
    return {ref_of(store.place.branch, change.number): head_of(store, change) for change in chosen}


def head_of(store: Store, change: Change) -> Head:
    branch, base = store.place.branch, base_of(store, change)
    begun = store.begun_from() if branch else None
    parent = tag_of(branch, base) if base else tag_of("", begun) if begun else ""
    ended = next((event.when for event in reversed(change.history) if event.what == "develop_end"), 0)
    people = person("author", change.developer, ended) + person("committer", change.developer, ended)
    return Head(change, base, parent, people + data(message_of(store, change, base)))


def base_of(store: Store, change: Change) -> int:
    """The delta over which a change is shown: the last one when its development began, or that of which it has taken a file since.

    No other change has touched its files since then, as they are locked. Where a folder was in the place of a file, or the other way
    round, it is the last delta.
    """
    begun = next((event.when for event in reversed(change.history) if event.what == "develop_begin"), 0)
    found = sum(1 for _ in itertools.takewhile(lambda delta: delta.when <= begun, store.project.deltas))
    for file in change.files:
        row = store.paths.get(file.path)
        if row and 1 <= file.origin <= row.edit:
            found = max(found, row.past[file.origin - 1].delta)
        if file.action == "create" and (store.was_folder(file.path) or any(folder in store.paths for folder in folders_of(file.path))):
            return len(store.project.deltas)
    return found


def message_of(store: Store, change: Change, base: int) -> bytes:
    """The descriptions of the change, its digest, and which files are as they were, so that the digest can be found from the commit."""
    brief, description = (shown_lines(text).strip() for text in (change.brief_description, change.description))
    lines = [f"{CHANGE}: {change.number}", f"{DELTA}: {base}", f"{DIGEST}: {frozen_digest(change)}"]
    lines += [f"{UNCHANGED}: {path}" for path in unchanged(store, change)]
    paragraphs = [brief or f"change {change.number}", description, "\n".join(lines)]
    return "\n\n".join(filter(None, paragraphs)).encode() + b"\n"


def unchanged(store: Store, change: Change) -> Iterator[str]:
    """The files that were copied to be modified, and are as they were."""
    for file in change.files:
        before = store.base_of(file.path, file.origin) if file.action == "modify" else None
        if before and file.version and (before.length, before.digest) == (file.version.length, file.version.digest):
            yield file.path


# ---- the mirror


def bring_up(where: Place, mirror: str, known: Keys) -> Keys:
    """Brings the refs up to the project and its branches. Those that are known are as they were; the deltas are in the mirror."""
    there = refs_of(mirror, "refs/tags", REFS, INCOMING)
    tags = {ref: commit for ref, commit in there.items() if ref.startswith("refs/tags/")}
    found: Keys = {}
    for one in places_of(where.top):
        found.update(with_store(one, lambda store: of_place(store, mirror, tags, known)))
    # what an import left that was stopped goes with those of changes that aren't frozen any more
    gone = sorted(ref for ref in there if ref not in tags and ref not in found)
    if gone:
        change_refs(mirror, [f"delete {ref}" for ref in gone])
    return found


def of_place(store: Store, mirror: str, tags: Dict[str, str], known: Keys) -> Keys:
    """Makes the heads of the project, or of a branch. One whose delta came meanwhile waits for the next time."""
    heads = {ref: head for ref, head in heads_of(store).items() if not head.parent or head.parent in tags}
    new = {ref: head for ref, head in heads.items() if known.get(ref) != head.key}
    if new:
        try:
            commits = imported(mirror, lambda out: write(store, out, new, tags))
            moved = sorted(commits.items())
            change_refs(mirror, [f"update {ref} {commit}\ndelete {INCOMING}/{ref}" for ref, commit in moved])
        finally:
            remove_files(mirror)
    return {ref: head.key for ref, head in heads.items()}


def write(store: Store, out: IO[bytes], heads: Dict[str, Head], tags: Dict[str, str]) -> Refs:
    """Writes the heads as an import, and answers the mark of each."""
    refs: Refs = {}
    for mark, (ref, head) in enumerate(sorted(heads.items()), 1):
        out.write(f"commit {INCOMING}/{ref}\nmark :{mark}\n".encode() + head.text)
        if head.parent:
            out.write(f"from {tags[head.parent]}\n".encode())
        if not head.base:
            out.write(b"deleteall\n")
        for row in files_of(store, head.change):
            out.write(row)
        out.write(b"\n")
        refs[ref] = mark
    return refs


def files_of(store: Store, change: Change) -> Iterator[bytes]:
    """What a change does to the files; it removes first, since a folder may take a file's place."""
    yield from (f"D {file.path}\n".encode() for file in change.files if file.action == "remove")
    for file in change.files:
        if file.version:
            yield file_of(file.path, store.bytes_of(file.version))
