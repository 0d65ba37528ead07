"""ae review N in a clone of a host: fetches what the change has frozen, shows it, and passes just that by its digest.

The digest is found here, of the bytes that were fetched. The host passes the change by it only where the store has frozen just these. They
are shown beside the delta that the host's repository has before them.
"""
from __future__ import annotations

import hashlib
import subprocess
from typing import Dict, List, Set, Tuple

from .afar import Clone, give, said_by
from .diff import Pair, compared
from .directory import FileState, digest_of
from .display import paged
from .failures import Failure
from .heads import DELTA, DIGEST, UNCHANGED, ref_of
from .objects import Objects
from .pushed import EMPTY_TREE, MODES, git_bytes
from .records import PATH
from .review import REVIEWED, Subject, decide

NO_BLOB = "0" * 40
# of a path the blobs that it was and is, where it was and is there
Rows = Dict[str, Tuple[str, str]]


def review(clone: Clone, number: int) -> int:
    status, said = said_by(clone, "aegis", "-l", "cd", "-c", str(number))
    if status != 0:
        return status
    details = dict(line.partition(": ")[::2] for line in said.splitlines())
    phase = details.get("phase", "")
    if phase not in REVIEWED:
        raise Failure(f"change {number} is {phase}: there is nothing to review")
    pairs, digest = shown_and_passed(clone.folder, fetched(clone, number))
    text = compared(pairs)
    is_begun = phase == "being_reviewed"
    if not is_begun:
        status = give(clone, "aegis", "-rb", "-c", str(number))
        if status != 0:
            return status
    paged(text)
    subject = Subject(number, details.get("developer", ""), details.get("brief_description", ""), digest, is_begun)
    return decide(subject, lambda words: give(clone, *words))


def fetched(clone: Clone, number: int) -> str:
    """The commit of what a change has frozen, which is fetched from the host."""
    ref = ref_of(clone.branch, number)
    words = ["fetch", "--quiet", "--no-tags", "--no-write-fetch-head", "--no-recurse-submodules", clone.url, f"+{ref}:{ref}"]
    if subprocess.run(["git", *words], stdin=subprocess.DEVNULL, check=False).returncode:
        raise Failure(f"{ref} can't be fetched")
    return git_bytes(clone.folder, "rev-parse", "--verify", f"{ref}^{{commit}}").decode().strip()


def shown_and_passed(folder: str, commit: str) -> Tuple[List[Pair], str]:
    """What differs from the commit before, and the digest of what is passed."""
    parents = git_bytes(folder, "rev-list", "--parents", "-n", "1", commit).decode().split()[1:]
    rows = rows_of(folder, parents[0] if parents else EMPTY_TREE, commit)
    tree = rows_of(folder, EMPTY_TREE, commit)
    said = lines_of(folder, commit)
    paths = set(tree) if said[DELTA] == ["0"] else set(rows) | set(said[UNCHANGED])
    with Objects(folder) as objects:
        held = {blob: objects.there(blob) for blob in blobs_among(rows) | {tree[path][1] for path in paths if path in tree}}
    digest = digest_of((path, state_of(held[tree[path][1]]) if path in tree else None) for path in sorted(paths))
    if said[DIGEST] != [digest]:
        raise Failure(f"what was fetched has the digest {digest}, and says another")
    return [(path, held.get(before), held.get(after)) for path, (before, after) in sorted(rows.items())], digest


def rows_of(folder: str, before: str, after: str) -> Rows:
    """What differs between two trees. What a project doesn't have is refused."""
    words = ["diff-tree", "-r", "--no-renames", "--no-commit-id", "--raw", "-z", "--full-index", before, after]
    found = git_bytes(folder, *words).decode("utf-8", "surrogateescape").split("\0")
    rows = {}
    for row, path in zip(found[0::2], found[1::2]):
        _, mode, old, new, _ = row.split()
        if not PATH.fullmatch(path) or mode not in {"000000", *MODES}:
            raise Failure(f"{ascii(path)} is no file that a project has")
        rows[path] = (old, new)
    return rows


def lines_of(folder: str, commit: str) -> Dict[str, List[str]]:
    """What the last lines of a commit's message say, each by its name."""
    said = git_bytes(folder, "log", "-1", "--no-show-signature", "--format=%(trailers:only,unfold)", commit).decode(errors="replace")
    found: Dict[str, List[str]] = {DELTA: [], DIGEST: [], UNCHANGED: []}
    for line in said.splitlines():
        name, _, value = line.partition(": ")
        found.setdefault(name, []).append(value)
    return found


def blobs_among(rows: Rows) -> Set[str]:
    return {blob for row in rows.values() for blob in row} - {NO_BLOB}


def state_of(held: bytes) -> FileState:
    return FileState(len(held), hashlib.sha256(held).hexdigest())
