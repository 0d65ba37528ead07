"""A push becomes a change: it is begun or gone on with, its files are those that were pushed, and its development is ended.

All that can be refused is, before anything of the project changes. Whatever stops it, the same push again goes on: the change is found by
the commit, which stands in its history and, before the first command, in a ref of the mirror. A command that outlives the push which gave
it, keeps the push's locks until it ends, so that the same push again finds what it did.
"""
from __future__ import annotations

import contextlib
import errno
import fcntl
import hashlib
import os
import struct
import time
from typing import Dict, Iterator, List, NamedTuple, Optional, Tuple

from . import program
from .display import shown
from .failures import Failure
from .finish import Finish, Work, finish
from .git import change_refs
from .git_names import ref_name
from .held import HeldDirectory
from .new import CREATED, file_of_attributes, string
from .place import Place
from .program import give, show
from .pushed import Push, PushedFile
from .queue import end_of
from .records import FROZEN, Change, ChangeFile
from .store import Store, with_store
from .wanted import folders_of, undo_of

LOCKS = "aegis-pushes"
# for how many seconds a push waits for another one of the same, which may be a command that outlived it
PATIENCE = 120.0
BETWEEN_TRIES = 0.05
AT_ONCE = 500
SHOWN = 5
# how many lines of a log are shown where a run fails
LINES = 20


class Pushing(NamedTuple):
    """A push that is being made a change of, for a user."""

    push: Push
    mirror: str
    user: str
    digests: Dict[str, str]  # of the bytes of each file

    @property
    def place(self) -> Place:
        return self.push.place

    @property
    def reason(self) -> str:
        """What the history of a change says, which is made of this commit."""
        return f"push {self.push.commit}"

    def ref(self, number: int) -> str:
        """The ref that keeps the commit of which a change is."""
        return f"refs/aegis/changes/{ref_name(self.place.branch) + '/' if self.place.branch else ''}{number}"

    @property
    def begun(self) -> str:
        """The ref that keeps a commit while its change has no number yet."""
        return f"refs/aegis/begun/{self.push.commit}"


def make(push: Push, mirror: str, user: str) -> int:
    """Makes a change of a push, and answers its number once its development has ended with just what was pushed."""
    pushing = Pushing(push, mirror, user, {path: hashlib.sha256(data).hexdigest() for path, data in push.held.items()})
    with locks_of(mirror) as locks:
        take(locks, push.commit)
        found = with_store(push.place, lambda store: number_for(store, pushing))
        number = new_change(pushing) if found is None else found
        take(locks, pushing.ref(number))
        change = with_store(push.place, lambda store: unfinished(store, number, pushing))
        if change is not None:
            change_refs(mirror, [f"update {pushing.ref(number)} {push.commit}", f"delete {pushing.begun}"])
            develop(pushing, change)
            if not with_store(push.place, lambda store: is_done(store, number, pushing)):
                raise Failure(f"change {number} has other files than were pushed: push again with -o change={number}")
    return number


@contextlib.contextmanager
def locks_of(mirror: str) -> Iterator[int]:
    """The file of whose bytes each is a lock. What is taken goes with the last process that has the file open: this, and its commands."""
    locks = os.open(os.path.join(mirror, LOCKS), os.O_RDWR | os.O_CREAT | os.O_NOFOLLOW | os.O_CLOEXEC, 0o600)
    program.kept.append(locks)
    try:
        yield locks
    finally:
        program.kept.remove(locks)
        os.close(locks)


def take(locks: int, name: str) -> None:
    """Lets no other push be made of this meanwhile. It waits for one that is made, and says so."""
    at = int(hashlib.sha256(name.encode()).hexdigest()[:15], 16)
    asked = struct.pack("hhqqi", fcntl.F_WRLCK, os.SEEK_SET, at, 1, 0)
    if is_taken(locks, asked):
        return
    print("this is being pushed already; waiting for that", flush=True)
    until = time.monotonic() + PATIENCE
    while not is_taken(locks, asked):
        if time.monotonic() > until:
            raise Failure("this is being pushed already: push it again once that has ended")
        time.sleep(BETWEEN_TRIES)


def is_taken(locks: int, asked: bytes) -> bool:
    """Takes a lock of the open file, where nobody has it."""
    try:
        fcntl.fcntl(locks, fcntl.F_OFD_SETLK, asked)
        return True
    except OSError as error:
        if error.errno not in (errno.EAGAIN, errno.EACCES):
            raise
        return False


# ---- what is refused


def number_for(store: Store, pushing: Pushing) -> Optional[int]:
    """The change that goes on, or nothing where there is to be a new one. What can't be done is refused."""
    number = pushing.push.number or made_of(store, pushing)
    if number is not None:
        if is_done(store, number, pushing):
            return number
        look_at_change(store.change(number), pushing.user)
    look_at_user(store, pushing.user, is_new=number is None)
    look_at_paths(store, pushing.push, number)
    return number


def made_of(store: Store, pushing: Pushing) -> Optional[int]:
    """The change that an earlier push of this commit made for this user."""
    said = f'why = "{pushing.reason}"'.encode()
    for name, held in store.contents.items():
        if name.startswith("change.") and said in held:
            change = store.change(int(name[len("change.") :]))
            first = change.history[0]
            if (first.what, first.who, first.why) == ("new_change", pushing.user, pushing.reason):
                return change.number
    return None


def is_done(store: Store, number: int, pushing: Pushing) -> bool:
    """Whether the change has ended its development with just what is pushed."""
    change = store.change(number)
    if change.developer != pushing.user or change.phase not in FROZEN | {"completed"}:
        return False
    has = {file.path: (file.action, digest_of(store, change, file)) for file in change.files}
    digests = pushing.digests
    return has == {path: (file.action, digests.get(path)) for path, file in pushing.push.files.items()}


def digest_of(store: Store, change: Change, file: ChangeFile) -> Optional[str]:
    """What a change froze of a file: the version is the change's, or its delta's; nothing where it removes the file."""
    delta, row = store.delta_of(change.number), store.paths.get(file.path)
    entry = row.at(delta.number) if delta and row else None
    version = entry.version if entry else file.version
    return version.digest if version else None


def unfinished(store: Store, number: int, pushing: Pushing) -> Optional[Change]:
    """The change as it is once nobody else pushes it, or nothing where it is done. Where it can't go on, that is refused."""
    if is_done(store, number, pushing):
        return None
    look_at_change(store.change(number), pushing.user)
    return store.change(number)


def look_at_change(change: Change, user: str) -> None:
    """Whether the change may go on. What somebody has begun to review isn't taken from his hands."""
    is_looked_at = change.reviewing or change.phase == "awaiting_integration"
    if change.phase in ("being_integrated", "completed"):
        raise Failure(f"5: change {change.number} is {change.phase}")
    if change.phase != "awaiting_development" and change.developer != user:
        raise Failure(f"10: the developer of change {change.number} is {change.developer}")
    if change.phase in FROZEN and is_looked_at:
        raise Failure(f"{change.reviewing or change.reviewer} reviews change {change.number}: aegis -deu -c {change.number} takes it back")


def look_at_user(store: Store, user: str, is_new: bool) -> None:
    roles = store.project.roles
    if user not in roles.developers:
        raise Failure("7: you are not a developer")
    if is_new and user not in roles.administrators and not store.project.settings.developers_may_create_changes:
        raise Failure("6: you are not an administrator, who makes a change; push to refs/for/baseline/N for change N that is there")


def look_at_paths(store: Store, push: Push, number: Optional[int]) -> None:
    """Whether the baseline has changed a path since the commit grew from it, another change holds one, or two can't be at once."""
    stale, of = [], list[str]()
    for path, file in push.files.items():
        row = store.paths.get(path)
        before = sum(entry.delta <= push.base for entry in row.past) if row else 0
        if row and row.edit != before or (path in store.now) != (file.action != "create"):
            stale.append(path)
        holder = store.holders.get(path, number)
        if holder is not None and holder != number:
            of.append(f"{path} is locked by change {holder} of {store.change(holder).developer}")
    if stale:
        raise Failure(f"24: fetch and rebase: the baseline has changed {named(stale)}")
    if of:
        raise Failure(f"23: {named(of)}")
    there = set(store.now) - set(push.files) | {path for path, file in push.files.items() if file.action != "remove"}
    clashes = sorted({folder for path in there for folder in folders_of(path) if folder in there})
    if clashes:
        raise Failure(f"41: {clashes[0]} is a file, and a folder of another")


def named(found: List[str]) -> str:
    more = f" and {len(found) - SHOWN} more" if len(found) > SHOWN else ""
    return ", ".join(found[:SHOWN]) + more


# ---- what is done


def must(where: Place, *words: str) -> str:
    """Gives a command which has to be done, and shows what it says."""
    answer = give(where, *words)
    if answer.status != 0:
        raise Failure(answer.said.strip().removeprefix("aegis: ") or f"{words[0]} ended with status {answer.status}")
    return show(answer).said


def new_change(pushing: Pushing) -> int:
    """Makes a change, described by the commit's message."""
    change_refs(pushing.mirror, [f"update {pushing.begun} {pushing.push.commit}"])
    subject, _, body = pushing.push.message.strip().partition("\n")
    fields = {"brief_description": string(subject), "description": string(body.strip())}
    text = "".join(f"{name} = {value};\n" for name, value in fields.items())
    with file_of_attributes(pushing.place, text) as name:
        created = CREATED.search(must(pushing.place, "-nc", "-f", name, "-rea", pushing.reason))
    if not created:
        raise Failure("the change that was made has no number")
    return int(created[1])


def develop(pushing: Pushing, change: Change) -> None:
    """Develops the change to the end."""
    number = ["-c", str(change.number)]
    if change.phase == "awaiting_development":
        must(pushing.place, "-db", *number)
    elif change.phase in FROZEN:
        must(pushing.place, "-deu", *number, "-rea", pushing.reason)
    list_files(pushing, change.number)
    with HeldDirectory(pushing.place, f"develop.{change.number}") as directory:
        for path, data in sorted(pushing.push.held.items()):
            directory.put(path, data, pushing.push.files[path].is_script)
    ended = finished(pushing, change.number)
    if ended.answer.status != 0:
        for line in end_of(ended.log).splitlines()[-LINES:] if ended.log else []:
            print(shown(line))
        raise Failure(f"{why_not(ended.answer.said)}; push again with -o change={change.number}")


def finished(pushing: Pushing, number: int) -> Finish:
    """Makes the runs, and ends the development; once more where that fails and a delta came meanwhile.

    What builds left in the directory is no concern of who pushes, so it isn't looked for.
    """
    where = pushing.place
    while True:
        deltas, gone = with_store(where, lambda store: (len(store.project.deltas), removed_since(store, pushing)))
        with HeldDirectory(where, f"develop.{number}") as directory:
            for path in gone:
                directory.remove(path)
        ended = finish(Work(where, number, "-de", f"develop.{number}", is_quiet=True))
        if ended.answer.status == 0 or with_store(where, lambda store: len(store.project.deltas)) == deltas:
            return ended


def removed_since(store: Store, pushing: Pushing) -> List[str]:
    """The paths that the project had, and hasn't now. What is there of them in the directory of a change is of a baseline before."""
    return [path for path in store.paths if path not in store.now and path not in pushing.push.files]


def why_not(said: str) -> str:
    """What a command said that wasn't done, in a line; of several runs those that didn't end as they should."""
    lines = [" ".join(line.split()).removeprefix("aegis: ") for line in said.splitlines() if line.strip()]
    runs = [line for line in lines if not line.endswith(": status 1" if ": baseline test " in line else ": status 0")]
    return "; ".join(runs or lines)


def list_files(pushing: Pushing, number: int) -> None:
    """Gives the change the files that were pushed, and no others."""
    files = dict(pushing.push.files)
    old, kept = with_store(pushing.place, lambda store: sorted_out(store, store.change(number), files))
    words = ["-c", str(number)]
    for function, paths in by_function((undo_of(file), file.path) for file in old):
        must(pushing.place, function, *words, *paths)
    for function, paths in by_function((function_of(file), path) for path, file in files.items() if path not in kept):
        must(pushing.place, function, *words, *paths)


def sorted_out(store: Store, change: Change, files: Dict[str, PushedFile]) -> Tuple[List[ChangeFile], "set[str]"]:
    """The files of a change that aren't as they were pushed, and the paths of those that are."""
    old, kept = list[ChangeFile](), set[str]()
    for file in change.files:
        asked, row = files.get(file.path), store.paths.get(file.path)
        is_right = asked is not None and asked.action == file.action and file.origin == (row.edit if row else 0)
        if asked is not None and is_right and (file.action != "create" or file.usage == asked.usage):
            kept.add(file.path)
        else:
            old.append(file)
    return old, kept


def function_of(file: PushedFile) -> str:
    """The function that takes such a file into a change."""
    if file.action == "create":
        return "-nt" if file.usage == "test" else "-nf"
    return "-cp" if file.action == "modify" else "-rm"


def by_function(found: Iterator[Tuple[str, str]]) -> Iterator[Tuple[str, List[str]]]:
    """Paths by the function that takes them, so many at once as a command may have; removals first, for a folder in a file's place."""
    rows: Dict[str, List[str]] = {}
    for function, path in found:
        rows.setdefault(function, []).append(path)
    for function in sorted(rows, key=lambda name: (name != "-rm", name)):
        paths = sorted(rows[function])
        for at in range(0, len(paths), AT_ONCE):
            yield function, paths[at : at + AT_ONCE]
