"""What was pushed: for which change it is, and what it does to each file. Nothing of it is checked out, and none of its settings counts."""
from __future__ import annotations

import os
import re
import subprocess
from typing import Dict, Iterator, List, NamedTuple, Optional, Tuple

from .failures import Failure
from .git import environment, refs_of
from .git_names import kept_by_git, ref_name
from .objects import Entry, Objects
from .place import Place, places_of
from .records import LONGEST_PATH, PATH
from .wanted import MOST_FILE_BYTES, MOST_FROZEN_BYTES

FOR = re.compile(r"refs/for/(?:baseline|branch/([^/]+))(?:/([0-9]{1,10}))?")
OPTION = re.compile(r"change=([0-9]{1,10})")
NUMBER = re.compile(r"[0-9]{1,10}")
NO_COMMIT = re.compile(r"0+")
MOST_FILES = 1000
MOST_MESSAGE = 12_000
CONFIG = "aegis.conf"
# the file of the project that says which new files are tests, and what counts where there is none
PATTERNS = "aegis.tests"
USUAL_FOLDERS = ("test/", "tests/")
MOST_PATTERNS = 65_536
MODES = {"100644": False, "100755": True}
# of a commit: its own name, the changes that its trailers name, and its message
FIELDS = "%H%x00%(trailers:key=Aegis-Change,valueonly)%x00%B"
LINKS = {"120000": "a link", "160000": "a submodule"}
EMPTY_TREE = "4b825dc642cb6eb9a060e54bf8d69288fbee4904"


class PushedFile(NamedTuple):
    """What a push does to a path, and with which bytes."""

    action: str
    blob: str
    is_script: bool
    usage: str


class Push(NamedTuple):
    """A push of one commit."""

    place: Place
    commit: str
    number: Optional[int]  # the change that it names, or nothing
    base: int  # the delta from which the commit grew; 0 where that isn't one of the place
    message: str
    files: Dict[str, PushedFile]
    held: Dict[str, bytes]  # the bytes of those that aren't removed


def git_bytes(mirror: str, *words: str, given: bytes = b"", may_fail: bool = False) -> bytes:
    """What git says; nothing where it may fail and does."""
    done = subprocess.run(["git", "--git-dir", mirror, *words], input=given, capture_output=True, env=environment(), check=False)
    if done.returncode and not may_fail:
        raise Failure(f"git {words[0]}: {done.stderr.decode(errors='replace').strip()}")
    return done.stdout if done.returncode == 0 else b""


def place_for(top: str, ref: str) -> Tuple[Place, Optional[str]]:
    """The project or the branch that a ref is for, and the number that stands in it."""
    found = FOR.fullmatch(ref)
    if not found:
        raise Failure("push to refs/for/baseline, refs/for/branch/NAME, or either with /N after it for change N")
    if found[1] is None:
        return Place(top), found[2]
    for one in places_of(top):
        if one.branch and ref_name(one.branch) == found[1]:
            return one, found[2]
    raise Failure(f"there is no branch {found[1]}")


def number_of(words: List[str]) -> Optional[int]:
    """The one change that these words name."""
    if any(not NUMBER.fullmatch(word) for word in words):
        raise Failure("what names a change is its number")
    found = {int(word) for word in words}
    if len(found) > 1:
        raise Failure(f"it is for one change, and not for {' and '.join(map(str, sorted(found)))}")
    return found.pop() if found else None


def read(top: str, mirror: str, new: str, ref: str, options: List[str]) -> Push:
    """What is pushed to a ref. What a push may not have is refused."""
    if NO_COMMIT.fullmatch(new):
        raise Failure("nothing is removed by a push")
    where, named = place_for(top, ref)
    given = [OPTION.fullmatch(option) for option in options]
    if not all(given):
        raise Failure("the option that a push has is change=N")
    trailers, message = commit_of(mirror, new)
    words = [named] if named else []
    number = number_of([*words, *(found[1] for found in given if found), *trailers])
    tree, base = base_of(mirror, where, new)
    with Objects(mirror) as objects:
        files = files_of(objects, tree, new)
        held = contents_of(objects, files)
        files = with_usages(objects, mirror, new, files)
    return Push(where, new, number, base, message, files, held)


def commit_of(mirror: str, new: str) -> Tuple[List[str], str]:
    """The changes that the trailers of a commit name, and its message."""
    said = git_bytes(mirror, "log", "-1", "--no-show-signature", f"--format={FIELDS}", new, may_fail=True)
    name, _, rest = said.partition(b"\0")
    if name.decode() != new:
        raise Failure("that is no commit")
    trailers, _, message = rest.partition(b"\0")
    if len(message) > MOST_MESSAGE:
        raise Failure(f"the commit's message has more than {MOST_MESSAGE} bytes")
    return trailers.decode(errors="replace").split(), message.decode("utf-8", "surrogateescape")


def base_of(mirror: str, where: Place, new: str) -> Tuple[str, int]:
    """The delta from which a commit grew, as git has it and by its number."""
    name = f"branch/{ref_name(where.branch)}" if where.branch else "baseline"
    tags = f"refs/tags/{name}/delta-" if where.branch else "refs/tags/delta-"
    refs = refs_of(mirror, f"refs/heads/{name}", "refs/tags")
    tip = refs.get(f"refs/heads/{name}")
    if tip is None:
        if where.branch:
            raise Failure(f"branch {where.branch} has no delta yet: the change that begins it comes first")
        return EMPTY_TREE, 0
    base = git_bytes(mirror, "merge-base", tip, new, may_fail=True).decode().strip()
    if not base:
        raise Failure(f"it doesn't grow from {name}: fetch, and begin from origin/{name}")
    numbers = {commit: int(ref[len(tags) :]) for ref, commit in refs.items() if ref.startswith(tags)}
    return base, numbers.get(base, 0)


def differences(objects: Objects, before: str, after: str, front: str = "") -> Iterator[Tuple[str, Optional[Entry], Optional[Entry]]]:
    """The paths in which two folders differ, one after another, so that who counts them may stop: a small push may have any number of them."""
    old, new = (objects.folder(name) if name else {} for name in (before, after))
    for name in sorted({*old, *new}):
        one, other = old.get(name), new.get(name)
        path = front + name.decode("utf-8", "surrogateescape")
        if one == other:
            continue
        if other and other.object == EMPTY_TREE:
            raise Failure(f"{ascii(path)[1:-1]} is a folder without a file")
        files = [entry if entry and not entry.is_folder else None for entry in (one, other)]
        folders = [entry.object if entry and entry.is_folder else "" for entry in (one, other)]
        if any(files):
            yield path, files[0], files[1]
        if any(folders):
            look_at_length(path)
            yield from differences(objects, folders[0], folders[1], f"{path}/")


def files_of(objects: Objects, base: str, new: str) -> Dict[str, PushedFile]:
    """What the pushed tree does to each path. Whether a file may be run isn't kept, so that alone is no difference."""
    found: Dict[str, PushedFile] = {}
    for path, before, after in differences(objects, f"{base}^{{tree}}", f"{new}^{{tree}}"):
        look_at(path, after.mode if after else "")
        action = "remove" if after is None else "create" if before is None else "modify"
        if before is None or after is None or before.object != after.object:
            found[path] = PushedFile(action, after.object if after else "", after is not None and MODES[after.mode], "source")
        if len(found) > MOST_FILES:
            raise Failure(f"37: more than {MOST_FILES} files differ, which a change has at most")
    if not found:
        raise Failure("nothing differs from the baseline")
    return found


def look_at_length(path: str) -> None:
    if len(path) > LONGEST_PATH:
        raise Failure(f"{ascii(path)[1:-1][:LONGEST_PATH]} is no path that a project has")


def look_at(path: str, mode: str) -> None:
    """Whether a project may have such a file; of one that is removed there is no mode."""
    name = ascii(path)[1:-1]
    if mode and mode not in MODES:
        raise Failure(f"{name} is {LINKS[mode]}, which a project doesn't have")
    look_at_length(path)
    if not PATH.fullmatch(path) or kept_by_git(path):
        raise Failure(f"{name} is no path that a project has")


def contents_of(objects: Objects, files: Dict[str, PushedFile]) -> Dict[str, bytes]:
    """The bytes of each file that isn't removed. Each, and all of them together, have a size that a project takes."""
    held: Dict[str, bytes] = {}
    room = MOST_FROZEN_BYTES

    def look(size: int) -> None:
        if size > MOST_FILE_BYTES:
            raise Failure(f"37: {path} has {size} bytes; a file has at most {MOST_FILE_BYTES}")
        if size > room:
            raise Failure(f"37: the files have more than {MOST_FROZEN_BYTES} bytes, which a change has at most")

    for path, file in files.items():
        if file.action != "remove":
            held[path] = objects.there(file.blob, look)
            room -= len(held[path])
    return held


def with_usages(objects: Objects, mirror: str, new: str, files: Dict[str, PushedFile]) -> Dict[str, PushedFile]:
    """The files, with the usage that a new one is to have: it is a test where the project's patterns say so."""
    made = [path for path, file in files.items() if file.action == "create" and path != CONFIG]
    tests = tests_among(mirror, patterns_of(objects, new), made) if made else set()
    return {
        path: file._replace(usage="test" if path in tests else "config" if path == CONFIG else "source") for path, file in files.items()
    }


def patterns_of(objects: Objects, new: str) -> Optional[bytes]:
    """The patterns of the pushed tree, in git's own form for files that it leaves out; a line with `!` has no meaning."""

    def look(size: int) -> None:
        if size > MOST_PATTERNS:
            raise Failure(f"{PATTERNS} has more than {MOST_PATTERNS} bytes")

    held = objects.blob(f"{new}:{PATTERNS}", look)
    return None if held is None else b"".join(line + b"\n" for line in held.splitlines() if not line.startswith(b"!"))


def tests_among(mirror: str, patterns: Optional[bytes], paths: List[str]) -> "set[str]":
    """The paths that a pattern fits. git says which, in an empty folder."""
    if patterns is None:
        return {path for path in paths if path.startswith(USUAL_FOLDERS)}
    import tempfile

    with tempfile.TemporaryDirectory() as folder, tempfile.NamedTemporaryFile() as file:
        file.write(patterns)
        file.flush()
        words = ["git", "--git-dir", mirror, "--work-tree", folder, "-c", "core.bare=false", "-c", f"core.excludesFile={file.name}"]
        words += ["check-ignore", "--no-index", "-z", "--stdin"]
        given = b"".join(path.encode() + b"\0" for path in paths)
        done = subprocess.run(words, cwd=folder, input=given, capture_output=True, env=environment(), check=False)
    if done.returncode > 1:
        raise Failure(f"git check-ignore: {done.stderr.decode(errors='replace').strip()}")
    return {os.fsdecode(name) for name in done.stdout.split(b"\0") if name}
