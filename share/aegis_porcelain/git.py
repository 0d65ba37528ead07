"""`ae git DEST`: each delta of the project and of its branches as a commit of the bare repository DEST.

Nothing but the records goes into a commit, so that its id is the same each time. What is imported first has refs of its own, and those
that users see are changed in one step at the end, so that DEST is as it was or whole.
"""
from __future__ import annotations

import contextlib
import os
import subprocess
from typing import IO, TYPE_CHECKING, Callable, Dict, Iterator, List, Optional, Tuple

from . import place
from .display import shown_lines
from .failures import Damaged, Failure, VersionGone
from .git_names import kept_by_git, ref_name
from .history import Step, digest_of, put, steps
from .output import outside
from .place import Place, places_of
from .records import PastEntry
from .store import Store, opened
from .under_way import UnderWay

if TYPE_CHECKING:
    import argparse

INCOMING = "refs/aegis-incoming"
PROJECT = "aegis.project"
MARKS = "aegis-marks"
Refs = Dict[str, int]
# the deltas that git has already, each with its commit
Known = Dict[int, str]


def words(parser: argparse.ArgumentParser) -> None:
    """Adds the options."""
    parser.add_argument("dest", metavar="DEST", help="the bare repository, which is made where it isn't there")


def environment() -> Dict[str, str]:
    """That of this process without what would turn git elsewhere, or give it other settings; no hook of a repository runs."""
    kept = {name: value for name, value in os.environ.items() if not name.startswith("GIT_")}
    without_hooks = {"GIT_CONFIG_COUNT": "1", "GIT_CONFIG_KEY_0": "core.hooksPath", "GIT_CONFIG_VALUE_0": os.devnull}
    return {**kept, **without_hooks, "GIT_CONFIG_NOSYSTEM": "1", "GIT_CONFIG_GLOBAL": os.devnull, "LC_ALL": "C"}


def git(*asked: str, given: str = "") -> str:
    """Runs git, and answers what it says."""
    try:
        found = subprocess.run(["git", *asked], input=given, capture_output=True, text=True, env=environment(), check=False)
    except FileNotFoundError:
        raise Failure("there is no git: apt install git") from None
    if found.returncode:
        raise Failure(f"git: {found.stderr.strip()}")
    return found.stdout


# ---- a commit


def trailers(step: Step, tree: str) -> List[str]:
    """What was shown of a delta, in lines that git understands."""
    lines = [f"Reviewed-by: {step.change.reviewer} <{step.change.reviewer}>"] if step.change.reviewer else []
    lines += [f"Aegis-Change: {step.change.number}", f"Aegis-Tree: {tree}"]
    for run in step.runs:
        lines.append(f"Aegis-Run: {run.kind} {run.path or '-'} status {run.status} {'clean' if run.clean else 'changed'} by {run.who}")
    return lines


def message_of(step: Step, tree: str) -> bytes:
    """The message of a commit: the two descriptions of its change, and what was shown."""
    brief, description = (shown_lines(text).strip() for text in (step.change.brief_description, step.change.description))
    paragraphs = [brief or f"change {step.change.number}", description, "\n".join(trailers(step, tree))]
    return "\n\n".join(filter(None, paragraphs)).encode() + b"\n"


def person(word: str, user: str, when: int) -> bytes:
    """The line of an author or a committer."""
    return f"{word} {user} <{user}> {when} +0000\n".encode()


def data(held: bytes) -> bytes:
    """Bytes as git's import reads them."""
    return b"data %d\n%s\n" % (len(held), held)


def file_of(path: str, held: bytes) -> bytes:
    """A file of a commit. One that begins as a script does may be run."""
    mode = "100755" if held.startswith(b"#!") else "100644"
    return f"M {mode} inline {path}\n".encode() + data(held)


def changes_of(store: Store, step: Step) -> Iterator[bytes]:
    """What a commit does to the files; it removes first, since a folder may take a file's place."""
    for path, entry in step.entries:
        if not entry.version:
            yield f"D {path}\n".encode()
    for path, entry in step.entries:
        if entry.version:
            yield file_of(path, store.bytes_of(entry.version))


# ---- an import


class Import:
    """An import under way: what is written to git, and which ref is to have which commit."""

    def __init__(self, out: IO[bytes]) -> None:
        self.out = out
        self.mark = 0
        self.refs: Refs = {}
        self.trunk: Dict[int, str] = {}

    def commit(self, store: Store, step: Step, ref: str, tree: str, parent: Optional[str]) -> None:
        """One commit. The first one of a branch has all its files, whatever the trunk has."""
        self.mark += 1
        ended = step.ended.when if step.ended else step.delta.when
        self.out.write(f"commit {INCOMING}/{ref}\nmark :{self.mark}\n".encode())
        self.out.write(person("author", step.change.developer, ended) + person("committer", step.delta.who, step.delta.when))
        self.out.write(data(message_of(step, tree)))
        if parent:
            self.out.write(f"from {parent}\n".encode())
        if step.delta.number == 1:
            self.out.write(b"deleteall\n")
        for change in changes_of(store, step):
            self.out.write(change)
        self.out.write(b"\n")

    def project(self, store: Store, known: Known) -> None:
        """All deltas of the trunk, or of a branch, which begins at a delta of the trunk, but for those that git has already."""
        branch = store.place.branch
        ref = f"branch/{ref_name(branch)}" if branch else "baseline"
        tree: Dict[str, PastEntry] = {}
        parent = self.trunk.get(store.begun_from() or 0) if branch else None
        for step in steps(store):
            number = step.delta.number
            put(tree, step)
            if number in known:
                parent = known[number]
            else:
                self.commit(store, step, ref, digest_of(tree), parent)
                self.refs[f"refs/heads/{ref}"] = self.refs[f"{tags_of(branch)}{number}"] = self.mark
                parent = f":{self.mark}"
            if not branch:
                self.trunk[number] = parent
        self.out.flush()


def tags_of(branch: str) -> str:
    """How the tags of a branch's deltas begin, or of the trunk's."""
    return f"refs/tags/branch/{ref_name(branch)}/delta-" if branch else "refs/tags/delta-"


def known_deltas(dest: str, store: Store, refs: Dict[str, str]) -> Known:
    """The deltas that the repository has already, each with its commit; none where the last of them hasn't the tree of the records."""
    tags = tags_of(store.place.branch)
    found = {}
    for delta in store.project.deltas:
        commit = refs.get(f"{tags}{delta.number}")
        if commit is None:
            break
        found[delta.number] = commit
    if not found:
        return {}
    words = ["log", "-1", "--no-show-signature", "--format=%(trailers:key=Aegis-Tree,valueonly)", found[len(found)]]
    said = git("--git-dir", dest, *words).split()
    return found if said == [digest_of(store.tree(len(found)))] else {}


def check_paths(store: Store) -> None:
    """No path has a part that git keeps for itself."""
    kept = [file.path for file in store.table.files if kept_by_git(file.path)]
    if kept:
        raise Failure(f'"{kept[0]}" has a name that git keeps for itself')


def imported(dest: str, write: Callable[[IO[bytes]], Refs]) -> Dict[str, str]:
    """Has git import what is written to it, and answers which ref is to have which commit."""
    # an import that outlives its caller writes them too
    marks = os.path.abspath(os.path.join(dest, f"{MARKS}.{os.getpid()}"))
    asked = ["git", "--git-dir", dest, "fast-import", "--quiet", "--done", "--force", f"--export-marks={marks}"]
    with subprocess.Popen(asked, stdin=subprocess.PIPE, stderr=subprocess.PIPE, env=environment()) as process:
        refs = write_import(process, write)
        assert process.stderr
        said = process.stderr.read().decode(errors="replace")
        if process.wait():
            raise Failure(f"git fast-import: {said.strip()}")
    ids = {}
    if refs:
        with open(marks, encoding="ascii") as file:
            ids = dict(line.split() for line in file)
    return {ref: ids[f":{mark}"] for ref, mark in refs.items()}


def write_import(process: "subprocess.Popen[bytes]", write: Callable[[IO[bytes]], Refs]) -> Refs:
    """Writes to git, which may end before all was written to it, and answers which ref is to have which mark."""
    assert process.stdin
    refs: Refs = {}
    try:
        refs = write(process.stdin)
        process.stdin.write(b"done\n")
        process.stdin.flush()
    except BrokenPipeError:
        # git has ended, and says why
        pass
    except BaseException:
        process.kill()
        raise
    finally:
        with contextlib.suppress(BrokenPipeError):
            process.stdin.close()
    return refs


def import_all(stores: List[Store], known: List[Known], dest: str) -> Dict[str, str]:
    """Imports all other deltas into the repository, and answers which ref is to have which commit."""

    def write(out: IO[bytes]) -> Refs:
        under_way = Import(out)
        for store, deltas in zip(stores, known):
            under_way.project(store, deltas)
        return under_way.refs

    try:
        return imported(dest, write)
    except VersionGone:
        # a version of a delta never moves
        raise Damaged("pack") from None


# ---- the repository


def prepare(dest: str, name: str) -> None:
    """Makes the repository, or looks that it is one that was made of this project."""
    if not os.path.lexists(dest) or (os.path.isdir(dest) and not os.listdir(dest)):
        git("init", "--quiet", "--bare", "--template=", "--initial-branch=baseline", dest)
        git("--git-dir", dest, "config", PROJECT, name)
        return
    try:
        known = git("--git-dir", dest, "config", PROJECT).strip()
    except Failure:
        raise Failure(f"{dest} is there, and wasn't made by ae git") from None
    if known != name:
        raise Failure(f"{dest} has the project {known}")


def refs_of(dest: str, *below: str) -> Dict[str, str]:
    """The refs of the repository, each with its commit."""
    lines = git("--git-dir", dest, "for-each-ref", "--format=%(refname) %(objectname)", *below).splitlines()
    return dict(line.split() for line in lines)


def change_refs(dest: str, lines: List[str]) -> None:
    """Does all of these changes of refs, or none."""
    git("--git-dir", dest, "update-ref", "--stdin", given="".join(f"{line}\n" for line in ["start", *lines, "commit"]))


def move_refs(dest: str, refs: Dict[str, str]) -> int:
    """Gives the refs their commits in one step, unless a delta that is there already has another; answers how many are new."""
    before = refs_of(dest, "refs/heads", "refs/tags")
    other = sorted(ref for ref, commit in before.items() if ref.startswith("refs/tags/") and refs.get(ref, commit) != commit)
    if other:
        raise Failure(f"{dest} has another {other[0].removeprefix('refs/tags/')}: it was made of another history")
    change_refs(dest, [f"update {ref} {commit}" for ref, commit in sorted(refs.items())])
    return len(set(refs) - set(before))


def clean_up(dest: str) -> None:
    """Takes away what an import leaves beside what users see."""
    change_refs(dest, [f"delete {ref}" for ref in refs_of(dest, INCOMING)])
    remove_files(dest)


def remove_files(dest: str) -> None:
    """Takes away the files that an import leaves."""
    for name in os.listdir(dest):
        if name.startswith((MARKS, "fast_import_crash_")):
            os.remove(os.path.join(dest, name))


def write(where: Place, dest: str, adds: bool = False) -> Tuple[int, int]:
    """Writes the repository, and answers how many deltas were written, and how many refs are new.

    All deltas are written again, so that those which are there are compared; where it `adds`, only those that the repository lacks.
    """
    with contextlib.ExitStack() as stack:
        # the trunk is read last, so that it has each delta from which a branch was begun
        stores = [stack.enter_context(opened(one)) for one in reversed(places_of(where.top))][::-1]
        for store in stores:
            check_paths(store)
        prepare(dest, stores[0].project.name)
        there = refs_of(dest, "refs/tags") if adds else {}
        known = [known_deltas(dest, store, there) for store in stores]
        if all(len(deltas) == len(store.project.deltas) for store, deltas in zip(stores, known)):
            return 0, 0
        try:
            refs = import_all(stores, known, dest)
            new = move_refs(dest, refs)
        finally:
            clean_up(dest)
    return sum(ref.startswith("refs/tags/") for ref in refs), new


def run(asked: argparse.Namespace) -> int:
    """Writes the repository, and says what it has."""
    where = place.find(branch=asked.branch)
    dest = outside(where, asked.dest)
    with UnderWay("the deltas"):
        deltas, new = write(where, dest)
    print(f"{dest}: {deltas} deltas, {new} new refs")
    return 0
