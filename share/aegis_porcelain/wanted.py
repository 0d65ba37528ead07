"""What is in the way of a change's next step, and which runs it still needs: all that the program would say one after another.

Each row has the number by which the program refuses the end of a development, or the pass of an integration, in the order in which it
asks (docs/COMMANDS.md, "What is asked").
"""
from __future__ import annotations

import bisect
from typing import Dict, Iterator, List, NamedTuple, Optional, Tuple

from .directory import Directory, FileState, HasDigest, digest_of
from .records import Change, ChangeFile, Version
from .store import Store

MOST_FILE_BYTES = 4_194_304
MOST_FROZEN_BYTES = 67_108_864
MOST_HISTORY_ROWS = 1000
# what undoes always finds room
LAST_HISTORY_ROWS = 10
MOST_VERSIONS = 2**62
MOST_UNITS = 16_777_216
UNIT = 64
RUNS = {"build": 28, "test": 29, "baseline_test": 30, "regression_test": 31}
NEEDED = {
    28: "a build of these files is needed",
    29: 'test "{}" is needed',
    30: 'baseline test "{}" is needed',
    31: 'regression test "{}" is needed',
}
UNDO = {"create": "-nfu", "modify": "-cpu", "remove": "-rmu"}
States = Dict[str, Optional[FileState]]


class Want(NamedTuple):
    """One thing that is in the way, or is still wanted: the refusal's number, its text, and what can be done."""

    refusal: int
    path: str
    says: str
    remedy: str


def undo_of(file: ChangeFile) -> str:
    """The function that takes a file out of its change."""
    return "-ntu" if (file.action, file.usage) == ("create", "test") else UNDO[file.action]


def kept_tests(change: Change) -> List[str]:
    """The tests of the change, without those that it removes."""
    return [file.path for file in change.files if file.usage == "test" and file.action != "remove"]


def required(store: Store, change: Change) -> List[Tuple[str, str]]:
    """The runs that a change needs, each by its kind and path, in the order in which they are asked for."""
    tests = kept_tests(change)
    found = [("build", "")]
    if not change.test_exempt:
        found += [("test", path) for path in tests]
        if not change.test_baseline_exempt and store.has_baseline():
            found += [("baseline_test", path) for path in tests]
    if not change.regression_test_exempt:
        own = {file.path for file in change.files}
        found += [("regression_test", path) for path in store.baseline_tests() if path not in own]
    return found


def missing_runs(store: Store, change: Change, ground: str, subject: str) -> Iterator[Want]:
    """The test that a change has to have, and the runs that don't count for files of this digest."""
    words = f"-c {change.number}"
    if not change.test_exempt and not kept_tests(change):
        yield Want(27, "", "there is no test", f"aegis -nt {words} PATH, or an administrator makes it test_exempt by -ca")
    made = {
        (run.kind, run.path)
        for run in change.evidence
        if run.ground == ground and run.clean and run.subject == subject and run.status == (1 if run.kind == "baseline_test" else 0)
    }
    commands = {28: f"aegis -b {words}", 29: f"aegis -t {words}", 30: f"aegis -t {words} -bl", 31: f"aegis -t {words} -reg"}
    for kind, path in required(store, change):
        if (kind, path) not in made:
            number = RUNS[kind]
            yield Want(number, path, NEEDED[number].format(path), commands[number])


def candidate(store: Store, change: Change) -> Dict[str, HasDigest]:
    """The files that the baseline would have after a change that is frozen."""
    found: Dict[str, HasDigest] = dict(store.now)
    for file in change.files:
        found.pop(file.path, None)
        if file.version:
            found[file.path] = file.version
    return dict(sorted(found.items()))


def of_integration(store: Store, change: Change) -> List[Want]:
    """What the pass of an integration is still refused for."""
    return list(missing_runs(store, change, "integrate", digest_of(candidate(store, change).items())))


def differing(store: Store, change: Change, directory: Directory) -> Iterator[Want]:
    """The files of the integrate directory that aren't as they were frozen, so that no run is made there."""
    for path, version in candidate(store, change).items():
        found = directory.state(path)
        if not found or (found.length, found.digest) != (version.length, version.digest):
            yield Want(33, path, f'file "{path}" differs from the candidate', f"aegis -ibu -c {change.number}, and begin again")


def of_development(store: Store, change: Change, directory: Directory) -> List[Want]:
    """What the end of a development is still refused for."""
    number, states = change.number, {file.path: directory.state(file.path) for file in change.files if file.action != "remove"}
    directory.remember()
    found = []
    if change.developer not in store.project.roles.developers:
        found.append(
            Want(7, "", f"{change.developer} is not a developer", f"an administrator gives the role: aegis -nd {change.developer}")
        )
    if not change.files:
        found.append(
            Want(25, "", "the change has no files", f"aegis -nf -c {number} PATH, aegis -cp -c {number} PATH; or aegis -dbu -c {number}")
        )
    for file in change.files:
        found += of_file(store, change, file)
    found += of_clashes(store, change)
    found += of_room(store, change)
    found += of_states(change, states)
    subject = digest_of((file.path, states.get(file.path)) for file in change.files)
    found += missing_runs(store, change, "develop", subject)
    if not fits(store, [state.length for state in states.values() if state]):
        found.append(Want(39, "", "the version space is full", "let changes that wait be integrated or go back"))
    return found


def of_file(store: Store, change: Change, file: ChangeFile) -> Iterator[Want]:
    """Whether another change holds the file, or has integrated it since."""
    path, words = file.path, f"-c {change.number} {file.path}"
    holder, row = store.holders.get(path), store.paths.get(path)
    is_there = row is not None and row.past[-1].version is not None
    if holder not in (None, change.number):
        yield Want(23, path, f'file "{path}" is locked by change {holder}', f"wait until change {holder} is integrated or goes back")
    edit = row.edit if row else 0
    says = f'file "{path}" is of edit {file.origin}, the project has edit {edit}'
    if file.action == "create" and is_there:
        again = f"aegis {undo_of(file)} {words}, aegis -cp {words}"
        yield Want(22, path, f'file "{path}" is in the project', f"keep yours; {again}, put your work into it")
    elif file.origin != edit and file.action == "modify" and is_there:
        yield Want(24, path, says, f"ae merge {change.number}")
    elif file.origin != edit and file.action == "remove" and is_there:
        yield Want(24, path, says, f"aegis -rmu {words}, aegis -rm {words}")
    elif file.origin != edit:
        yield Want(24, path, says, f"keep yours; aegis {undo_of(file)} {words}")


def of_clashes(store: Store, change: Change) -> Iterator[Want]:
    """The paths that would be a folder on the way to another; the project alone has none."""
    own = {file.path: file for file in change.files}
    kept = sorted(path for path, file in own.items() if file.action != "remove")
    there = set(kept)
    folders = {folder for path in kept for folder in folders_of(path)}
    found = {folder for folder in folders if folder in there or (folder not in own and store.now_at(folder))}
    found |= {path for path in kept if is_folder(path, kept) or store.is_folder(path, own)}
    for path in sorted(found):
        file = own.get(path)
        yours = f"aegis {undo_of(file)} -c {change.number} {path}, or remove what is below it" if file else ""
        yield Want(41, path, f'file "{path}" clashes with a folder', yours or "take yours below it out, or remove it")


def is_folder(folder: str, paths: List[str]) -> bool:
    """Whether a path is below the folder, among paths that ascend."""
    at = bisect.bisect_left(paths, folder + "/")
    return at < len(paths) and paths[at].startswith(folder + "/")


def folders_of(path: str) -> List[str]:
    """The folders on the way to a path."""
    return [path[:at] for at, letter in enumerate(path) if letter == "/"]


def of_room(store: Store, change: Change) -> Iterator[Want]:
    """Whether the history and the numbers of versions have room."""
    if len(change.history) >= MOST_HISTORY_ROWS - LAST_HISTORY_ROWS:
        yield Want(37, "", f"the limit history_rows is {MOST_HISTORY_ROWS}", "make a new change of it")
    if store.project.next_version >= MOST_VERSIONS:
        yield Want(37, "", f"the limit versions is {MOST_VERSIONS}", "begin a new project")


def of_states(change: Change, states: States) -> Iterator[Want]:
    """The files that aren't there, and those that are too large."""
    for file in change.files:
        if file.action == "remove":
            continue
        state = states[file.path]
        if state is None:
            remedy = f"write it, or aegis {undo_of(file)} -c {change.number} {file.path}"
            yield Want(26, file.path, f'file "{file.path}" is missing', remedy)
        elif state.length > MOST_FILE_BYTES:
            yield Want(
                37, file.path, f"the limit file_bytes is {MOST_FILE_BYTES}", f"{file.path} has {state.length} bytes: make it smaller"
            )
    total = sum(state.length for state in states.values() if state)
    if total > MOST_FROZEN_BYTES:
        yield Want(37, "", f"the limit frozen_bytes is {MOST_FROZEN_BYTES}", f"the files have {total} bytes: make two changes of it")


def fits(store: Store, lengths: List[int]) -> bool:
    """Whether each of these has a place in the pack, the lowest whose units no version has."""
    if store.pack_length() // UNIT + sum(map(units, lengths)) <= MOST_UNITS:
        return True
    taken = sorted((version.at, version.at + units(version.length)) for version in versions(store) if version.length)
    for length in lengths:
        at = lowest(taken, units(length))
        if at + units(length) > MOST_UNITS:
            return False
        if length:
            taken = sorted([*taken, (at, at + units(length))])
    return True


def lowest(taken: List[Tuple[int, int]], count: int) -> int:
    """The lowest place of so many units beside those that are taken, which ascend."""
    at = 0
    for begin, end in taken:
        if at + count <= begin:
            break
        at = max(at, end)
    return at


def units(length: int) -> int:
    return -(-length // UNIT)


def versions(store: Store) -> Iterator[Version]:
    """All versions that are named: those of the past of each path, and those that changes froze."""
    for row in store.table.files:
        yield from (entry.version for entry in row.past if entry.version)
    for change in store.open_changes():
        yield from (file.version for file in change.files if file.version)
