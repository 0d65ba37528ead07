"""ae log [PATH..]: the deltas, or those that touched these paths, newest first, each with what it rests on."""
from __future__ import annotations

import argparse
from typing import Dict, Iterator, List, Tuple

from .chosen import is_among, paths_here, place_of
from .display import is_terminal, moment, paged, shown
from .failures import Failure
from .records import Change, ChangeFile, Delta, PastEntry
from .store import Store, with_store

BOLD, DIM, RESET = "\x1b[1m", "\x1b[2m", "\x1b[0m"
# a file that a delta touched: its path, its edit, and what it was made
Touched = Tuple[str, int, PastEntry]


def words(parser: argparse.ArgumentParser) -> None:
    parser.add_argument("paths", metavar="PATH", nargs="*", help="a path of the project, or a folder")
    parser.add_argument("-n", metavar="COUNT", type=int, help="so many deltas at most")
    parser.add_argument(
        "--porcelain", action="store_true", help="rows for scripts, one for each file that a delta touched, their cells apart by tabs"
    )


def run(asked: argparse.Namespace) -> int:
    where = place_of(asked)
    paths = paths_here(asked.paths, where)

    def work(store: Store) -> str:
        found = touched(store, paths)
        missing = next(
            (path for path in paths if path != "." and not any(is_among(row[0], [path]) for rows in found.values() for row in rows)), None
        )
        if missing is not None:
            raise Failure(f'the project never had "{shown(missing)}"')
        shows = rows_for_scripts if asked.porcelain else lines_of
        chosen = sorted(found, reverse=True)[: asked.n]
        return "".join(line + "\n" for delta in chosen for line in shows(store, store.delta(delta), found[delta], bool(paths)))

    paged(with_store(where, work))
    return 0


def touched(store: Store, paths: List[str]) -> Dict[int, List[Touched]]:
    """Of each delta the files that it touched, of those that are asked for."""
    found: Dict[int, List[Touched]] = {}
    exact = [path for path in paths if path in store.paths and not store.is_folder(path, ())]
    chosen = exact if paths and len(exact) == len(paths) else [path for path in store.paths if is_among(path, paths)]
    for path in sorted(set(chosen)):
        for edit, entry in enumerate(store.paths[path].past, 1):
            found.setdefault(entry.delta, []).append((path, edit, entry))
    return found


def rows_for_scripts(store: Store, delta: Delta, rows: List[Touched], _: bool) -> Iterator[str]:
    change = store.change(delta.change)
    people = [change.developer, change.reviewer or "-", delta.who]
    for path, edit, entry in rows:
        digest = entry.version.digest if entry.version else "-"
        yield "\t".join(
            [str(delta.number), str(delta.change), str(delta.when), *people, path, str(edit), digest, shown(change.brief_description)]
        )


def lines_of(store: Store, delta: Delta, rows: List[Touched], with_files: bool) -> Iterator[str]:
    """A delta: what it is, who made it, why, the files, and the runs that it rests on."""
    change = store.change(delta.change)
    strong, weak, end = (BOLD, DIM, RESET) if is_terminal() else ("", "", "")
    yield f"{strong}delta {delta.number}  change {delta.change}  {moment(delta.when)}  {shown(change.brief_description)}{end}"
    reviewed = f"reviewed by {change.reviewer}" if change.reviewer else "not reviewed"
    yield f"    developed by {change.developer}, {reviewed}, integrated by {delta.who}; {change.cause}"
    for event in change.history:
        if event.why:
            yield f"    {event.what} by {event.who}: {shown(event.why)}"
    if with_files:
        actions = {file.path: file for file in change.files}
        yield from (f"    {line_of_file(actions.get(path), path, edit, entry)}" for path, edit, entry in rows)
    else:
        yield f"    {len(rows)} {'file' if len(rows) == 1 else 'files'}"
    yield f"    {weak}{runs_of(change)}{end}"


def line_of_file(file: ChangeFile | None, path: str, edit: int, entry: PastEntry) -> str:
    digest = f" sha256 {entry.version.digest}" if entry.version else ""
    return f"{file.action if file else 'change'} {path}, edit {edit}{digest}"


def runs_of(change: Change) -> str:
    """The runs of the integration, and the digest of the files on which they were made."""
    made = [run for run in change.evidence if run.ground == "integrate"]
    counts = {kind: sum(run.kind == kind for run in made) for kind in dict.fromkeys(run.kind for run in made)}
    names = {"build": "builds", "test": "tests", "baseline_test": "tests on the baseline", "regression_test": "tests of the project"}
    runs = ", ".join(f"{names[kind]}: {count}" for kind, count in counts.items())
    return f"{runs}; tree {made[0].subject}" if made else "no run"
