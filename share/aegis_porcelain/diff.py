"""ae diff: what a change does to the files, by its phase, and what a delta did."""
from __future__ import annotations

import os
import re
import subprocess
from typing import TYPE_CHECKING, Dict, Iterator, List, Optional, Tuple

from .chosen import change_of, is_among, number, paths_here, place_of
from .directory import Directory, digest_of
from .display import is_terminal, paged, shown_letter
from .failures import Failure, Misused
from .records import FROZEN, Change, PastEntry, Version
from .store import Store, with_store

if TYPE_CHECKING:
    import argparse

# a path, what it was, and what it is; nothing where it isn't there
Pair = Tuple[str, Optional[bytes], Optional[bytes]]
COLOURS = {"+": "\x1b[32m", "-": "\x1b[31m", "@": "\x1b[36m", "d": "\x1b[1m"}
RESET = "\x1b[0m"
ACTING = re.compile("[^\t\n -~]")


def words(parser: argparse.ArgumentParser) -> None:
    parser.add_argument("words", metavar="N | PATH", nargs="*", help="the number of the change, and paths or folders of its files")
    parser.add_argument("-c", "--change", metavar="N", type=number, help="the number of the change")
    parser.add_argument("--delta", metavar="A", nargs="+", help="what delta A did; or what differs between delta A and delta B")


def deltas_and_paths(asked: argparse.Namespace) -> Tuple[List[int], List[str]]:
    """The deltas that are named, and the other words. A number in front of these is that of the change."""
    rest, deltas = list(asked.words), list[int]()
    if asked.delta:
        given = list(asked.delta)
        while given and len(deltas) < 2 and re.fullmatch(r"[0-9]{1,5}", given[0]):
            deltas.append(int(given.pop(0)))
        if not deltas:
            raise Misused(f'"{given[0]}" is no number of a delta')
        rest = given + rest
    elif rest and not asked.change and re.fullmatch(r"[0-9]{2,4}", rest[0]):
        asked.change = number(rest.pop(0))
    return deltas, rest


def run(asked: argparse.Namespace) -> int:
    where = place_of(asked)
    deltas, rest = deltas_and_paths(asked)
    paths = paths_here(rest, where)

    def work(store: Store) -> str:
        if deltas:
            return compared(list(of_deltas(store, deltas, paths)))
        change = store.change(change_of(asked, where))
        text = compared([pair for pair in of_change(store, change) if is_among(pair[0], paths)])
        return text + ("" if paths or change.phase not in FROZEN else f"change {change.number}: digest {frozen_digest(change)}\n")

    paged(with_store(where, work))
    return 0


def frozen_digest(change: Change) -> str:
    """The digest of what a change froze, by which aepass passes it."""
    return digest_of((file.path, file.version) for file in change.files)


def content(store: Store, version: Optional[Version]) -> Optional[bytes]:
    return store.bytes_of(version) if version else None


def of_change(store: Store, change: Change) -> Iterator[Pair]:
    """What a change does: so far, where it is developed; as it is frozen; or as it was integrated."""
    if change.phase == "awaiting_development":
        raise Failure(f"the development of change {change.number} hasn't begun")
    if change.phase == "being_developed":
        yield from developed(store, change)
    elif change.phase in FROZEN:
        tree = store.tree()
        for file in change.files:
            yield file.path, content(store, version_in(tree, file.path)), content(store, file.version)
    else:
        delta = store.delta_of(change.number)
        if delta:
            yield from of_deltas(store, [delta.number], [file.path for file in change.files])


def developed(store: Store, change: Change) -> Iterator[Pair]:
    directory = Directory(store.place, f"develop.{change.number}")
    for file in change.files:
        before = content(store, store.base_of(file.path, file.origin)) if file.action != "create" else None
        after = directory.content(file.path) if file.action != "remove" and directory.look(file.path) else None
        yield file.path, before, after


def version_in(tree: Dict[str, PastEntry], path: str) -> Optional[Version]:
    entry = tree.get(path)
    return entry.version if entry else None


def of_deltas(store: Store, deltas: List[int], paths: List[str]) -> Iterator[Pair]:
    """What differs between two deltas, or what one did."""
    last = store.delta(deltas[-1]).number
    first = deltas[0] if len(deltas) == 2 else last - 1
    before, after = store.tree(first), store.tree(last)
    if first:
        store.delta(first)
    for path in sorted({*before, *after}):
        old, new = version_in(before, path), version_in(after, path)
        if old != new and is_among(path, paths):
            yield path, content(store, old), content(store, new)


def lay(folder: str, path: str, data: bytes) -> None:
    place = os.path.join(folder, path)
    os.makedirs(os.path.dirname(place), exist_ok=True)
    with open(place, "wb") as file:
        file.write(data)


def compared(pairs: List[Pair]) -> str:
    """What differs, as git shows it, with nothing in it that acts on a terminal."""
    import tempfile

    with tempfile.TemporaryDirectory() as top:
        for side in ("a", "b"):
            os.mkdir(os.path.join(top, side))
        for path, before, after in pairs:
            for side, data in (("a", before), ("b", after)):
                if data is not None and before != after:
                    lay(os.path.join(top, side), path, data)
        return coloured(by_git(top))


def by_git(top: str) -> str:
    """The output of git over the folders a and b, by no configuration of anybody."""
    free = {name: value for name, value in os.environ.items() if not name.startswith("GIT_")}
    free.update(
        GIT_CONFIG_NOSYSTEM="1",
        GIT_CONFIG_GLOBAL=os.devnull,
        GIT_CEILING_DIRECTORIES=os.path.dirname(top),
        GIT_ATTR_NOSYSTEM="1",
        LC_ALL="C",
    )
    command = ["git", "-c", f"core.attributesFile={os.devnull}", "diff", "--no-index"]
    command += ["--no-ext-diff", "--no-textconv", "--no-color", "--no-prefix", "a", "b"]
    try:
        done = subprocess.run(command, cwd=top, env=free, capture_output=True)
    except OSError as error:
        raise Failure(f"git can't be run: {error.strerror}") from None
    if done.returncode > 1:
        raise Failure(f"git: {done.stderr.decode('utf-8', 'replace').strip()}")
    return done.stdout.decode("utf-8", "surrogateescape")


def coloured(text: str) -> str:
    """On a terminal: coloured by lines, and with what isn't text shown by its number. Elsewhere as it is."""
    if not is_terminal():
        return text.encode("utf-8", "surrogateescape").decode("utf-8", "replace")
    lines = [ACTING.sub(lambda found: shown_letter(found[0]), line) for line in text.split("\n")]
    return "\n".join(f"{COLOURS[line[0]]}{line}{RESET}" if line[:1] in COLOURS else line for line in lines)
