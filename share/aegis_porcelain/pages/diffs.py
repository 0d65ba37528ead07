"""What a delta or a change does to a file, as lines that Pygments colours."""
from __future__ import annotations

import difflib
import os
import subprocess
import tempfile
from dataclasses import dataclass
from typing import Iterable, List, Optional

from markupsafe import Markup
from pygments import highlight  # type: ignore[import]
from pygments.formatters import HtmlFormatter  # type: ignore[import]
from pygments.lexers import DiffLexer  # type: ignore[import]

from ..failures import Failure
from ..records import Version
from ..store import Store
from .texts import lines_of, size

# how many lines of a file are shown, and of all files of a page
MOST_LINES = 600
MOST_ON_PAGE = 5000
# how many lines of two versions are compared here
MOST_COMPARED = 2000
LEXER = DiffLexer(stripnl=False)
FORMATTER = HtmlFormatter(nowrap=True)


@dataclass(frozen=True)
class Touched:
    """A file that a delta or a change touches: what it does to it, and the versions before and after."""

    path: str
    action: str
    usage: str
    before: Optional[Version]
    after: Optional[Version]


@dataclass(frozen=True)
class FileDiff:
    """A file with what was done to it: coloured lines, or why there are none."""

    path: str
    action: str
    usage: str
    said: str
    count: int
    lines: Markup


def coloured(lines: List[str]) -> Markup:
    """Lines of a diff in colours. Pygments writes each `<`, `>`, `&` and quote as an entity."""
    return Markup(highlight("\n".join(lines) + "\n", LEXER, FORMATTER)) if lines else Markup("")


def held_by(store: Store, version: Optional[Version]) -> bytes:
    """The bytes of a version, or none."""
    return store.bytes_of(version) if version else b""


def summary(file: Touched) -> str:
    """How large the file was and is."""
    if file.before and file.after:
        return f"{size(file.before.length)} before, {size(file.after.length)} after"
    return size(file.after.length) if file.after else "removed"


def diff_lines(store: Store, file: Touched) -> Optional[List[str]]:
    """The lines of a diff without its heading, where both versions are texts and not too large."""
    before, after = lines_of(held_by(store, file.before)), lines_of(held_by(store, file.after))
    return None if before is None or after is None else compared(before, after)


def compared(before: List[str], after: List[str]) -> List[str]:
    """What differs, without its heading. Many lines are compared by `diff`, whose time doesn't grow with their square."""
    if len(before) + len(after) <= MOST_COMPARED:
        return list(difflib.unified_diff(before, after, lineterm=""))[2:]
    with tempfile.TemporaryDirectory() as folder:
        for name, lines in (("before", before), ("after", after)):
            with open(os.path.join(folder, name), "w", encoding="utf-8") as file:
                file.writelines(f"{line}\n" for line in lines)
        done = subprocess.run(["diff", "--text", "-U3", "before", "after"], cwd=folder, stdout=subprocess.PIPE, check=False)
    if done.returncode > 1:
        raise Failure("diff can't compare two versions")
    return done.stdout.decode("utf-8").split("\n")[2:-1]


def diff_of(store: Store, file: Touched, most: int) -> FileDiff:
    """What is done to a file, in so many lines at most."""
    said, lines = summary(file), diff_lines(store, file) if most else []
    if lines is None:
        said, lines = f"{said}; no text, or too large to be shown", []
    elif not most:
        said = f"{said}; not shown, since the page has {MOST_ON_PAGE:,} lines"
    elif len(lines) > most:
        said, lines = f"{said}; the first {most} of {len(lines):,} lines", lines[:most]
    return FileDiff(file.path, file.action, file.usage, said, len(lines), coloured(lines))


def diffs_of(store: Store, files: Iterable[Touched]) -> List[FileDiff]:
    """What is done to files, as far as the page has room."""
    diffs: List[FileDiff] = []
    room = MOST_ON_PAGE
    for file in files:
        diffs.append(diff_of(store, file, min(MOST_LINES, room)))
        room -= diffs[-1].count
    return diffs
