"""ae new TEXT: makes a change with its attributes."""
from __future__ import annotations

import contextlib
import os
import re
import sys
from typing import TYPE_CHECKING, Iterator

from .chosen import place_of
from .failures import Failure
from .git_names import kept_by_git
from .output import new_file
from .place import Place
from .program import do
from .records import CAUSES
from .store import with_store

if TYPE_CHECKING:
    import argparse

CREATED = re.compile(r"change ([0-9]+): created$", re.M)
EXEMPT = {
    "test_exempt": "it needs no test",
    "test_baseline_exempt": "its tests need not fail on the baseline",
    "regression_test_exempt": "it needs no run of the project's other tests",
}


def words(parser: argparse.ArgumentParser) -> None:
    parser.add_argument("text", metavar="TEXT", help="what it is for, in a line")
    parser.add_argument("--description", metavar="TEXT", help="what it is for, at length")
    parser.add_argument("--cause", choices=sorted(CAUSES), help="why it is made")
    for name, says in EXEMPT.items():
        parser.add_argument("--" + name.replace("_", "-"), action="store_true", help=says)
    parser.add_argument("--reason", metavar="TEXT", help="a reason, for the change's history")


def run(asked: argparse.Namespace) -> int:
    where = place_of(asked)
    fields = {"brief_description": string(asked.text)}
    if asked.description is not None:
        fields["description"] = string(asked.description)
    if asked.cause:
        fields["cause"] = asked.cause
    fields.update((name, "true") for name in EXEMPT if getattr(asked, name))
    text = "".join(f"{name} = {value};\n" for name, value in fields.items())
    with file_of_attributes(where, text) as name:
        answer = do(where, "-nc", "-f", name, *reason(asked.reason))
    created = CREATED.search(answer.said)
    if answer.status == 0 and created:
        print(created[1])
        warn(where)
    return answer.status


def warn(where: Place) -> None:
    """Says which file of the project has a name that git keeps for itself."""
    kept = with_store(where, lambda store: [path for path in store.now if kept_by_git(path)])
    if kept:
        print(f'ae: "{kept[0]}" has a name that git keeps for itself, so `ae git` can\'t write the project', file=sys.stderr)


def reason(text: str | None) -> list[str]:
    """The words that give a reason."""
    return [] if text is None else ["-rea", text]


def string(text: str) -> str:
    """A text as a string of a state file."""
    known = {10: "\\n", 9: "\\t", 34: '\\"', 92: "\\\\"}
    data = text.encode("utf-8", "surrogateescape")
    return '"' + "".join(known.get(byte) or (chr(byte) if 32 <= byte < 127 else f"\\{byte:03o}") for byte in data) + '"'


@contextlib.contextmanager
def file_of_attributes(where: Place, text: str) -> Iterator[str]:
    """A file of attributes, which nobody else writes, in the folder in which the program looks for it."""
    for folder in ("", "aegis.d/"):
        try:
            opened, path = new_file(os.path.join(where.top, folder), "new-", ".attr")
        except OSError:
            continue
        try:
            with open(opened, "w", encoding="ascii") as file:
                file.write(text)
            yield folder + os.path.basename(path)
        finally:
            os.remove(path)
        return
    raise Failure(f"{where.top} can't be written, where a file of attributes is to be")
