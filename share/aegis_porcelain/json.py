"""`ae json`: all records of the project as one JSON document, which docs/records.schema.json describes."""
from __future__ import annotations

import argparse
import base64
import json
import sys
from typing import Any, Dict, List, Union

from . import place
from .store import Store, with_store

Json = Union[None, bool, int, str, List["Json"], Dict[str, "Json"]]

DOCUMENT = "aegis-records"
VERSION = 1
# the greatest whole number up to which every reader of JSON is exact
MOST_EXACT = 2**53
# a user or a path that may be missing
MAY_LACK = ("developer", "reviewing", "reviewer", "integrator")


def words(parser: argparse.ArgumentParser) -> None:
    """Adds the options."""
    parser.add_argument("--indent", type=int, metavar="N", help="lay the document out, each level so many blanks further in")


def text_value(text: str) -> Json:
    """A text, or its bytes in base64 where they aren't UTF-8."""
    held = text.encode("utf-8", "surrogateescape")
    try:
        return held.decode("utf-8")
    except UnicodeDecodeError:
        return {"base64": base64.b64encode(held).decode("ascii")}


def value_of(value: object) -> Json:
    """A value of a record."""
    if value is None or isinstance(value, bool):
        return value
    if isinstance(value, int):
        return value if value <= MOST_EXACT else str(value)
    if isinstance(value, str):
        return text_value(value)
    if hasattr(value, "_fields"):
        return fields_of(value)
    assert isinstance(value, tuple)
    return [value_of(row) for row in value]


def fields_of(record: Any) -> Dict[str, Json]:
    """The fields of a record, by their names."""
    return {name: None if name in MAY_LACK and not value else value_of(value) for name, value in record._asdict().items()}


def change_of(change: Any) -> Json:
    """A change. A run of no file has no path."""
    fields = fields_of(change)
    fields["evidence"] = [{**fields_of(run), "path": run.path or None} for run in change.evidence]
    return fields


def document(store: Store) -> Dict[str, Json]:
    """The records of a store."""
    project = fields_of(store.project)
    del project["changes"], project["deltas"]
    return {
        "document": DOCUMENT,
        "version": VERSION,
        "branch": store.place.branch or None,
        "begun_from": store.begun_from(),
        "project": project,
        "deltas": value_of(store.project.deltas),
        "changes": [change_of(change) for change in store.changes()],
        "files": value_of(store.table.files),
        "locks": value_of(store.table.locks),
    }


def run(asked: argparse.Namespace) -> int:
    """Writes the document."""
    made = with_store(place.find(branch=asked.branch), document)
    json.dump(made, sys.stdout, indent=asked.indent)
    print()
    return 0
