"""What is stated of a delta: an in-toto statement, a list of its files by SPDX, and their SHA-256 for sha256sum.

All of it is made of the records alone, so it is the same each time.
"""
from __future__ import annotations

import datetime
import hashlib
import json
from dataclasses import dataclass
from typing import Any, Dict, List

from .failures import Failure
from .history import Step, digest_of, put, steps
from .json import fields_of, text_value
from .records import PastEntry, Version
from .store import Store

STATEMENT = "https://in-toto.io/Statement/v1"
PREDICATE = "https://aegis.invalid/delta/v1"
NOT_RECORDED = [
    "the settings of the project when this delta was integrated: whether a developer might review or integrate, and a review be waived",
    "who had which role then",
    "the environment in which builds and tests ran, and what they wrote",
]

Fields = Dict[str, Any]


@dataclass(frozen=True)
class At:
    """A delta with the trees before it and at it, and the line that the audit prints of it."""

    step: Step
    before: Dict[str, PastEntry]
    tree: Dict[str, PastEntry]
    line: str


def at_delta(store: Store, number: int, lines: List[str]) -> At:
    """A delta by its number. The lines are those of the program's audit."""
    store.delta(number)
    tree: Dict[str, PastEntry] = {}
    before: Dict[str, PastEntry] = {}
    for step in steps(store):
        before = dict(tree) if step.delta.number == number else before
        put(tree, step)
        if step.delta.number == number:
            break
    line = lines[number - 1] if number <= len(lines) else ""
    if not line.startswith(f"delta {number} change {step.change.number} tree {digest_of(tree)} "):
        raise Failure(f"the audit says of delta {number} something else than the records: {line or 'nothing'}")
    return At(step, before, tree, line)


def moment(when: int) -> str:
    """A moment in Greenwich."""
    return datetime.datetime.fromtimestamp(when, datetime.timezone.utc).strftime("%Y-%m-%dT%H:%M:%SZ")


def title_of(store: Store, number: int) -> str:
    """The name of a delta outside its project: no path has an `@`."""
    branch = f"branch-{store.place.branch}-" if store.place.branch else ""
    return f"{store.project.name}@{branch}delta-{number}"


def versions_of(tree: Dict[str, PastEntry]) -> Dict[str, Version]:
    """The versions of a tree, in the order of their paths."""
    return {path: entry.version for path, entry in sorted(tree.items()) if entry.version}


# ---- the statement


def review_of(step: Step) -> Fields:
    """Who passed the change, and whether he had developed it."""
    if not step.passed:
        return {"by": "nobody", "user": None, "when": None}
    by = "developer" if step.change.reviewer == step.change.developer else "another"
    return {"by": by, "user": step.change.reviewer, "when": moment(step.passed.when)}


def runs_of(step: Step) -> List[Fields]:
    """The runs of the integration."""
    return [{**fields_of(run), "path": run.path or None, "when": moment(run.when)} for run in step.runs]


def predicate_of(store: Store, at: At) -> Fields:
    """What the records say of the delta."""
    step, change = at.step, at.step.change
    return {
        "project": store.project.name,
        "branch": store.place.branch or None,
        "delta": step.delta.number,
        "change": change.number,
        "brief_description": text_value(change.brief_description),
        "description": text_value(change.description),
        "cause": change.cause,
        "tree": digest_of(at.tree),
        "tree_before": digest_of(at.before),
        "audit": at.line,
        "developer": change.developer,
        "review": review_of(step),
        "integration": {"user": step.delta.who, "when": moment(step.delta.when)},
        "exempt": {
            "test": change.test_exempt,
            "test_baseline": change.test_baseline_exempt,
            "regression_test": change.regression_test_exempt,
        },
        "files": [{"path": file.path, "action": file.action, "usage": file.usage} for file in change.files],
        "runs": runs_of(step),
        "history": [{**fields_of(event), "when": moment(event.when)} for event in change.history],
        "not_recorded": NOT_RECORDED,
    }


def statement_of(store: Store, at: At) -> bytes:
    """The in-toto statement: its subjects are the tree, by its digest, and each file."""
    subjects = [{"name": title_of(store, at.step.delta.number), "digest": {"sha256": digest_of(at.tree)}}]
    subjects += [{"name": path, "digest": {"sha256": version.digest}} for path, version in versions_of(at.tree).items()]
    statement = {"_type": STATEMENT, "subject": subjects, "predicateType": PREDICATE, "predicate": predicate_of(store, at)}
    return json.dumps(statement, indent=1).encode() + b"\n"


# ---- the lists of files


def sums_of(at: At) -> bytes:
    """The SHA-256 of each file, as sha256sum reads them."""
    return b"".join(f"{version.digest}  {path}\n".encode() for path, version in versions_of(at.tree).items())


def spdx_file(number: int, path: str, sha1: str, digest: str) -> Fields:
    """A file of an SPDX document."""
    return {
        "fileName": f"./{path}",
        "SPDXID": f"SPDXRef-File-{number}",
        "checksums": [{"algorithm": "SHA1", "checksumValue": sha1}, {"algorithm": "SHA256", "checksumValue": digest}],
        "licenseConcluded": "NOASSERTION",
        "licenseInfoInFiles": ["NOASSERTION"],
        "copyrightText": "NOASSERTION",
    }


def spdx_package(store: Store, at: At, sums: List[str]) -> Fields:
    """The tree as a package of an SPDX document."""
    return {
        "name": store.project.name,
        "SPDXID": "SPDXRef-Package",
        "versionInfo": title_of(store, at.step.delta.number).partition("@")[2],
        "downloadLocation": "NOASSERTION",
        "filesAnalyzed": True,
        "packageVerificationCode": {"packageVerificationCodeValue": hashlib.sha1("".join(sorted(sums)).encode()).hexdigest()},
        "comment": f"The digest of these files, by docs/FORMATS.md of aegis, is {digest_of(at.tree)}",
        "licenseConcluded": "NOASSERTION",
        "licenseInfoFromFiles": ["NOASSERTION"],
        "licenseDeclared": "NOASSERTION",
        "copyrightText": "NOASSERTION",
    }


def relation(one: str, kind: str, other: str) -> Fields:
    """A relation between two elements of an SPDX document."""
    return {"spdxElementId": one, "relationshipType": kind, "relatedSpdxElement": other}


def spdx_of(store: Store, at: At) -> bytes:
    """The list of files by SPDX 2.3."""
    versions = versions_of(at.tree)
    sums = [hashlib.sha1(store.bytes_of(version)).hexdigest() for version in versions.values()]
    rows = [(path, sum_, version.digest) for (path, version), sum_ in zip(versions.items(), sums)]
    files = [spdx_file(number, *row) for number, row in enumerate(rows, 1)]
    title = title_of(store, at.step.delta.number)
    document = {
        "spdxVersion": "SPDX-2.3",
        "dataLicense": "CC0-1.0",
        "SPDXID": "SPDXRef-DOCUMENT",
        "name": title,
        "documentNamespace": f"https://aegis.invalid/spdx/{title.replace('@', '/')}/{digest_of(at.tree)}",
        "creationInfo": {"created": moment(at.step.delta.when), "creators": ["Tool: ae"]},
        "packages": [spdx_package(store, at, sums)],
        "files": files,
        "relationships": [relation("SPDXRef-DOCUMENT", "DESCRIBES", "SPDXRef-Package")]
        + [relation("SPDXRef-Package", "CONTAINS", file["SPDXID"]) for file in files],
    }
    return json.dumps(document, indent=1).encode() + b"\n"


def documents_of(store: Store, number: int, lines: List[str]) -> Dict[str, bytes]:
    """The three documents of a delta, by their names."""
    at = at_delta(store, number, lines)
    title = title_of(store, number)
    return {
        f"{title}.intoto.json": statement_of(store, at),
        f"{title}.spdx.json": spdx_of(store, at),
        f"{title}.sha256": sums_of(at),
    }
