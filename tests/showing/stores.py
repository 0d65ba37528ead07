"""Stores made up by a seed, as values: projects that keep the rules, with deltas that are shown and some that aren't, and altered ones."""
import hashlib
import random
from dataclasses import dataclass, field
from typing import Any, Dict, List, Optional, Tuple

Fields = Dict[str, Any]
USERS = [b"alice", b"bob", b"carol", b"_d.e-f"]
PATHS = [b"a", b"aegis.conf", b"b/c", b"b/d.t", b"b/e/f", b"t.sh", b"u+v", b"x-1", b"z/z/z", b"b.c"]
KINDS = ["build", "test", "baseline_test", "regression_test"]
PHASES = "awaiting_development being_developed awaiting_review being_reviewed awaiting_integration being_integrated completed".split()
HOLDING = PHASES[2:6]
UNIT = 64


class Word(str):
    """A word of a record."""


def flag(value: bool) -> Word:
    """The word of a flag."""
    return Word("true" if value else "false")


def digest_of(tree: Dict[bytes, Fields]) -> bytes:
    """The digest of a tree: for each path its row."""
    lines = [b"%s %d %s\n" % (path, row["version"]["length"], row["version"]["digest"]) for path, row in sorted(tree.items())]
    return hashlib.sha256(b"".join(lines)).hexdigest().encode()


@dataclass
class Made:
    """A store as values: its records by the names of their files, and its pack."""

    records: Dict[str, Fields]
    pack: bytearray
    format: int = 2
    files: Dict[str, bytes] = field(default_factory=dict)


class Maker:
    """Makes a project up, change after change."""

    def __init__(self, seed: int) -> None:
        self.random = random.Random(seed)
        self.flawed = self.random.random() < 0.4
        self.tree: Dict[bytes, Fields] = {}
        self.pasts: Dict[bytes, List[Fields]] = {}
        self.locks: Dict[bytes, int] = {}
        self.deltas: List[Fields] = []
        self.changes: Dict[int, Fields] = {}
        self.pack = bytearray()
        self.versions = 0
        self.when = 1000000000

    def chance(self, part: float) -> bool:
        """True in this part of the cases."""
        return self.random.random() < part

    def moment(self) -> int:
        """A moment, later than those before."""
        self.when += self.random.randrange(100)
        return self.when

    def user(self) -> bytes:
        """Some user."""
        return self.random.choice(USERS)

    def held(self) -> bytes:
        """The bytes of a file."""
        return bytes(self.random.choice([0, 10, 65, 104, 255]) for _ in range(self.random.choice([0, 1, 3, 63, 64, 65, 200])))

    def version(self) -> Fields:
        """New bytes, put somewhere in the pack."""
        held = self.held()
        at = len(self.pack) // UNIT + self.random.choice([0, 0, 0, 2])
        self.pack.extend(bytes(at * UNIT - len(self.pack)) + held + bytes(-len(held) % UNIT))
        self.versions += self.random.choice([1, 1, 1, 5])
        digest = hashlib.sha256(held).hexdigest().encode()
        return {
            "number": self.versions,
            "at": at if held else self.random.choice([0, 7, 2**64 - 1]),
            "length": len(held),
            "digest": digest,
        }

    def free_paths(self) -> List[bytes]:
        """Paths that no change holds, and that are no folder on the way to another."""
        taken = set(self.tree) | set(self.locks)
        return [path for path in PATHS if path not in self.locks and not any(one.startswith(path + b"/") for one in taken)]

    def files(self, phase: str) -> List[Fields]:
        """The files of a change."""
        paths = self.random.sample(self.free_paths(), k=min(len(self.free_paths()), self.random.choice([0, 1, 1, 2, 3])))
        rows = []
        for path in sorted(paths):
            action = self.random.choice(["modify", "modify", "remove"]) if path in self.tree else "create"
            usage = "config" if path == b"aegis.conf" else self.random.choice(["source", "test"])
            frozen = phase in HOLDING + ["completed"] and action != "remove"
            row: Fields = {"path": path, "action": Word(action), "usage": Word(usage), "origin": len(self.pasts.get(path, []))}
            rows.append({**row, "version": self.version() if frozen else {}})
        return rows

    def run(self, ground: str, kind: str, path: bytes, subject: bytes) -> Fields:
        """A run as it is wanted; in a flawed project it may be otherwise."""
        flaw = self.random.random() if self.flawed else 1.0
        status = int(kind == "baseline_test") if flaw > 0.04 else self.random.choice([0, 1, 2, 255, 265, 65535])
        subject = subject if not 0.04 < flaw < 0.06 else hashlib.sha256(subject).hexdigest().encode()
        row = {"ground": Word(ground), "kind": Word(kind), "path": path, "status": status, "clean": flag(not 0.06 < flaw < 0.08)}
        return {**row, "subject": subject, "when": self.moment(), "who": self.user()}

    def runs(self, ground: str, change: Fields, before: Dict[bytes, Fields], subject: bytes) -> List[Fields]:
        """The runs of a change, of which some are more than it needs and, in a flawed project, some are missing."""
        own = [row["path"] for row in change["files"] if row["usage"] == "test" and row["action"] != "remove"]
        others = [
            path for path, row in sorted(before.items()) if row["usage"] == "test" and path not in {one["path"] for one in change["files"]}
        ]
        keys: List[Tuple[str, bytes]] = [("build", b"")]
        for kind, paths, exempt in (
            ("test", own, "test_exempt"),
            ("baseline_test", own, "test_baseline_exempt"),
            ("regression_test", others, "regression_test_exempt"),
        ):
            left_out = change[exempt] == "true" or (kind == "baseline_test" and (not before or change["test_exempt"] == "true"))
            keys += [(kind, path) for path in paths if not left_out or self.chance(0.2)]
        return [self.run(ground, kind, path, subject) for kind, path in keys if not self.flawed or self.chance(0.98)]

    def history(self, phase: str, change: Fields, waived: bool) -> List[Fields]:
        """A history that leads to the phase, sometimes over a review that failed before."""
        place = PHASES.index(phase)
        events = [("new_change", self.user())]
        events += [("develop_begin", change["developer"])] if place >= 1 else []
        if place >= 1 and self.chance(0.3):
            other = self.user()
            events += [("develop_end", change["developer"]), ("review_begin", other), ("review_pass", other), ("develop_end_undo", other)]
        events += [("develop_end", change["developer"])] if place >= 2 else []
        events += [("review_begin", change["reviewing"])] if place >= 3 and change["reviewing"] else []
        events += [("review_pass", change["reviewer"])] if place >= 4 and not waived else []
        events += [("integrate_begin", change["integrator"])] if place >= 5 else []
        events += [("integrate_pass", change["integrator"])] if place >= 6 else []
        return [
            {"what": Word(what), "who": who, "when": self.moment(), "why": self.random.choice([b"", b'why "\xff\\\n\x00'])}
            for what, who in events
        ]

    def change(self, number: int, phase: str) -> None:
        """One change more."""
        place, waived = PHASES.index(phase), self.chance(0.2)
        change: Fields = {"number": number, "brief_description": b'some "change"\t', "description": b"", "cause": Word("chain")}
        change.update(
            {
                name: flag(self.chance(part))
                for name, part in (("test_exempt", 0.5), ("test_baseline_exempt", 0.3), ("regression_test_exempt", 0.3))
            }
        )
        developer, reviewer = self.user(), self.user()
        change.update(phase=Word(phase), developer=developer if place >= 1 else b"")
        change["reviewing"] = reviewer if place == 3 or place > 3 and not waived else b""
        change["reviewer"] = reviewer if place >= 4 and not waived else b""
        change["integrator"] = self.user() if place >= 5 else b""
        change["files"] = self.files(phase) if place >= 1 else []
        if not self.flawed and place == 6 and not any(row["usage"] == "test" and row["action"] != "remove" for row in change["files"]):
            change["test_exempt"] = flag(True)
        before = dict(self.tree)
        after = self.after(change)
        change["evidence"] = self.runs("develop", change, before, digest_of(after)) if place >= 2 else []
        change["evidence"] += self.runs("integrate", change, before, digest_of(after)) if place >= 5 else []
        change["history"] = self.history(phase, change, waived)
        self.changes[number] = change
        if phase in HOLDING:
            self.locks.update({row["path"]: number for row in change["files"]})
        if phase == "completed":
            self.complete(change, after)

    def after(self, change: Fields) -> Dict[bytes, Fields]:
        """The tree with the change over it."""
        tree = {path: row for path, row in self.tree.items() if path not in {file["path"] for file in change["files"]}}
        tree.update({file["path"]: {"usage": file["usage"], "version": file["version"]} for file in change["files"] if file["version"]})
        return tree

    def complete(self, change: Fields, after: Dict[bytes, Fields]) -> None:
        """The change is the next delta."""
        delta = len(self.deltas) + 1
        self.deltas.append({"delta": delta, "change": change["number"], "when": self.moment(), "who": change["integrator"]})
        for file in change["files"]:
            self.pasts.setdefault(file["path"], []).append({"delta": delta, "usage": file["usage"], "version": file["version"]})
            file["version"] = {}
        self.tree = after

    def project(self) -> Fields:
        """The record of the project."""
        settings = "developer_may_review developer_may_integrate reviewer_may_integrate developers_may_create_changes".split()
        record: Fields = {"format": 2, "store": Word("packed"), "name": b"demo", "description": b"made up"}
        record.update({name: flag(self.chance(0.5)) for name in settings})
        record.update(develop_end_action=Word("goto_being_reviewed"), default_test_exemption=flag(False))
        record.update({name: self.random.sample(USERS, k=2) for name in ("administrators", "developers", "reviewers", "integrators")})
        return {**record, "next_version": self.versions + 1, "changes": sorted(self.changes), "deltas": self.deltas}

    def make(self) -> Made:
        """The whole store."""
        numbers = sorted(self.random.sample(range(10, 40), k=self.random.choice([0, 1, 2, 4, 7, 12])))
        order = self.random.sample(numbers, k=len(numbers))
        for place, number in enumerate(order):
            phase = (
                "completed"
                if self.chance(0.7)
                else self.random.choice(PHASES[:5] + (["being_integrated"] if place == len(order) - 1 else []))
            )
            self.change(number, phase)
        return self.made()

    def made(self) -> Made:
        """The store as it is now."""
        records = {f"change.{number}": change for number, change in self.changes.items()}
        records["project"] = self.project()
        records["files"] = {
            "files": [{"path": path, "edit": len(past), "past": past} for path, past in sorted(self.pasts.items())],
            "locks": [{"path": path, "change": change} for path, change in sorted(self.locks.items())],
        }
        return Made(records, self.pack)


# ---- how values are written


def written_string(text: bytes) -> bytes:
    """A string as the program writes it."""
    known = {10: b"\\n", 9: b"\\t", 34: b'\\"', 92: b"\\\\"}
    return b'"' + b"".join(known.get(byte) or (bytes([byte]) if 32 <= byte <= 126 else b"\\%03o" % byte) for byte in text) + b'"'


def written(value: Any) -> bytes:
    """A value as the program writes it."""
    if isinstance(value, dict):
        return b"{ " + b" ".join(b"%s = %s;" % (name.encode(), written(part)) for name, part in value.items()) + (b" }" if value else b"}")
    if isinstance(value, list):
        return b"[" + b", ".join(written(part) for part in value) + b"]"
    return written_string(value) if isinstance(value, bytes) else str(value).encode()


def text_of(fields: Fields) -> bytes:
    """A record as the program writes it."""
    return b"".join(b"%s = %s;\n" % (name.encode(), written(value)) for name, value in fields.items())


def in_the_first_format(made: Made) -> None:
    """The same store in the first format."""
    made.records["project"]["format"] = 1
    for name, record in made.records.items():
        for row in record["history"] if name.startswith("change.") else []:
            del row["why"]


def body_of(entries: Dict[str, Optional[bytes]]) -> bytes:
    """A body with these entries."""
    body = len(entries).to_bytes(4, "little")
    for name, held in sorted(entries.items()):
        body += bytes([len(name)]) + name.encode() + (b"\0" if held is None else b"\1" + len(held).to_bytes(8, "little") + held)
    return body


def files_of(made: Made) -> Dict[str, bytes]:
    """The files of a store."""
    files = {name: text_of(record) for name, record in made.records.items()}
    return {**files, "pack": bytes(made.pack), **made.files}


def made_up(seed: int) -> Made:
    """The store of this seed."""
    maker = Maker(seed)
    made = maker.make()
    if maker.chance(0.1):
        in_the_first_format(made)
    return made
