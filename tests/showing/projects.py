"""Projects for the pages: one of many changes, one of many files, and one whose texts and files hold markup, scripts and escapes."""
import hashlib
from typing import Any, Dict, List

import stores
from stores import Fields, Made, Word, flag

HOSTILE = [
    b"<script>document.title = 'live'</script>",
    b'"><img src=x onerror="document.title=\'live\'">',
    b"</pre></title><svg onload=\"document.title='live'\">",
    b"{{ 7 * 191 }} {% raw %}",
    b"javascript:document.title='live'",
    b"\x1b[2J\x1b[31m\x07red\x9b\xff",
    "\u202egnihtemos\u2066 \u200b".encode(),
    b"]]>--><!-- &lt;b&gt; &#60;i&#62;",
    b"w" * 900,
]


CAUSES = "external_bug external_enhancement external_improvement internal_bug internal_enhancement internal_improvement chain".split()


class LargeMaker(stores.Maker):
    """Forty changes."""

    def change(self, number: int, phase: str) -> None:
        super().change(number, phase)
        self.changes[number]["cause"] = Word(CAUSES[number % 7])

    def make(self) -> Made:
        for number in range(10, 50):
            self.change(number, "completed" if self.chance(0.7) else self.random.choice(stores.PHASES[:5]))
        return self.made()


class HostileMaker(stores.Maker):
    """Texts and files that no page may let live."""

    def held(self) -> bytes:
        return b"\n".join(self.random.sample(HOSTILE, k=3)) + b"\n"

    def history(self, phase: str, change: Fields, waived: bool) -> List[Fields]:
        return [{**row, "why": self.random.choice(HOSTILE)} for row in super().history(phase, change, waived)]

    def change(self, number: int, phase: str) -> None:
        super().change(number, phase)
        self.changes[number].update(brief_description=self.random.choice(HOSTILE), description=b"\n\n".join(HOSTILE))


def version_of(number: int, at: int, held: bytes) -> Fields:
    """A version at a place of the pack."""
    return {"number": number, "at": at, "length": len(held), "digest": hashlib.sha256(held).hexdigest().encode()}


def change_of(number: int, delta: int, files: List[Fields]) -> Fields:
    """A completed change."""
    people: Dict[str, Any] = {"developer": b"alice", "reviewing": b"bob", "reviewer": b"bob", "integrator": b"carol"}
    events = [
        ("new_change", b"alice"),
        ("develop_begin", b"alice"),
        ("develop_end", b"alice"),
        ("review_pass", b"bob"),
        ("integrate_pass", b"carol"),
    ]
    return {
        "number": number,
        "brief_description": b"change %d" % number,
        "description": b"",
        "cause": Word("internal_enhancement"),
        **{name: flag(True) for name in ("test_exempt", "test_baseline_exempt", "regression_test_exempt")},
        "phase": Word("completed"),
        **people,
        "files": files,
        "evidence": [],
        "history": [{"what": Word(what), "who": who, "when": 1000000000 + delta * 3600, "why": b""} for what, who in events],
    }


def of_many_files(files: int, deltas: int) -> Made:
    """So many files, a thousand in each of the first deltas, and so many deltas, of which each later one modifies three."""
    maker = stores.Maker(0)
    paths = [b"d%02d/f%04d.c" % (number % 40, number) for number in range(files)]
    versions = 0
    for delta in range(1, deltas + 1):
        first = (delta - 1) * 1000
        mine = sorted(paths[first : first + 1000] or [paths[(delta * 97 + more * 31) % files] for more in range(3)])
        rows = []
        for path in mine:
            held = b"".join(b"%s line %d of delta %d\n" % (path, line, delta if line == delta % 40 else 0) for line in range(40))
            versions += 1
            version = version_of(versions, len(maker.pack) // stores.UNIT, held)
            maker.pack.extend(held + bytes(-len(held) % stores.UNIT))
            action = "modify" if path in maker.pasts else "create"
            maker.pasts.setdefault(path, []).append({"delta": delta, "usage": Word("source"), "version": version})
            rows.append({"path": path, "action": Word(action), "usage": Word("source"), "origin": 0, "version": {}})
        maker.changes[9 + delta] = change_of(9 + delta, delta, rows)
        maker.deltas.append({"delta": delta, "change": 9 + delta, "when": 1000000000 + delta * 3600, "who": b"carol"})
    maker.versions = versions
    return maker.made()
