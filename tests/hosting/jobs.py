"""What users of a hosted project develop: which files a change writes, and what is wrong with it at first."""
from __future__ import annotations

import random
from dataclasses import dataclass, field
from typing import Dict, Iterator, List, Optional

KINDS = ["plain", "fails", "shared", "script", "shared", "many", "removes", "again", "shared", "taken back", "branch", "refused", "clashes"]
SHARED = "shared.txt"
MANY = 60
FIRST = {
    "aegis.conf": 'build_command = "sh -n tool.sh";\ntest_command = "sh ${file_name}";\n',
    "tool.sh": "#!/bin/sh\necho a tool\n",
    SHARED: "the first line\n",
    "test/tool.sh": "sh tool.sh | grep -q tool\n",
}


@dataclass
class Job:
    """A change that a user takes to the baseline, with what became of it so far."""

    user: str
    name: str
    kind: str
    branch: str = ""
    number: Optional[int] = None
    pushes: int = 0
    commit: str = ""
    digest: str = ""
    removed: str = ""  # the job whose files it takes away
    reviewer: str = ""
    was_back: List[str] = field(default_factory=list)

    @property
    def place(self) -> str:
        """Where it goes, as git has it."""
        return f"branch/{self.branch}" if self.branch else "baseline"

    @property
    def words(self) -> str:
        """The words that name its branch."""
        return f"-br {self.branch} " if self.branch else ""

    @property
    def is_first(self) -> bool:
        return self.pushes == 0 and not self.was_back

    def files(self, before: Dict[str, str]) -> "Dict[str, Optional[str]]":
        """What it writes over the files that are there before. A test of it fails on these."""
        name, own = self.name, f"{self.user}/{self.name}.txt"
        found: Dict[str, Optional[str]] = {own: f"{name} says hello\n", f"test/{name}.sh": f"test -e {own} && grep -q hello {own}\n"}
        if self.kind == "fails" and self.is_first:
            found[own] = f"{name} says nothing\n"
            found[f"test/{name}.sh"] = f"cat {own}; grep -s -q hello {own} || exit 1\n"
        elif self.kind == "shared":
            found[SHARED] = before[SHARED] + f"a line of {name}\n"
            found[f"test/{name}.sh"] = f"grep -q 'line of {name}$' {SHARED}\n"
        elif self.kind == "script":
            found[own] = "#!/bin/sh\n\techo 'hello \u00e4 \u2028 \\ \"'\r\n\0\n\n"
            found[f"test/{name}.sh"] = f"test -e {own} && sh {own} | grep -a -q hello\n"
        elif self.kind == "many":
            found |= {f"{self.user}/{name}/{at % 7}/{at}": f"{name} {at}\n" for at in range(MANY)}
        elif self.kind == "removes" and self.removed:
            of_that = f"test/{self.removed.split('/')[1].removesuffix('.txt')}.sh"
            found |= {self.removed: None, of_that: None, f"test/{name}.sh": f"test ! -e {self.removed}\n"}
        elif self.kind == "clashes":
            folder = "one" if self.is_first else f"of.{name}"
            found = {f"{folder}/{name}": "", f"test/{name}.sh": f'test -e {folder}/{name} && test "$(ls {folder} | wc -l)" = 1\n'}
        return found


def made_up(users: List[str], count: int, seed: int) -> Iterator[Job]:
    """So many jobs, each user's in turn. Each kind is there where there are as many."""
    chance = random.Random(seed)
    kinds = (KINDS * (count // len(KINDS) + 1))[:count]
    clashing = [at for at, kind in enumerate(kinds) if kind == "clashes"]
    if len(clashing) == 1 and count > 1:
        # it takes two
        kinds[0 if clashing[0] else 1] = "clashes"
    chance.shuffle(kinds)
    for at, kind in enumerate(kinds):
        user = users[at % len(users)]
        yield Job(user, f"j{at}", kind, "r1" if kind == "branch" else "")
