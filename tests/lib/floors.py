"""The least that a command must do, measured by small programs (tests/floors), or by what stands in for them where they aren't built."""
import os
import shutil
import subprocess
import sys
from typing import Iterable, NamedTuple, Optional

from lib.cost import Cost, Words, least

TOP = os.path.dirname(os.path.dirname(os.path.dirname(os.path.abspath(__file__))))
# of each small program the crates that it uses, and of these the repository's own with what they use
PROGRAMS = {"digests": "sha2", "records": "ae_base ae_schema ae_types"}
OWN = ("ae_base", "ae_text", "ae_types", "ae_schema")
# what of a crate's folder isn't needed
UNUSED = shutil.ignore_patterns("must-fail", "incremental")


def lay(folder: str) -> None:
    """Lays out a repository of the small programs, with the crates below them."""
    with open(os.path.join(TOP, "crates.txt"), encoding="ascii") as file:
        lines = [line for line in file.read().splitlines() if line.split(":")[0] in OWN]
    for name in OWN:
        shutil.copytree(os.path.join(TOP, "crates", name), os.path.join(folder, "crates", name), ignore=UNUSED, dirs_exist_ok=True)
    for name, uses in PROGRAMS.items():
        source = os.path.join(folder, "crates", f"floor_{name}", "src")
        os.makedirs(source, exist_ok=True)
        shutil.copy(os.path.join(TOP, "tests", "floors", f"{name}.text"), os.path.join(source, "main.rt"))
        lines.append(f"floor_{name}: {uses}")
    with open(os.path.join(folder, "crates.txt"), "w", encoding="ascii") as file:
        file.write("\n".join(lines) + "\n")


def program(folder: str, name: str) -> str:
    """Where a small program is, once it is built."""
    return os.path.join(folder, "crates", f"floor_{name}", "out", f"floor_{name}")


def build(folder: str) -> None:
    """Proves and builds the small programs that aren't there."""
    missing = [name for name in PROGRAMS if not os.path.exists(program(folder, name))]
    if missing:
        lay(folder)
    for name in missing:
        crate = os.path.join(folder, "crates", f"floor_{name}")
        if subprocess.run(["rt", "run"], cwd=crate, stdin=subprocess.DEVNULL, stdout=sys.stderr).returncode != 0:
            sys.exit(f"{crate} can't be built")


def names_of(folder: str) -> list[str]:
    """The places of all files below a folder."""
    return sorted(os.path.join(at, name) for at, _, names in os.walk(folder) for name in names)


def size_of(places: Iterable[str]) -> int:
    """How many bytes these files have."""
    return sum(os.path.getsize(place) for place in places)


class Floor(NamedTuple):
    """What a floor costs, and what it is."""

    cost: Cost
    what: str

    def __add__(self, other: object) -> "Floor":
        """One after the other."""
        if not isinstance(other, Floor):
            return NotImplemented
        return Floor(self.cost + other.cost, f"{self.what} and {other.what}")

    def times(self, count: int) -> "Floor":
        """So many times, each as long as the one that was measured."""
        return Floor(self.cost._replace(seconds=self.cost.seconds * count), f"{count} times {self.what}")


class Floors:
    """What the small programs cost, where they are built, and what stands in for them otherwise."""

    def __init__(self, folder: Optional[str], aegis: str) -> None:
        self.folder, self.aegis = folder, aegis

    def named(self, name: str, places: list[str], what: str) -> Floor:
        """A small program over these files."""
        assert self.folder is not None
        given = "".join(f"{place}\n" for place in places).encode()
        return Floor(least(Words([program(self.folder, name)], "/", given)), what)

    def digests(self, places: list[str], what: str) -> Floor:
        """These files are read and hashed."""
        if self.folder is not None:
            return self.named("digests", places, f"sha2 of {what}")
        given = "".join(f"{place}\0" for place in places).encode()
        return Floor(least(Words(["xargs", "-0", "sha256sum"], "/", given)), f"sha256sum (in place of sha2) of {what}")

    def records(self, top: str) -> Floor:
        """The records of a project and of its files are read once. In place of that a listing of the administrators stands, which reads
        them too, and so is a floor that can't be met by much."""
        if self.folder is not None:
            store = os.path.join(top, "aegis.d", "store")
            return self.named("records", [os.path.join(store, name) for name in ("project", "files")], "`project` and `files` read")
        return Floor(least(Words([self.aegis, "-l", "a"], top)), "-l a (in place of the record reader)")


def copied(folder: str, to: str) -> Floor:
    """A directory is copied by cp -r; of three copies the one that took least. The last one stays."""
    costs = []
    for _ in range(3):
        shutil.rmtree(to, ignore_errors=True)
        costs.append(least(Words(["cp", "-r", folder, to], "/"), 1))
    return Floor(min(costs), "cp -r")
