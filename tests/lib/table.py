"""The table of what is measured: what a work takes, beside its floor, and the memory of commands."""
from typing import Optional

from lib.cost import Cost
from lib.floors import Floor

MIB = 1 << 20


def judged(ratio: float, goal: Optional[float]) -> str:
    """The goal, and whether it is met."""
    if goal is None:
        return " " * 10
    return f"{goal:5.2f} {'met' if round(ratio, 2) <= goal else 'no':4}"


class Table:
    """The rows, of which those of time are printed as they come."""

    def __init__(self) -> None:
        self.memories: list[str] = []
        print(f"{'work':52} {'takes':>9} {'floor':>9} {'ratio':>7}  goal       the floor", flush=True)

    def row(self, what: str, found: Cost, floor: Floor, goal: Optional[float]) -> None:
        """What a work takes, in processor seconds where it doesn't say otherwise."""
        ratio = found.seconds / max(floor.cost.seconds, 1e-6)
        print(f"{what:52} {found.seconds:9.4f} {floor.cost.seconds:9.4f} {ratio:7.2f}  {judged(ratio, goal)} {floor.what}", flush=True)

    def memory(self, what: str, found: Cost, size: int, goal: float) -> None:
        """The most memory that a command has, beside the bytes that it looks at."""
        ratio = found.memory / max(size, 1)
        self.memories.append(f"{what:52} {found.memory / MIB:9.1f} {size / MIB:9.1f} {ratio:7.2f}  {judged(ratio, goal)}")

    def tell_memory(self, smallest: int) -> None:
        """Prints the memory of all, with that of a command that does nothing, below which nothing is seen."""
        print(f"\n{'memory, in MiB':52} {'has':>9} {'bytes':>9} {'ratio':>7}  goal")
        print("\n".join(self.memories))
        print(f"{'a command that does nothing, as it is seen here':52} {smallest / MIB:9.1f}\n", flush=True)
