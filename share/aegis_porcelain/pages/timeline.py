"""The picture of the deltas over time: each developer has a line with his name above it, and a cause is a colour and a shape."""
from __future__ import annotations

from dataclasses import dataclass
from typing import List, Sequence

from ..display import moment
from ..history import Step

WIDTH = 640
LEFT, RIGHT, ROW, LINE, FOOT = 20, 20, 54, 40, 44
CAUSES = (
    "external_bug",
    "external_enhancement",
    "external_improvement",
    "internal_bug",
    "internal_enhancement",
    "internal_improvement",
    "chain",
)


@dataclass(frozen=True)
class Mark:
    """A delta in the picture."""

    delta: int
    x: float
    y: int
    cause: str
    said: str


@dataclass(frozen=True)
class Row:
    """A developer in the picture."""

    user: str
    y: int


@dataclass(frozen=True)
class Picture:
    """The whole picture."""

    width: int
    height: int
    first: str
    last: str
    rows: List[Row]
    marks: List[Mark]
    causes: List[str]


def picture_of(steps: Sequence[Step]) -> Picture:
    """The picture of these deltas."""
    users = sorted({step.change.developer for step in steps})
    rows = {user: ROW * place + LINE for place, user in enumerate(users)}
    moments = [step.delta.when for step in steps]
    begin, span = min(moments, default=0), max(max(moments, default=0) - min(moments, default=0), 1)
    marks = [
        Mark(
            step.delta.number,
            round(LEFT + (WIDTH - LEFT - RIGHT) * (step.delta.when - begin) / span, 1),
            rows[step.change.developer],
            step.change.cause,
            f"delta {step.delta.number} by {step.change.developer}, {step.change.cause.replace('_', ' ')}, {moment(step.delta.when)}",
        )
        for step in steps
    ]
    first, last = (moment(min(moments)), moment(max(moments))) if moments else ("", "")
    there = {step.change.cause for step in steps}
    height = ROW * len(users) + FOOT
    return Picture(
        WIDTH, height, first, last, [Row(user, y) for user, y in rows.items()], marks, [cause for cause in CAUSES if cause in there]
    )
