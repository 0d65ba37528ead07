"""Files, sizes and words as a page shows them."""
from __future__ import annotations

from ..display import shown_lines

MOST_BYTES = 1 << 20


def lines_of(held: bytes) -> list[str] | None:
    """The lines of a file, where it is a text and not too large to be shown."""
    if b"\0" in held or len(held) > MOST_BYTES:
        return None
    lines = held.decode("utf-8", "surrogateescape").split("\n")
    return [shown_lines(line) for line in (lines if lines[-1] else lines[:-1])]


def size(count: int) -> str:
    """How many bytes."""
    return "1 byte" if count == 1 else f"{count:,} bytes"


def words_of(word: str) -> str:
    """A word of the records as people read it."""
    return word.replace("_", " ")
