"""How things are printed: plain where the output is no terminal, and with colours and in columns where it is one."""
from __future__ import annotations

import re
import sys
import time
import unicodedata
from typing import List, Optional, Sequence

from .packages import find_packages

ACTS = {"Cc", "Cf", "Co", "Cn", "Zl", "Zp"}
# letters and marks that aren't seen, which Unicode has as ignorable, and blanks that pass for letters
UNSEEN = re.compile("[\u034f\u115f\u1160\u17b4\u17b5\u180b-\u180f\u2800\u3164\ufe00-\ufe0f\uffa0\U000e0100-\U000e01ef]")
UNITS = (("d", 86400), ("h", 3600), ("min", 60))
PAGER = ["less", "-FRX"]


def is_terminal() -> bool:
    return sys.stdout.isatty()


def shown(text: str) -> str:
    """A text on one line, in which nothing acts on a terminal or hides: such characters are shown by their numbers."""
    if text.isascii() and text.isprintable():
        return text
    return "".join(map(shown_letter, text))


def shown_lines(text: str) -> str:
    """A text of several lines, shown so."""
    if text.isascii() and text.isprintable():
        return text
    return "".join(letter if letter in "\n\t" else shown_letter(letter) for letter in text)


def shown_letter(letter: str) -> str:
    if "\udc80" <= letter <= "\udcff":
        return f"\\x{ord(letter) - 0xDC00:02x}"
    if letter in "\n\t":
        return " "
    return f"<U+{ord(letter):04X}>" if unicodedata.category(letter) in ACTS or UNSEEN.match(letter) else letter


def moment(when: int) -> str:
    """A moment, in UTC."""
    return time.strftime("%Y-%m-%d %H:%M", time.gmtime(when))


def age(when: int) -> str:
    """How long ago a moment was."""
    seconds = max(0, int(time.time()) - when)
    return next((f"{seconds // size} {name}" for name, size in UNITS if seconds >= size), f"{seconds} s")


def say(text: str = "", style: str = "") -> None:
    """Prints a line."""
    if style and is_terminal():
        find_packages()
        from rich.console import Console
        from rich.text import Text

        Console(highlight=False).print(Text(text, style=style), soft_wrap=True)
    else:
        print(text)


def table(rows: Sequence[Sequence[str]], indent: str = "", styles: Optional[List[str]] = None) -> None:
    """Prints rows with their columns below one another; the last column isn't filled up."""
    if not rows:
        return
    if is_terminal():
        drawn(rows, indent, styles or [])
        return
    widths = [max(len(row[at]) for row in rows) for at in range(len(rows[0]) - 1)]
    for row in rows:
        cells = [cell.ljust(width) for cell, width in zip(row, widths)]
        print(indent + "  ".join([*cells, row[-1]]).rstrip())


def drawn(rows: Sequence[Sequence[str]], indent: str, styles: List[str]) -> None:
    """The same on a terminal, whose width it keeps to."""
    find_packages()
    from rich.console import Console
    from rich.padding import Padding
    from rich.table import Table
    from rich.text import Text

    drawing = Table(box=None, show_header=False, padding=(0, 2, 0, 0))
    for at in range(len(rows[0])):
        drawing.add_column(style=styles[at] if at < len(styles) else "", overflow="fold")
    for row in rows:
        drawing.add_row(*(Text(cell) for cell in row))
    Console(highlight=False).print(Padding(drawing, (0, 0, 0, len(indent))))


def paged(text: str) -> None:
    """Prints a text, on a terminal page by page."""
    if is_terminal() and text:
        import subprocess

        try:
            subprocess.run(PAGER, input=text, text=True)
            return
        except OSError:
            pass
    print(text, end="")
