"""What takes long says on a terminal what is under way, how much of it is done, and for how long it has worked.

It is one line below what is printed, which comes once a second has passed and goes at the end. Where the output is no terminal there is
none, and nothing is loaded for it.
"""
from __future__ import annotations

import threading
import time
from typing import TYPE_CHECKING, Optional

from .display import is_terminal
from .packages import find_packages

if TYPE_CHECKING:
    from rich.progress import Progress

QUIET = 1.0
A_SECOND = 4


class UnderWay:
    """Something that is under way, of which so much is to be done, where that is known."""

    def __init__(self, what: str, total: Optional[int] = None) -> None:
        self.what = what
        self.total = total
        self.done = 0
        self.began = time.monotonic()
        self.lock = threading.Lock()
        self.drawn: Optional["Progress"] = None
        self.is_over = False
        self.timer: Optional[threading.Timer] = None

    def __enter__(self) -> UnderWay:
        if is_terminal():
            self.timer = threading.Timer(QUIET, self.draw)
            self.timer.daemon = True
            self.timer.start()
        return self

    def __exit__(self, *_: object) -> None:
        if self.timer is None:
            return
        self.timer.cancel()
        with self.lock:
            self.is_over = True
            if self.drawn:
                self.drawn.stop()

    def draw(self) -> None:
        """Begins to draw the line."""
        find_packages()
        from rich.progress import BarColumn, MofNCompleteColumn, Progress, SpinnerColumn, TextColumn, TimeElapsedColumn

        counted = [BarColumn(), MofNCompleteColumn()] if self.total else []
        columns = [SpinnerColumn(), TextColumn("{task.description}", markup=False), *counted, TimeElapsedColumn()]
        drawn = Progress(*columns, transient=True, refresh_per_second=A_SECOND)
        task = drawn.add_task(self.what, total=self.total, completed=self.done)
        drawn.tasks[task].start_time = self.began
        with self.lock:
            if not self.is_over:
                drawn.start()
                self.drawn = drawn

    def advance(self) -> None:
        """One more is done."""
        self.done += 1
        if self.drawn:
            self.drawn.update(self.drawn.task_ids[0], completed=self.done)

    def line(self, text: str) -> None:
        """Prints a line, above the one that is drawn."""
        with self.lock:
            if self.drawn:
                from rich.text import Text

                self.drawn.console.print(Text(text), soft_wrap=True)
            else:
                print(text, flush=True)
