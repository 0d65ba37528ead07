"""ae queue: integrates what waits for it, one change after another; one that fails goes back with the end of its log as the reason."""
from __future__ import annotations

import os
import signal
import sys
import time
from typing import TYPE_CHECKING, List, Optional, Tuple

from .chosen import place_of
from .failures import Failure
from .finish import Finish, finish, opened_log, work_of
from .place import Place
from .program import Answer, do, user
from .status import entered, may_integrate
from .store import Store, with_store

if TYPE_CHECKING:
    import argparse

MOST_REASON = 1000
LINES = 8
TAIL = 4096
REFUSED = 1
BEING_INTEGRATED = 32


def words(parser: argparse.ArgumentParser) -> None:
    parser.add_argument("--watch", action="store_true", help="go on, and integrate whatever comes to wait")
    parser.add_argument("--every", metavar="SECONDS", type=float, default=10.0, help="how often to look, with --watch")
    parser.add_argument("-q", "--quiet", action="store_true", help="don't show what the runs write")


def run(asked: argparse.Namespace) -> int:
    where = place_of(asked)
    if not asked.watch:
        return integrate_all(where, asked.quiet)
    stop = Stop()
    while not stop.is_asked:
        try:
            integrate_all(where, asked.quiet, stop)
        except Failure as failure:
            print(f"ae: {failure}", file=sys.stderr)
        sys.stdout.flush()
        stop.wait(asked.every)
    return 0


class Stop:
    """Whether the queue was asked to end. It ends once the integration that is under way has ended."""

    def __init__(self) -> None:
        self.is_asked = False
        for number in (signal.SIGTERM, signal.SIGINT):
            signal.signal(number, self.ask)

    def ask(self, *_: object) -> None:
        self.is_asked = True

    def wait(self, seconds: float) -> None:
        until = time.monotonic() + seconds
        while not self.is_asked and time.monotonic() < until:
            time.sleep(min(0.5, seconds))


def candidates(store: Store, who: str) -> Tuple[Optional[int], List[int]]:
    """The change that the user integrates already, and those that wait for him, in the order in which they came to wait."""
    begun = next((change for change in store.open_changes() if change.phase == "being_integrated"), None)
    if begun and begun.integrator != who:
        raise Failure(f"change {begun.number} is being integrated by {begun.integrator}")
    waits = [change for change in store.open_changes() if change.phase == "awaiting_integration" and may_integrate(store, change, who)]
    order = sorted(waits, key=lambda change: (entered(change), change.number))
    return (begun.number if begun else None), [change.number for change in order]


def integrate_all(where: Place, is_quiet: bool, stop: Optional[Stop] = None) -> int:
    """Integrates the changes that wait. The status is that of the last one which didn't become a delta."""
    begun, waits = with_store(where, lambda store: candidates(store, user()))
    status = 0
    for number in ([begun] if begun else []) + waits:
        if stop and stop.is_asked:
            break
        if number != begun:
            answer = do(where, "-ib", "-c", str(number))
            if answer.status == REFUSED and answer.refusal != BEING_INTEGRATED:
                status = answer.status
                continue
            if answer.status != 0:
                return answer.status
        ended = integrate(where, number, is_quiet)
        status = ended.answer.status or status
        if ended.answer.status > REFUSED:
            return status
    return status


def integrate(where: Place, number: int, is_quiet: bool) -> Finish:
    """Finishes an integration, or gives the change back. A fault leaves it as it is, to be gone on with."""
    ended = finish(with_store(where, lambda store: work_of(store, number, is_quiet)))
    if ended.answer.status == REFUSED:
        do(where, "-ifail", "-c", str(number), "-rea", reason(ended.log, ended.answer))
    return ended


def reason(log: str, answer: Answer) -> str:
    """Why an integration failed: the end of the log of the run that failed, or what the program said."""
    text = end_of(log) if log else answer.said
    lines = [" ".join(line.split()) for line in text.splitlines() if line.strip()]
    found = " | ".join(lines[-LINES:])
    while len(found.encode()) > MOST_REASON:
        found = found[len(found) - MOST_REASON if len(found) > MOST_REASON else 1 :]
    return "".join(letter for letter in found if letter.isprintable())


def end_of(log: str) -> str:
    opened = opened_log(log)
    if opened is None:
        return "its log can't be read"
    with opened as file:
        file.seek(max(0, os.fstat(file.fileno()).st_size - TAIL))
        return file.read().decode("utf-8", "replace")
