"""ae finish [N]: makes the runs that the end of a development, or the pass of an integration, asks for, and does it.

The program's own refusals say what is next: 28 a build, 29 the change's tests, 30 those on the baseline, 31 the project's others.
"""
from __future__ import annotations

import os
import stat
import subprocess
import sys
import time
from typing import TYPE_CHECKING, BinaryIO, List, NamedTuple, Optional

from .chosen import add_change, change_of, place_of
from .directory import LOG, Directory
from .display import shown
from .failures import Failure
from .place import Place
from .program import Answer, do, give, program, show, surroundings, under_way
from .store import Store, with_store
from .strays import strays
from .under_way import UnderWay

if TYPE_CHECKING:
    import argparse

RUNS = {28: ["-b"], 29: ["-t"], 30: ["-t", "-bl"], 31: ["-t", "-reg"]}
ENDS = {"being_developed": "-de", "being_integrated": "-ipass"}
BETWEEN_LOOKS = 0.1
SHOWN = 20


def words(parser: argparse.ArgumentParser) -> None:
    add_change(parser)
    parser.add_argument("-q", "--quiet", action="store_true", help="don't show what the runs write")


def run(asked: argparse.Namespace) -> int:
    where = place_of(asked)
    number = change_of(asked, where)
    work = with_store(where, lambda store: work_of(store, number, asked.quiet))
    return finish(work).answer.status


class Work(NamedTuple):
    """A change that is to be taken a step further."""

    place: Place
    number: int
    ends: str  # the function that ends the step
    folder: str  # the directory of its runs
    is_quiet: bool

    def log(self, words: List[str]) -> str:
        """The log of a run: that of tests on the baseline is elsewhere."""
        folder = f"base.{self.number}" if "-bl" in words else self.folder
        return os.path.join(self.place.top, self.place.home, folder, LOG)


class Finish(NamedTuple):
    """How it ended, and the log of the run that failed, where one did."""

    answer: Answer
    log: str = ""


def work_of(store: Store, number: int, is_quiet: bool) -> Work:
    change = store.change(number)
    if change.phase not in ENDS:
        raise Failure(f"change {number} is {change.phase}: nothing is developed or integrated")
    if change.phase == "being_developed":
        warn(strays(store, change, Directory(store.place, f"develop.{number}")).unregistered)
        folder = f"develop.{number}"
    else:
        folder = f"integrate.{len(store.project.deltas) + 1}"
    return Work(store.place, number, ENDS[change.phase], folder, is_quiet)


def warn(unregistered: List[str]) -> None:
    """Says which files the change doesn't have, since an integration won't have them."""
    if unregistered:
        more = f" and {len(unregistered) - SHOWN} more" if len(unregistered) > SHOWN else ""
        print(f"ae: not in the change, so no integration has it: {' '.join(map(shown, unregistered[:SHOWN]))}{more}", file=sys.stderr)


def finish(work: Work) -> Finish:
    """Makes each run that is asked for, once, and ends the step."""
    made = set()
    while True:
        with under_way(work.ends, "-c", str(work.number)):
            answer = give(work.place, work.ends, "-c", str(work.number))
        words = RUNS.get(answer.refusal)
        if words is None or answer.refusal in made:
            return Finish(show(answer))
        made.add(answer.refusal)
        ran = make_run(work, words)
        if ran.status != 0:
            return Finish(ran, work.log(words) if ran.refusal == 0 else "")


def make_run(work: Work, words: List[str]) -> Answer:
    """Makes runs of one kind, whose log is shown as it grows."""
    if work.is_quiet:
        return do(work.place, *words, "-c", str(work.number))
    shown_meanwhile = under_way(*words, "-c", str(work.number))
    tail = Tail(work.log(words), shown_meanwhile)
    command = [program(), *work.place.words, *words, "-c", str(work.number)]
    try:
        running = subprocess.Popen(
            command, cwd=work.place.top, env=surroundings(), stdin=subprocess.DEVNULL, stderr=subprocess.PIPE, text=True, errors="replace"
        )
    except OSError as error:
        raise Failure(f"{program()} can't be run: {error.strerror}") from None
    with running, shown_meanwhile, tail:
        while running.poll() is None:
            tail.show()
            time.sleep(BETWEEN_LOOKS)
        tail.show()
        assert running.stderr
        return show(Answer(running.returncode, running.stderr.read()))


def opened_log(path: str) -> Optional[BinaryIO]:
    """A log, opened; nothing where there is none. What runs may put anything in its place, and only a file is one."""
    try:
        opened = os.open(path, os.O_RDONLY | os.O_NOFOLLOW | os.O_NONBLOCK | os.O_CLOEXEC)
    except OSError:
        return None
    if not stat.S_ISREG(os.fstat(opened).st_mode):
        os.close(opened)
        return None
    return open(opened, "rb")


class Tail:
    """Shows what is added to a log from now on. The log may be made again meanwhile."""

    def __init__(self, path: str, shown_meanwhile: UnderWay) -> None:
        self.path = path
        self.shown_meanwhile = shown_meanwhile
        self.file: Optional[BinaryIO] = None
        self.open()
        if self.file:
            self.file.seek(0, os.SEEK_END)

    def __enter__(self) -> None:
        pass

    def __exit__(self, *_: object) -> None:
        if self.file:
            self.file.close()

    def open(self) -> None:
        """Opens the log; one that is no file isn't opened."""
        opened = opened_log(self.path)
        if opened is None:
            return
        if self.file:
            self.file.close()
        self.file = opened

    def is_another(self) -> bool:
        """Whether the log was made again since it was opened."""
        try:
            found = os.lstat(self.path)
        except OSError:
            return False
        return self.file is None or found.st_ino != os.fstat(self.file.fileno()).st_ino

    def show(self) -> None:
        self.show_rest()
        if self.is_another():
            self.open()
            self.show_rest()

    def show_rest(self) -> None:
        for line in self.file or ():
            self.shown_meanwhile.line(shown(line.decode("utf-8", "surrogateescape").rstrip("\n")))
