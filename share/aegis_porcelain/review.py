"""ae review N: shows what a change has frozen, asks, and passes just that by its digest, or fails it with a reason."""
from __future__ import annotations

import argparse
import subprocess
import sys
from dataclasses import dataclass
from typing import Callable, List, Tuple

from .chosen import add_change, change_of, place_of
from .diff import compared, frozen_digest, of_change
from .display import paged, say, shown
from .failures import Failure
from .place import Place
from .program import do, script, surroundings, user
from .records import Change
from .store import Store, with_store

QUESTION = "pass it, fail it, or neither? [p/f/n] "
REVIEWED = ("awaiting_review", "being_reviewed")


@dataclass(frozen=True)
class Subject:
    """What is reviewed."""

    number: int
    developer: str
    brief: str
    digest: str
    is_begun: bool  # whether its review was begun before


def words(parser: argparse.ArgumentParser) -> None:
    add_change(parser)


def run(asked: argparse.Namespace) -> int:
    where = place_of(asked)
    number = change_of(asked, where)

    def work(store: Store) -> Tuple[Change, str]:
        change = store.change(number)
        if change.phase not in REVIEWED:
            raise Failure(f"change {number} is {change.phase}: there is nothing to review")
        return change, compared(list(of_change(store, change)))

    change, text = with_store(where, work)
    is_begun = change.phase == "being_reviewed"
    if not is_begun:
        answer = do(where, "-rb", "-c", str(number))
        if answer.status != 0:
            return answer.status
    paged(text)
    subject = Subject(number, change.developer, shown(change.brief_description), frozen_digest(change), is_begun)
    return decide(subject, lambda given: give(where, given))


def decide(subject: Subject, give: Callable[[List[str]], int]) -> int:
    """Asks what is to be done with the change, and gives that. A review that was begun only to look at it is given back."""
    number = str(subject.number)
    say(f"change {number} of {subject.developer}: {subject.brief}", "bold")
    say(f"digest {subject.digest}")
    said = ask(QUESTION)
    if said in ("p", "pass"):
        return give(["aepass", number, subject.digest])
    if said in ("f", "fail"):
        return give(["aegis", "-rfail", "-c", number, "-rea", ask("why? ")])
    if not subject.is_begun:
        return give(["aegis", "-rbu", "-c", number])
    say("it is as it was")
    return 0


def ask(question: str) -> str:
    """The line that is answered; nothing where there is none."""
    is_asked = sys.stdin.isatty()
    print(question if is_asked else question.rstrip(), end="" if is_asked else "\n", flush=True)
    return sys.stdin.readline().strip()


def give(where: Place, given: List[str]) -> int:
    """Gives a command of the program; or aepass, which passes what has a digest, and nothing else."""
    tool, *rest = given
    if tool != "aepass":
        return do(where, *rest).status
    sys.stdout.flush()
    try:
        done = subprocess.run([script(tool), *where.words, *rest], cwd=where.top, env={**surroundings(), "AEGIS_USER": user()})
    except OSError as error:
        raise Failure(f"aepass can't be run: {error.strerror}") from None
    return done.returncode
