"""Which change a command is about, and who gives it."""
from __future__ import annotations

import os
import re
from typing import TYPE_CHECKING, List, Optional

from . import place
from .failures import Misused
from .place import Place
from .store import Store, with_store

if TYPE_CHECKING:
    import argparse


def place_of(asked: argparse.Namespace) -> Place:
    """The place that the words and the current folder say."""
    found = place.find(branch=asked.branch)
    if found.is_kept:
        raise Misused("this folder was renamed, since what was in it is no longer the change's: cd to another")
    return found


def number_in(text: str) -> int:
    """A change's number, as a word."""
    if not re.fullmatch(r"[0-9]{1,10}", text) or not 10 <= int(text) <= 1999:
        raise Misused(f'"{text}" is no number of a change')
    return int(text)


def number(text: str) -> int:
    """The same for a parser."""
    from argparse import ArgumentTypeError

    try:
        return number_in(text)
    except Misused as error:
        raise ArgumentTypeError(str(error)) from None


def add_change(parser: argparse.ArgumentParser, is_plain: bool = True) -> None:
    """The words that name a change: N, where it may be a plain word, and -c N."""
    if is_plain:
        parser.add_argument("number", metavar="N", nargs="?", type=number, help="the number of the change")
    parser.add_argument("-c", "--change", metavar="N", type=number, help="the number of the change")


def change_here(asked: argparse.Namespace, where: Place) -> Optional[int]:
    """The change that is named, else that of the folder one stands in, else that of AEGIS_CHANGE."""
    named = getattr(asked, "number", None) or asked.change or where.change or change_integrated(where)
    return int(named) if named else change_of_shell()


def change_named(asked: argparse.Namespace) -> Optional[int]:
    """The change that is named, else that of AEGIS_CHANGE."""
    named = getattr(asked, "number", None) or asked.change
    return int(named) if named else change_of_shell()


def change_of_shell() -> Optional[int]:
    """That of AEGIS_CHANGE."""
    default = os.environ.get("AEGIS_CHANGE", "")
    if not default:
        return None
    try:
        return number_in(default)
    except Misused as error:
        raise Misused(f"AEGIS_CHANGE: {error}") from None


def change_integrated(where: Place) -> Optional[int]:
    """The change whose integrate directory one stands in."""
    if where.delta is None:
        return None

    def work(store: Store) -> Optional[int]:
        if where.delta != len(store.project.deltas) + 1:
            return store.delta(where.delta or 0).change
        return next((change.number for change in store.open_changes() if change.phase == "being_integrated"), None)

    return with_store(where, work)


def change_of(asked: argparse.Namespace, where: Place) -> int:
    """The change that a command is about, which has to be known."""
    found = change_here(asked, where)
    if found is None:
        raise Misused("which change? Name it, stand in its develop directory, or take it up by ae use N")
    return found


def paths_here(words: List[str], where: Place) -> List[str]:
    """Paths of the project, as one who stands in a folder of a develop directory means them; those of a folder are all below it."""
    front = re.compile(rf"(?:{re.escape(where.home)}|aegis\.d)/develop\.[0-9]+/")
    found = []
    for word in words:
        word = word if front.match(word) else os.path.join(where.below, word)
        found.append(front.sub("", os.path.normpath(word), count=1))
    return found


def is_among(path: str, asked: List[str]) -> bool:
    """Whether a path is one of those that are asked for, or below one; all are where none is asked for."""
    return not asked or any(word in (path, ".") or path.startswith(word + "/") for word in asked)
