"""ae submit [N]: pushes what is committed in a clone of a host, as a new change or as change N."""
from __future__ import annotations

import argparse

from .afar import clone_here, git_here
from .chosen import add_change, change_named
from .failures import Failure
from .git_names import ref_name


def words(parser: argparse.ArgumentParser) -> None:
    add_change(parser)


def run(asked: argparse.Namespace) -> int:
    clone = clone_here(asked.branch)
    if clone is None:
        raise Failure("this is no clone of a host: ae clone HOST makes one")
    number = change_named(asked)
    to = f"branch/{ref_name(clone.branch)}" if clone.branch else "baseline"
    return git_here("push", clone.url, f"HEAD:refs/for/{to}{f'/{number}' if number else ''}")
