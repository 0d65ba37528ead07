"""ae clone HOST [DEST]: clones the repository of a host by git, and notes in the clone where `ae` gives its commands."""
from __future__ import annotations

import argparse

from .afar import SETTING, git_here, url_of
from .failures import Misused
from .git_names import ref_name
from .place import BRANCH


def words(parser: argparse.ArgumentParser) -> None:
    parser.add_argument("host", metavar="HOST", help="the host, as ssh takes it: NAME, USER@NAME or ssh://USER@NAME:PORT")
    parser.add_argument("dest", metavar="DEST", nargs="?", help="the new folder, which is aegis where none is named")


def run(asked: argparse.Namespace) -> int:
    url = url_of(asked.host)
    if asked.branch and not BRANCH.fullmatch(asked.branch):
        raise Misused(f'"{asked.branch}" is no name of a branch')
    of_branch = ["--branch", f"branch/{ref_name(asked.branch)}"] if asked.branch else []
    return git_here("clone", "-c", f"{SETTING}={asked.host}", *of_branch, "--", url, *([asked.dest] if asked.dest else []))
