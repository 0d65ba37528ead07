"""What a host does for a fetch when nothing is new: it sees that its repository is up to the project, and git takes over.

All else is done by serve.py, also a fetch for which the repository is to be brought up. What is loaded there takes longer than such a fetch.
"""
from __future__ import annotations

import os

from .failures import Failure
from .folders import MIRROR, mirror_of, top_of
from .mirror import ENVIRONMENT, digests_of, is_folder, stamp_in

# the line that git itself sends
LINES = (f"git-upload-pack '{MIRROR}'", f"git-upload-pack '/{MIRROR}'")
LETTERS = frozenset("abcdefghijklmnopqrstuvwxyz0123456789_.-")
LONGEST_USER = 32


def is_user(name: str) -> bool:
    """Whether a user may have this name."""
    return 1 <= len(name) <= LONGEST_USER and LETTERS.issuperset(name) and name[0] not in "0123456789.-"


def take_over(user: str) -> None:
    """Goes on as git, where that is all that is to be done for what the user's key asks for."""
    if os.environ.get("SSH_ORIGINAL_COMMAND") not in LINES or not is_user(user):
        return
    try:
        top = top_of(os.getcwd())
        if top is not None and is_up(top):
            os.execvpe("git", ["git", "upload-pack", mirror_of(top)], ENVIRONMENT)
    except (Failure, OSError):
        # what it is, is said where all is done
        pass


def is_up(top: str) -> bool:
    """Whether the repository is up to the project."""
    mirror = mirror_of(top)
    return is_folder(mirror) and stamp_in(mirror).records == digests_of(top)[0]
