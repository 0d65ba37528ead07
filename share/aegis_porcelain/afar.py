"""`ae` on a machine without the project: in a clone of a host, which has the git setting aegis.host, the same words are given by ssh.

The words are sent in one line, quoted for a shell, and the host reads it without one. What it shows is shown here as by the host, and on
a terminal with nothing in it that acts on that.
"""
from __future__ import annotations

import argparse
import os
import re
import shlex
import subprocess
import sys
from dataclasses import dataclass
from typing import Callable, Dict, List, Optional, Tuple

from .chosen import change_named
from .diff import coloured, deltas_and_paths
from .display import is_terminal, paged, shown_lines
from .failures import Failure, Misused
from .folders import MIRROR
from .git_names import branch_of
from .new import EXEMPT, reason
from .place import BRANCH
from .records import LONGEST_PATH, PATH

SETTING = "aegis.host"
NAME = r"[A-Za-z0-9_.][A-Za-z0-9_.%-]*"
# as ssh takes it, never what begins as an option does
HOST = re.compile(rf"(?:{NAME}@)?{NAME}|ssh://(?:{NAME}@)?(?:{NAME}|\[[0-9A-Fa-f:.]+\])(?::[0-9]{{1,5}})?")
FOLLOWED = re.compile(r"refs/remotes/[^/]+/branch/(.+)")


@dataclass(frozen=True)
class Clone:
    """A clone of a host's repository."""

    host: str
    folder: str  # git's own
    below: str  # the folder in it where one stands, or nothing
    branch: str  # that of the project, or nothing for the trunk

    @property
    def url(self) -> str:
        return url_of(self.host)

    @property
    def words(self) -> List[str]:
        """The words that name the branch."""
        return ["-br", self.branch] if self.branch else []


def url_of(host: str) -> str:
    """Where git finds the repository of a host."""
    if not HOST.fullmatch(host):
        raise Misused(f"{ascii(host)} is no host, as USER@NAME or ssh://USER@NAME:PORT")
    return f"{host}/{MIRROR}" if host.startswith("ssh://") else f"{host}:{MIRROR}"


def asked_of_git(*words: str) -> Optional[str]:
    """What git says in the current folder, by its user's settings; nothing where it fails."""
    try:
        done = subprocess.run(["git", *words], stdin=subprocess.DEVNULL, capture_output=True, text=True, errors="surrogateescape")
    except OSError:
        return None
    return done.stdout.rstrip("\n") if done.returncode == 0 else None


def clone_here(branch: Optional[str]) -> Optional[Clone]:
    """The clone in which one stands, where there is one; of the branch that is named, else of that which its own branch follows."""
    host = asked_of_git("config", "--local", "--get", SETTING)
    if not host:
        return None
    url_of(host)
    if branch is None:
        follows = FOLLOWED.fullmatch(asked_of_git("rev-parse", "--symbolic-full-name", "@{upstream}") or "")
        branch = branch_of(follows[1]) if follows else ""
    if branch and not BRANCH.fullmatch(branch):
        raise Misused(f"{ascii(branch)} is no name of a branch")
    folder, below = asked_of_git("rev-parse", "--absolute-git-dir"), asked_of_git("rev-parse", "--show-prefix")
    return Clone(host, folder or "", (below or "").rstrip("/"), branch)


def git_here(*words: str) -> int:
    """Runs git in the current folder, by its user's settings, and answers its status."""
    sys.stdout.flush()
    try:
        return subprocess.run(["git", *words], check=False).returncode
    except OSError:
        raise Failure("there is no git: apt install git") from None


# ---- what is given to the host


def ssh() -> List[str]:
    """What git takes for ssh here."""
    line = os.environ.get("GIT_SSH_COMMAND") or asked_of_git("config", "--get", "core.sshCommand")
    return ["sh", "-c", f'{line} "$@"', line] if line else [os.environ.get("GIT_SSH") or "ssh"]


def begun(clone: Clone, words: List[str]) -> "subprocess.Popen[bytes]":
    """Gives a host a command, whose output is read here."""
    sys.stdout.flush()
    try:
        return subprocess.Popen([*ssh(), clone.host, shlex.join(words)], stdin=subprocess.DEVNULL, stdout=subprocess.PIPE)
    except OSError as error:
        raise Failure(f"ssh can't be run: {error.strerror}") from None


def give(clone: Clone, tool: str, *words: str) -> int:
    """Gives a command, shows what it says as it comes, and answers its status."""
    with begun(clone, [tool, *clone.words, *words]) as process:
        for line in process.stdout or ():
            if is_terminal():
                print(shown_lines(text_of(line)), end="")
            else:
                sys.stdout.buffer.write(line)
            sys.stdout.flush()
    return process.returncode


def said_by(clone: Clone, tool: str, *words: str) -> Tuple[int, str]:
    """The status of a command, and all that it says."""
    with begun(clone, [tool, *clone.words, *words]) as process:
        said = process.communicate()[0]
    return process.returncode, text_of(said)


def text_of(said: bytes) -> str:
    return said.decode("utf-8", "surrogateescape")


def show_paged(clone: Clone, *words: str) -> int:
    """Shows what a command of `ae` says, on a terminal page by page."""
    status, said = said_by(clone, "ae", *words)
    paged(coloured(said))
    return status


# ---- the commands


def number_words(asked: argparse.Namespace) -> List[str]:
    """The word that names a change."""
    number = asked.number or asked.change
    return [str(number)] if number else []


def known(asked: argparse.Namespace) -> int:
    """The change that a command is about, which has to be known."""
    found = change_named(asked)
    if found is None:
        raise Misused("which change? Name it")
    return found


def paths_of(clone: Clone, words: List[str]) -> List[str]:
    """Paths of the project, as one who stands in a folder of the clone means them."""
    found = [os.path.normpath(os.path.join(clone.below, word)) for word in words]
    for word, path in zip(words, found):
        if path != "." and (not PATH.fullmatch(path) or len(path) > LONGEST_PATH):
            raise Misused(f"{ascii(word)} is no path of the project")
    return found


def status(clone: Clone, asked: argparse.Namespace) -> int:
    return give(clone, "ae", "status", *(["--porcelain"] if asked.porcelain else []), *number_words(asked))


def queue(clone: Clone, asked: argparse.Namespace) -> int:
    if asked.watch:
        raise Misused("ae queue --watch is given on the host")
    return give(clone, "ae", "queue", *(["-q"] if asked.quiet else []))


def log(clone: Clone, asked: argparse.Namespace) -> int:
    count = ["-n", str(asked.n)] if asked.n is not None else []
    return show_paged(clone, "log", *(["--porcelain"] if asked.porcelain else []), *count, *paths_of(clone, asked.paths))


def diff(clone: Clone, asked: argparse.Namespace) -> int:
    deltas, rest = deltas_and_paths(asked)
    if deltas:
        return show_paged(clone, "diff", "--delta", *map(str, deltas), *paths_of(clone, rest))
    return show_paged(clone, "diff", str(known(asked)), *paths_of(clone, rest))


def review(clone: Clone, asked: argparse.Namespace) -> int:
    from .review_afar import review

    return review(clone, known(asked))


def why(clone: Clone, asked: argparse.Namespace) -> int:
    return give(clone, "ae", "why", *([str(asked.refusal)] if asked.refusal is not None else []))


def new(clone: Clone, asked: argparse.Namespace) -> int:
    """Makes a change on the host, in the one order in which the words of its attributes are let through."""
    named = {"--description": asked.description, "--cause": asked.cause, "--reason": asked.reason}
    options = [word for option, value in named.items() if value is not None for word in (option, value)]
    options += ["--" + name.replace("_", "-") for name in EXEMPT if getattr(asked, name)]
    if any(text and text.startswith("-") for text in (*named.values(), asked.text)):
        raise Misused("from a clone no text of a change begins with -")
    return give(clone, "ae", "new", *options, asked.text)


def begin(clone: Clone, asked: argparse.Namespace) -> int:
    """Takes a change over, whose directory is on the host: it gets what is pushed from here."""
    number = known(asked)
    status = give(clone, "aegis", "-db", "-c", str(number), *reason(asked.reason))
    if status == 0:
        print(f"commit here, and ae submit {number}")
    return status


def finish(clone: Clone, asked: argparse.Namespace) -> int:
    return give(clone, "ae", "finish", *(["-q"] if asked.quiet else []), str(known(asked)))


COMMANDS: Dict[str, Callable[[Clone, argparse.Namespace], int]] = {
    "status": status,
    "queue": queue,
    "log": log,
    "diff": diff,
    "review": review,
    "why": why,
    "new": new,
    "begin": begin,
    "finish": finish,
}
# what is given in the project's folder alone, and what does it from a clone where something does
ON_THE_HOST = {
    "merge": "here fetch, git rebase, and ae submit N",
    "git": "here git fetch has each delta",
    **dict.fromkeys(("json", "pages", "prove", "verify", "backup", "host"), ""),
}


def run(asked: argparse.Namespace) -> Optional[int]:
    """Has the host do a command, where one stands in a clone; nothing where one doesn't, or where it needs no project."""
    if asked.command not in COMMANDS and asked.command not in ON_THE_HOST:
        return None
    clone = clone_here(asked.branch)
    if clone is None:
        return None
    if asked.command in ON_THE_HOST:
        instead = ON_THE_HOST[asked.command]
        raise Misused(f"ae {asked.command} is given in the project's folder on the host{instead and f'; {instead}'}")
    return COMMANDS[asked.command](clone, asked)
