"""Which commands are let through to a project from another machine, each in the one spelling that is written here.

No script and no made-up project, in which whoever writes it names any user; no new project, whose maker is its administrator; and no
pass of a review but by digest. The functions and their words are those of share/account/aegis-for: a test holds the two against each
other. A file of attributes or a report comes by standard input, and is named `-`.
"""
from __future__ import annotations

import re
from typing import Callable, Dict, List, NamedTuple, Tuple

from .failures import Misused
from .folders import MIRROR
from .place import BRANCH
from .records import CAUSES, DIGEST

# what a function may have besides: f a file, o options, p plain words, d a delta, r a report; n nothing
KINDS = {
    "p": "-na -ra -nd -rd -nrv -rrv -ni -ri",
    "fo": "-pa -nc -ca",
    "o": "-ncu -db -dbu -b -de -deu -rb -rbu -rpu -rfail -ib -ibu -ipass -ifail -t -ds",
    "po": "-cp -cpu -nf -nfu -nt -ntu -rm -rmu -l",
    "r": "-rep",
    "d": "-begin",
    "n": "-aud -dr -finish",
}
FUNCTIONS: Dict[str, str] = {function: kinds for kinds, functions in KINDS.items() for function in functions.split()}
FLAGS = ("-ow", "-bl", "-reg")
OF_A_BRANCH = ("-begin", "-finish")
NUMBER = re.compile(r"[0-9]{1,10}")
# a user, a path or a listing: never what begins as an option does
PLAIN = re.compile(r"(?!-)[A-Za-z0-9._+/-]{1,255}")
DIRECTORY = re.compile(r"(?:develop|integrate|base)\.[0-9]+")
NOT_LET_THROUGH = "a word isn't let through"


class Call(NamedTuple):
    """A command that is let through."""

    tool: str
    branch: str
    words: Tuple[str, ...]
    given: Tuple[int, ...] = ()  # which of the words stand for standard input

    @property
    def line(self) -> List[str]:
        """The words with those that name the branch."""
        return [*(["-br", self.branch] if self.branch else []), *self.words]


def is_plain(word: str) -> bool:
    return PLAIN.fullmatch(word) is not None


def is_number(word: str) -> bool:
    return NUMBER.fullmatch(word) is not None


def takes_value(kinds: str, option: str, value: str) -> bool:
    """Whether an option is let through with this value, which is the next word, whatever it is."""
    if option in ("-c", "-del"):
        return "o" in kinds and is_number(value)
    if option == "-p":
        return BRANCH.fullmatch(value) is not None
    if option == "-f":
        return "f" in kinds and value == "-"
    return option == "-rea" and "o" in kinds


def is_let_through(kinds: str, word: str) -> bool:
    """Whether a word without a value is let through."""
    if word in FLAGS:
        return "o" in kinds
    if word == "-":
        return "r" in kinds
    return ("p" in kinds and is_plain(word)) or ("d" in kinds and is_number(word))


def given_of_function(branch: str, words: List[str]) -> List[int]:
    """Looks at a command of the program, and answers which of its words stand for standard input."""
    kinds = FUNCTIONS.get(words[0]) if words else None
    if kinds is None:
        raise Misused("that function isn't let through, or not in this spelling")
    if words[0] in OF_A_BRANCH and not branch:
        raise Misused("a branch is missing")
    at, given = 1, list[int]()
    while at < len(words):
        if at + 1 < len(words) and takes_value(kinds, words[at], words[at + 1]):
            given += [at + 1] if words[at] == "-f" else []
            at += 2
        elif is_let_through(kinds, words[at]):
            given += [at] if words[at] == "-" else []
            at += 1
        else:
            raise Misused(NOT_LET_THROUGH)
    if len(given) > 1:
        raise Misused("one file is handed on")
    return given


# ---- the commands of `ae`


def of_number(words: List[str]) -> bool:
    """A change's number, or none."""
    return not words or (len(words) == 1 and is_number(words[0]))


def of_status(words: List[str]) -> bool:
    return of_number(words[1:] if words[:1] == ["--porcelain"] else words)


def of_paths(words: List[str]) -> bool:
    return all(map(is_plain, words))


def of_log(words: List[str]) -> bool:
    """Paths, after how it is shown and how much of it."""
    rest = words[1:] if words[:1] == ["--porcelain"] else words
    if rest[:1] == ["-n"]:
        return len(rest) > 1 and is_number(rest[1]) and of_paths(rest[2:])
    return of_paths(rest)


def of_diff(words: List[str]) -> bool:
    """A change's number or a delta or two, and paths."""
    if words[:1] == ["--delta"]:
        return len(words) > 1 and is_number(words[1]) and of_paths(words[2:])
    return of_paths(words)


def of_finish(words: List[str]) -> bool:
    return of_number([word for word in words if word != "-q"])


def of_queue(words: List[str]) -> bool:
    return words in ([], ["-q"])


TEXTS = ("--description", "--reason")
EXEMPT = ("--test-exempt", "--test-baseline-exempt", "--regression-test-exempt")


def of_new(words: List[str]) -> bool:
    """A text, after what else a new change has: its texts, and then what it needs no run of."""
    rest = list(words)
    while len(rest) > 2 and (rest[0] in TEXTS or (rest[0] == "--cause" and rest[1] in CAUSES)):
        if rest[1].startswith("-"):
            return False
        del rest[:2]
    while rest and rest[0] in EXEMPT:
        del rest[0]
    return len(rest) == 1 and not rest[0].startswith("-")


COMMANDS: Dict[str, Callable[[List[str]], bool]] = {
    "status": of_status,
    "begin": of_number,
    "review": of_number,
    "finish": of_finish,
    "queue": of_queue,
    "diff": of_diff,
    "log": of_log,
    "why": of_number,
    "new": of_new,
}


def is_command(words: List[str]) -> bool:
    return bool(words) and words[0] in COMMANDS and COMMANDS[words[0]](words[1:])


# ---- the tools beside them

TOOLS: Dict[str, Callable[[List[str]], bool]] = {
    "ae": is_command,
    # what is frozen, beside the baseline; the pass of just that; and the log of a directory
    "aediff": lambda words: len(words) == 1 and is_number(words[0]),
    "aepass": lambda words: len(words) == 2 and is_number(words[0]) and DIGEST.fullmatch(words[1]) is not None,
    "aelog": lambda words: len(words) == 1 and DIRECTORY.fullmatch(words[0]) is not None,
}
# git's own name for each of its two sides; both are of the mirror alone
GITS = {"git-upload-pack": "upload-pack", "git-receive-pack": "receive-pack"}
SAYS = f"there is no shell: git clone and git push of {MIRROR}, aegis, ae, aediff, aepass and aelog"


def read(words: List[str]) -> Call:
    """The command that the words give, where it is let through."""
    tool, rest = (words[0], words[1:]) if words else ("", [])
    if tool in GITS:
        if rest not in ([MIRROR], ["/" + MIRROR]):
            raise Misused(f"there is one repository, {MIRROR}")
        return Call(tool, "", ())
    if tool != "aegis" and tool not in TOOLS:
        raise Misused(SAYS)
    branch = ""
    if rest[:1] == ["-br"]:
        if len(rest) < 2 or not BRANCH.fullmatch(rest[1]):
            raise Misused("after -br comes the name of a branch")
        branch, rest = rest[1], rest[2:]
    if tool == "aegis":
        return Call(tool, branch, tuple(rest), tuple(given_of_function(branch, rest)))
    if not TOOLS[tool](rest):
        raise Misused(NOT_LET_THROUGH)
    return Call(tool, branch, tuple(rest))
