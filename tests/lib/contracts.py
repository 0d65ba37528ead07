"""The functions of the crates with their contracts, as texts."""
import re
from typing import Iterator, NamedTuple, Optional

from lib.sources import File, closing, files

FUNCTION = re.compile(r"^( *)(pub(?:\(\w+\))? )?(?:const )?(?:ghost )?fn (\w+)", re.M)
CLAUSE = re.compile(r"\b(requires|ensures) *(\w+)? *\{")
# What ends the part of a function's head that isn't its contract.
HEAD_END = re.compile(r"\b(?:requires|ensures) *(?:\w+)? *\{|^ *\{|\{$|;$", re.M)
# What a function that isn't at the margin is of: a trait, or the type of an `impl`.
OWNER = re.compile(r"^(?:(pub(?:\(\w+\))? )?trait (\w+)|impl(?:<.*?>)? (?:[\w:<>, ]+ for )?(?:&(?:mut )?)?(?:\w+::)*(\w+))", re.M)


class Clause(NamedTuple):
    """A clause of a contract: which kind, its name where it has one, what it says with each run of blanks as one, and its lines."""

    kind: str
    name: str
    text: str
    lines: list[str]


class Function(NamedTuple):
    """A function with its contract. A method of a public trait is public; `owner` is the trait, or the type that has it."""

    crate: str
    place: str
    owner: str
    name: str
    visibility: str
    is_of_public_trait: bool
    signature: str
    parameters: int
    clauses: list[Clause]

    @property
    def is_public(self) -> bool:
        return self.visibility == "pub" or self.is_of_public_trait

    @property
    def called(self) -> str:
        return f"{self.owner}::{self.name}" if self.owner else self.name


def without_comments(text: str) -> str:
    """The text with blanks for its comments: one that ends with a semicolon doesn't end a contract."""
    return re.sub(r"//[^\n]*", lambda found: " " * len(found[0]), text)


def in_one_line(text: str) -> str:
    """The text with each run of blanks as one."""
    return re.sub(r"\s+", " ", text).strip()


def count_parameters(words: str) -> int:
    """How many parameters are between the parentheses."""
    depth, count, last = 0, 0, ""
    for sign in words:
        depth += (sign in "([{<") - (sign in ")]}>")
        if sign == "," and depth == 0:
            count, last = count + 1, ""
        else:
            last += sign
    return count + (1 if last.strip() else 0)


def clauses_between(text: str, at: int, head_end: int) -> list[Clause]:
    """The clauses of the head of a function, from the end of its parameters on."""
    clauses = []
    while match := CLAUSE.search(text, at, head_end):
        at = closing(text, match.end() - 1)
        first = text.rindex("\n", 0, match.start()) + 1
        clauses.append(Clause(match[1], match[2] or "", in_one_line(text[match.end() : at]), text[first : at + 1].split("\n")))
        head_end = max(head_end, at)
    return clauses


def functions_of(file: File) -> Iterator[Function]:
    """The functions of a file, in its order."""
    crate, path, text = file.crate, file.path, without_comments(file.text)
    found = list(FUNCTION.finditer(text))
    owners = list(OWNER.finditer(text))
    ends: list[Optional[int]] = [after.start() for after in found[1:]]
    for here, after in zip(found, ends + [None]):
        start = text.index("(", here.end())
        end = closing(text, start)
        limit = len(text) if after is None else after
        body = re.compile(rf"^{here[1]}\{{|;$", re.M).search(text, end, limit)
        clauses = clauses_between(text, end, body.start() if body else limit)
        head = HEAD_END.search(text, end, limit)
        above = [it for it in owners if it.start() < here.start()] if here[1] else []
        owner = above[-1] if above else None
        yield Function(
            crate,
            f"{path}:{text.count(chr(10), 0, here.start()) + 1}",
            (owner[2] or owner[3]) if owner else "",
            here[3],
            (here[2] or "").strip(),
            bool(owner and owner[1] == "pub "),
            in_one_line(text[here.end() : head.start() if head else limit]),
            count_parameters(text[start + 1 : end]),
            clauses,
        )


def functions(top: str) -> Iterator[Function]:
    """The functions of all crates."""
    for file in files(top, ("src",), (".rt",)):
        yield from functions_of(file)
