"""The sources of the crates, as the scripts read them: files, what a crate uses, and where a bracket is closed."""
import os
import re
from typing import Iterator, NamedTuple

TOP = os.path.dirname(os.path.dirname(os.path.dirname(os.path.abspath(__file__))))
# The folders of a crate that have code, definitions and lemmas.
FOLDERS = ("src", "specs", "proofs")
CLOSES = {"(": ")", "{": "}", "[": "]"}


class File(NamedTuple):
    """A file of a crate; its path is from crates/ on."""

    crate: str
    path: str
    text: str


def files(top: str, folders: tuple[str, ...] = FOLDERS, endings: tuple[str, ...] = (".rt", ".antt")) -> Iterator[File]:
    """The files of these endings in these folders of all crates."""
    crates = os.path.join(top, "crates")
    for crate in sorted(os.listdir(crates)):
        for folder in folders:
            for at, _, names in sorted(os.walk(os.path.join(crates, crate, folder))):
                for name in sorted(names):
                    if name.endswith(endings):
                        path = os.path.join(at, name)
                        with open(path, encoding="utf-8") as file:
                            yield File(crate, os.path.relpath(path, crates), file.read())


def uses(top: str = TOP) -> dict[str, list[str]]:
    """For each crate those of ours that it uses (crates.txt)."""
    with open(os.path.join(top, "crates.txt"), encoding="utf-8") as file:
        lines = [line.split("#")[0].split(":") for line in file if line.split("#")[0].strip()]
    names = {line[0].split()[0] for line in lines}
    return {line[0].split()[0]: [it for it in line[1].split() if it in names] for line in lines}


def closing(text: str, at: int) -> int:
    """Where the bracket that opens at this place is closed."""
    opening = text[at]
    closes, depth = CLOSES[opening], 0
    for place in range(at, len(text)):
        depth += (text[place] == opening) - (text[place] == closes)
        if depth == 0:
            return place
    return len(text)


def without_imports(text: str) -> list[tuple[int, str]]:
    """The lines of a file with their numbers, but for blank ones, imports, names of modules, and lines without a word."""
    kept, in_import = [], False
    for number, line in enumerate(text.split("\n"), 1):
        if re.match(r"\s*(pub(\(\w+\))? )?(ghost )?use\b", line):
            in_import = line.endswith(("{", "(", ",")) and not line.rstrip().endswith(";")
        elif in_import:
            in_import = not re.match(r"\s*[})]", line) and line.startswith(" ")
        elif re.search(r"\w\w", line) and not re.match(r"\s*(pub(\(\w+\))? )?mod \w+;?$", line):
            kept.append((number, line))
    return kept
