"""The same work by git and fossil: a history, a working tree's status, and a check of a history."""
import os
import re
import shutil
import subprocess
from typing import Iterator, Optional

from lib.cost import Cost, Words, cost, least
from lib.large import content

NAMES = {f"GIT_{who}_{what}": "x@x" for who in ("AUTHOR", "COMMITTER") for what in ("NAME", "EMAIL")}
BEGINS = {"git": ["git init -q ."], "fossil": ["fossil init ../f.fossil", "fossil open ../f.fossil"]}
ENDS = {"git": ["git add -A", "git commit -qm x"], "fossil": ["fossil addremove", "fossil commit -m x --no-warnings"]}


def given(words: str, folder: str) -> Words:
    """A command in a folder, as somebody."""
    return Words(words.split(), folder, b"", {**NAMES, "USER": "gen", "HOME": folder, "FOSSIL_HOME": folder})


def files_of(text: bytes) -> Iterator[list[tuple[str, str]]]:
    """The files that each change of a script puts."""
    files: list[tuple[str, str]] = []
    for line in text.decode().splitlines():
        put = re.match(r'put develop\.\d+ (\S+) "(.*)"$', line)
        if put:
            files.append((put[1], put[2]))
        elif "-ipass" in line:
            yield files
            files = []


def commits_of(tool: str, text: bytes, folder: str) -> Optional[Cost]:
    """What the commits of the same files cost; nothing where the tool isn't there."""
    if not shutil.which(tool):
        return None
    os.makedirs(folder)
    for words in BEGINS[tool]:
        cost(given(words, folder))
    total = Cost(0.0, 0)
    for files in files_of(text):
        for path, said in files:
            os.makedirs(os.path.dirname(os.path.join(folder, path)) or folder, exist_ok=True)
            with open(os.path.join(folder, path), "w", encoding="ascii") as file:
                file.write(said)
        for words in ENDS[tool]:
            total += cost(given(words, folder))
    return total


def status_of(tree: str, repository: str) -> Optional[Cost]:
    """What git's status of a working tree costs, whose one commit it makes elsewhere; nothing where git isn't there."""
    if not shutil.which("git"):
        return None
    where = f"git --git-dir={repository} --work-tree={tree}"
    for words in (f"git init -q --bare {repository}", f"{where} config core.bare false", f"{where} add -A", f"{where} commit -qm x"):
        cost(given(words, tree))
    return least(given(f"{where} status --porcelain", tree))


def texts(paths: int, changes: int) -> Iterator[bytes]:
    """The commits of a project (tests/lib/large.py) as git's fast-import reads them."""
    names = [f"source/part{n // 100:03}/file{n:05}.c" for n in range(paths)]
    for delta in range(changes):
        yield f"commit refs/heads/main\ncommitter alice <alice> {1000000000 + delta} +0000\ndata 0\n".encode()
        for number in range(delta * paths // changes, (delta + 1) * paths // changes):
            text = content(number + 1)
            yield f"M 100644 inline {names[number]}\ndata {len(text)}\n".encode() + text + b"\n"


def imported(paths: int, changes: int, folder: str) -> Optional[Cost]:
    """What git's check of the same history costs; nothing where git isn't there."""
    if not shutil.which("git"):
        return None
    os.makedirs(folder)
    cost(given("git init -q .", folder))
    with subprocess.Popen(["git", "fast-import", "--quiet"], cwd=folder, stdin=subprocess.PIPE) as importing:
        assert importing.stdin is not None
        importing.stdin.writelines(texts(paths, changes))
    return least(given("git fsck --full --no-progress", folder))
