"""A project on a host, its users' keys and clones, and what they do: all of it by git and ssh."""
from __future__ import annotations

import hashlib
import os
import re
import shutil
import subprocess
from pathlib import Path
from typing import Any, Dict, List, Tuple

from sshd import Sshd, make_key

SHARE = Path(__file__).resolve().parent.parent.parent / "share"
USERS = ["ann", "bob", "cal", "dee", "eve"]
SETTINGS = "developers_may_create_changes = true;\n"
CONFIG = 'build_command = "sh -n tool.sh";\ntest_command = "sh ${file_name}";\n'
NUMBER = re.compile(r"^remote: change ([0-9]+)\s*$", re.M)
LONGEST = 600


class Hosted:
    """A project, the sshd by which its users come to it, and a folder for each of them."""

    def __init__(self, program: str, folder: Path) -> None:
        self.program, self.folder, self.top = program, folder, folder / "srv" / "demo"
        self.env = {name: value for name, value in os.environ.items() if not name.startswith(("GIT_", "AEGIS", "SSH_"))}
        self.env |= {"LC_ALL": "C", "GIT_CONFIG_NOSYSTEM": "1", "GIT_CONFIG_GLOBAL": os.devnull, "HOME": str(folder)}
        self.top.mkdir(parents=True)
        # as it is installed: a package whose modules are compiled
        shutil.copytree(SHARE, folder / "share", ignore=shutil.ignore_patterns("__pycache__"))
        subprocess.run(["/usr/bin/python3", "-m", "compileall", "-q", folder / "share"], check=True)
        self.ae = str(folder / "share" / "ae")
        (folder / "ssh").mkdir()
        self.sshd = Sshd(folder / "ssh")
        self.env["GIT_SSH_COMMAND"] = " ".join(self.sshd.ssh)

    def stop(self) -> None:
        self.sshd.stop()

    def at_host(self, *words: str, given: str = "", user: str = "ann") -> str:
        """A command that is given on the host itself, in the project's folder."""
        env = {**self.env, "AEGIS_USER": user, "AEGIS_PROGRAM": self.program, "AEGIS": self.program}
        done = subprocess.run(words, cwd=self.top, env=env, input=given, capture_output=True, text=True, timeout=LONGEST)
        if done.returncode:
            raise RuntimeError(f"{words}: {done}")
        return done.stdout

    def set_up(self) -> None:
        """A project, the host, and a key for each user, who has all roles. What follows comes by git and ssh."""
        self.at_host(self.program, "-npr", "demo")
        self.let_in()
        for function in ("-nd", "-nrv", "-ni"):
            self.must("ann", f"aegis {function} {' '.join(USERS)}")

    def let_in(self) -> None:
        """The host, and a key for each user of the project that is there."""
        self.init(self.program)
        for user in USERS:
            self.at_host(self.ae, "host", "add", user, given=make_key(self.folder / "ssh" / user))
        self.must("ann", "aegis -pa -f -", SETTINGS)

    def init(self, program: str) -> None:
        """Sets the host up with this program."""
        env = {**self.env, "AEGIS_PROGRAM": program}
        words = [self.ae, "host", "init", "--keys", str(self.folder / "ssh" / "authorized_keys")]
        subprocess.run(words, cwd=self.top, env=env, check=True, capture_output=True)

    def ssh(self, user: str, line: str, given: str = "", *options: str) -> "subprocess.CompletedProcess[str]":
        """A command that a user gives by his key."""
        words = [*self.sshd.ssh, *options, user, *([line] if line else [])]
        return subprocess.run(
            words, cwd=self.folder, env=self.env, input=given, capture_output=True, text=True, errors="replace", timeout=LONGEST
        )

    def must(self, user: str, line: str, given: str = "") -> str:
        """A command that is to be done."""
        done = self.ssh(user, line, given)
        if done.returncode:
            raise RuntimeError(f"{user}: {line}: {done}")
        return done.stdout

    def git(self, own: "str | Path", *words: Any, check: bool = True, input: "str | None" = None) -> "subprocess.CompletedProcess[str]":
        """A command of git in a user's clone."""
        done = subprocess.run(["git", *words], cwd=own, env=self.env, input=input, capture_output=True, text=True, timeout=LONGEST)
        if check and done.returncode:
            raise RuntimeError(f"git {words}: {done.stderr}")
        return done

    def said(self, own: "str | Path", *words: Any) -> str:
        return self.git(own, *words).stdout.strip()

    def clone(self, user: str, name: str = "") -> Path:
        """A clone of a user's own."""
        own = self.folder / (name or f"of.{user}")
        self.git(self.folder, "clone", "-q", f"{user}:aegis.git", own)
        for key, value in (("user.name", user), ("user.email", f"{user}@work"), ("gc.auto", "0")):
            self.git(own, "config", key, value)
        return own

    def commit(self, own: Path, message: str, **files: "str | None") -> None:
        """Commits these files, by paths in which __ stands for / and _ for a dot; one of nothing is removed."""
        write(own, {name.replace("__", "/").replace("_", "."): text for name, text in files.items()})
        self.git(own, "add", "-A")
        self.git(own, "commit", "-q", "-m", message)

    def push(self, own: Path, to: str = "HEAD:refs/for/baseline", *options: str) -> Tuple[int, str]:
        """Pushes, and answers the status and what was said."""
        done = self.git(own, "push", *(word for option in options for word in ("-o", option)), "origin", to, check=False)
        return done.returncode, done.stderr

    def digest(self) -> str:
        """A SHA-256 of all that the project has, but for locks and what the mirror has."""
        found = hashlib.sha256()
        for path in sorted(self.top.joinpath("aegis.d").rglob("*")):
            if path.is_file() and path.name != "lock":
                found.update(f"{path} {path.stat().st_mode}".encode() + path.read_bytes())
        return found.hexdigest()

    def refs(self) -> str:
        return self.said(self.top / "aegis.git", "for-each-ref")


def write(own: Path, files: "Dict[str, str | None]") -> None:
    """Writes files of a working tree, or removes them."""
    for name, text in files.items():
        path = own / name
        if text is None:
            path.unlink()
        else:
            if path.parent.is_file():
                path.parent.unlink()
            path.parent.mkdir(parents=True, exist_ok=True)
            path.write_text(text)
            path.chmod(0o755 if text.startswith("#!") else 0o644)


def digest_of(rows: "List[Tuple[str, bytes | None]]") -> str:
    """The digest of files by the rule of docs/FORMATS.md: a line for each path, in their order."""
    lines = []
    for path, held in sorted(rows):
        lines.append(f"{path} -\n" if held is None else f"{path} {len(held)} {hashlib.sha256(held).hexdigest()}\n")
    return hashlib.sha256("".join(lines).encode()).hexdigest()


def tree_of(repository: Path, commit: str) -> "List[Tuple[str, bytes | None]]":
    """The files of a commit, with their bytes as git has them."""
    said = subprocess.run(["git", "ls-tree", "-r", "-z", commit], cwd=repository, check=True, capture_output=True).stdout
    rows = [row.split(b"\t", 1) for row in said.split(b"\0")[:-1]]
    blobs = [row[0].split()[2].decode() for row in rows]
    return [(row[1].decode(), held) for row, held in zip(rows, blobs_of(repository, blobs))]


def blobs_of(repository: Path, blobs: List[str]) -> List[bytes]:
    """The bytes of blobs."""
    given = "".join(f"{blob}\n" for blob in blobs).encode()
    said = subprocess.run(["git", "cat-file", "--batch"], cwd=repository, input=given, check=True, capture_output=True).stdout
    at, found = 0, []
    for _ in blobs:
        end = said.index(b"\n", at)
        size = int(said[at:end].split()[2])
        found.append(said[end + 1 : end + 1 + size])
        at = end + size + 2
    return found
