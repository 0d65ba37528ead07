"""What a key of a developer doesn't open: pushes, words and whole connections, each answered by a line, after which nothing is otherwise."""
from __future__ import annotations

import contextlib
import importlib
import random
import socket
import subprocess
import sys
import time
from concurrent.futures import ThreadPoolExecutor
from pathlib import Path
from typing import Any, List, Tuple

from hosted import Hosted
from sshd import free_port

PORCELAIN = Path(__file__).resolve().parent.parent / "porcelain"
LINES = ("ae: ", "aegis: ")
# what a caller sends: by variables of his own, and, of those that he needs, by words
FORGED = {"AEGIS_USER": "ann", "AEGIS_PROGRAM": "/bin/true", "AEGIS": "/bin/true", "AEGIS_WAIT": "0", "AEGIS_RUNS": "none"}
FORGED |= {
    "GIT_DIR": "/nonexistent",
    "GIT_EXEC_PATH": "/nonexistent",
    "GIT_PROTOCOL": "version=9",
    "LANG": "x",
    "PYTHONPATH": "/nonexistent",
}
FORGED |= {"GIT_CONFIG_PARAMETERS": "'receive.denyDeletes'='false'"}
SET = "SetEnv=PATH=/nonexistent HOME=/nonexistent LOGNAME=ann USER=ann ENV=/nonexistent XDG_CACHE_HOME=/nonexistent"
# words that a shell would take apart, or that go on after a command that is let through
MORE = [
    "aegis -l pc\nid",
    "aegis -l pc;id",
    "aegis -l pc&&id",
    "aegis -l pc|id",
    "aegis -l pc >x",
    "aegis -l $(id)",
    "aegis -l `id`",
    "aegis -na bob",
]
MORE += [
    "git-upload-pack aegis.git;id",
    "git-upload-pack 'aegis.git' && id",
    "git-receive-pack aegis.git\nid",
    "git upload-pack --upload-pack=id aegis.git",
]
MORE += [
    "git-upload-archive 'aegis.git'",
    "git-receive-pack '/etc'",
    "git-receive-pack ../demo/aegis.git",
    "scp -f aegis.d/store/project",
    "cat aegis.d/store/project",
]


def module(name: str) -> Any:
    """A module of tests/porcelain, whose lists are tried here by the real ssh."""
    if str(PORCELAIN) not in sys.path:
        sys.path.insert(0, str(PORCELAIN))
    return importlib.import_module(name)


class Hostile:
    """A project whose every byte is to stay, and bob, who has a key."""

    def __init__(self, hosted: Hosted) -> None:
        self.hosted = hosted
        self.count = {"pushes": 0, "words": 0, "connections": 0}
        self.now = self.state()

    def state(self) -> Tuple[str, str]:
        return self.hosted.digest(), self.hosted.refs()

    def unchanged(self, what: object) -> None:
        if self.state() != self.now:
            raise RuntimeError(f"{what} changed something")

    # ---- words

    def words(self, lines: List[str]) -> None:
        """Each is answered by a line, from a connection of its own, with an environment that says who he is and what is to run."""
        options = ["-o", SET, *(word for name in FORGED for word in ("-o", f"SendEnv={name}"))]
        with ThreadPoolExecutor(4) as several:
            found = list(several.map(lambda line: self.given(line, options), lines))
        for line, done in zip(lines, found):
            if done.returncode == 0 or done.stdout or done.stderr.count("\n") != 1 or not done.stderr.startswith(LINES):
                raise RuntimeError(f"{line!r} is answered by {done}")
        self.count["words"] += len(lines)
        self.unchanged("one of the words")

    def given(self, line: str, options: List[str]) -> "subprocess.CompletedProcess[str]":
        words = [*self.hosted.sshd.ssh, *options, "bob", line]
        env = {**self.hosted.env, **FORGED}
        return subprocess.run(
            words, cwd=self.hosted.folder, env=env, input="as ann\ndo -na bob\n", capture_output=True, text=True, errors="replace"
        )

    # ---- connections

    def connections(self) -> None:
        """What else sshd opens to whom has a whole account."""
        ssh, port = self.hosted.sshd.ssh, str(self.hosted.sshd.port)
        key = str(self.hosted.folder / "ssh" / "bob")
        tries = [
            (["bob"], "there is no shell"),
            (["-tt", "bob"], "PTY allocation request failed"),
            (["-tt", "bob", "sh"], "PTY allocation request failed"),
            # what a subsystem says on standard error isn't handed on by sshd
            (["-s", "bob", "sftp"], ""),
            (["-s", "bob", "other"], "subsystem request failed"),
            (["-W", f"127.0.0.1:{port}", "bob"], "stdio forwarding failed"),
            (["-o", "ExitOnForwardFailure=yes", "-N", "-R", f"{free_port()}:127.0.0.1:{port}", "bob"], "remote port forwarding failed"),
            (
                ["-o", "ExitOnForwardFailure=yes", "-N", "-R", f"{self.hosted.folder}/x:127.0.0.1:{port}", "bob"],
                "remote port forwarding failed",
            ),
            (["-A", "-i", key, "bob", "env"], "there is no shell"),
            (["-l", "nobody", "bob", "aegis -l pc"], "Permission denied"),
            (["-i", f"{key}.none", "other", "aegis -l pc"], "Permission denied"),
        ]
        for words, wanted in tries:
            done = self.run([*ssh, *words])
            if done.returncode == 0 or wanted not in done.stdout + done.stderr:
                raise RuntimeError(f"{words} is answered by {done}")
        self.sftp_and_scp()
        self.forwarded()
        self.second()
        self.count["connections"] += len(tries) + 5
        self.unchanged("a connection")

    def run(self, words: List[str], given: str = "") -> "subprocess.CompletedProcess[str]":
        return subprocess.run(words, cwd=self.hosted.folder, env=self.hosted.env, input=given, capture_output=True, text=True, timeout=60)

    def sftp_and_scp(self) -> None:
        options = self.hosted.sshd.ssh[1:]
        for words in (
            ["sftp", *options, "-b", "-", "bob"],
            ["scp", *options, "bob:aegis.d/store/project", "got"],
            ["scp", "-O", *options, "client", "bob:x"],
        ):
            done = self.run(words, "ls\n")
            if done.returncode == 0 or (self.hosted.folder / "got").exists():
                raise RuntimeError(f"{words} is answered by {done}")

    def forwarded(self) -> None:
        """A port of the user's machine leads nowhere, while the connection is there."""
        port = free_port()
        words = [
            *self.hosted.sshd.ssh,
            "-N",
            "-L",
            f"127.0.0.1:{port}:127.0.0.1:{self.hosted.sshd.port}",
            "-D",
            f"127.0.0.1:{free_port()}",
            "bob",
        ]
        process = subprocess.Popen(words, env=self.hosted.env, stdin=subprocess.DEVNULL, stderr=subprocess.DEVNULL)
        try:
            said = b"?"
            for _ in range(200):
                with contextlib.suppress(OSError), socket.create_connection(("127.0.0.1", port), 5) as found:
                    found.settimeout(10)
                    said = found.recv(10)
                    break
                time.sleep(0.05)
        finally:
            process.kill()
            process.wait()
        if said:
            raise RuntimeError(f"a forwarded port says {said!r}")

    def second(self) -> None:
        """More commands over a connection that is there: each is answered as the first one."""
        way = ["-o", f"ControlPath={self.hosted.folder}/way"]
        master = subprocess.Popen(
            [*self.hosted.sshd.ssh, *way, "-M", "-N", "bob"], env=self.hosted.env, stdin=subprocess.DEVNULL, stderr=subprocess.DEVNULL
        )
        try:
            for _ in range(200):
                if (self.hosted.folder / "way").exists():
                    break
                time.sleep(0.05)
            for line, wanted in (
                ("aegis -na bob", "aegis: 6: you are not an administrator"),
                ("sh", "ae: there is no shell"),
                ("", "ae: there is no shell"),
            ):
                done = self.run([*self.hosted.sshd.ssh, *way, "bob", *([line] if line else [])])
                if done.returncode == 0 or not done.stderr.startswith(wanted):
                    raise RuntimeError(f"{line!r}, over a connection that is there, is answered by {done}")
        finally:
            master.kill()
            master.wait()

    # ---- pushes

    def pushes(self, most: int, chance: random.Random) -> None:
        """Those of tests/porcelain, over the real ssh; where there are to be fewer, some of them."""
        bob = self.hosted.clone("bob")
        cases = list(module("test_push").hostile(self.hosted, bob))
        for name, make, to, said in cases if most >= len(cases) else chance.sample(cases, most):
            self.hosted.git(bob, "checkout", "-q", "-f", "--detach", "origin/baseline")
            self.hosted.git(bob, "clean", "-q", "-f", "-d")
            make()
            status, answer = self.hosted.push(bob, to)
            if status == 0 or said not in answer or "Traceback" in answer:
                raise RuntimeError(f"{name} is answered by {answer}")
            self.count["pushes"] += 1
            self.unchanged(name)


def try_hostile(program: str, folder: Path, count: int, seed: int) -> str:
    """At least so many pushes and words, and what is to be said of them."""
    chance, hosted = random.Random(seed), Hosted(program, folder)
    try:
        hosted.at_host(program, "-scr", given="\n".join(module("conftest").lines_of_two_deltas()) + "\n")
        hosted.let_in()
        hostile = Hostile(hosted)
        words = list(dict.fromkeys(MORE + module("test_serve").HOSTILE))
        hostile.words([line for line in (words if count >= len(words) else chance.sample(words, count)) if line.strip()])
        hostile.connections()
        hostile.pushes(count, chance)
    finally:
        hosted.stop()
    told = ", ".join(f"{number} {what}" for what, number in hostile.count.items())
    return f"hostile {told}: each is answered, and nothing is changed"
