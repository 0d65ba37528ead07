"""Pushes beside each other, of which one side or the other is killed at a random moment: what git called done is there, and the rest ends as one change."""
from __future__ import annotations

import contextlib
import os
import random
import signal
import subprocess
import threading
import time
import traceback
from dataclasses import dataclass
from pathlib import Path
from typing import Dict, List, Optional

from changes import first, frozen
from hosted import NUMBER, USERS, Hosted, write
from sshd import below

# what is killed: a process of the user's own machine, or one of the host. Each is known by the words by which it was begun
OWN = ["client", "ssh"]
SIDES = [*OWN, "hook", "program"]
BETWEEN = 0.005
TRIES = 200
AT_WORK = "push it again once that has ended"


@dataclass
class One:
    """A push, and what became of it."""

    user: str
    name: str
    side: str = ""  # what is killed; nothing where it isn't
    commit: str = ""
    digest: str = ""
    number: int = 0
    was_done: bool = False


def words_of(process: int) -> List[str]:
    with contextlib.suppress(OSError):
        return Path("/proc", str(process), "cmdline").read_bytes().decode(errors="replace").split("\0")[:-1] or [""]
    return [""]


def is_of(process: int, user: str) -> bool:
    """Whether a process of the host is a user's."""
    with contextlib.suppress(OSError):
        return f"AEGIS_USER={user}".encode() in Path("/proc", str(process), "environ").read_bytes().split(b"\0")
    return False


class Kills:
    """Users who push, each one commit after another."""

    def __init__(self, hosted: Hosted, count: int, seed: int) -> None:
        self.hosted, self.seed = hosted, seed
        self.clones = {user: hosted.clone(user) for user in USERS}
        self.pushes = [One(USERS[at % len(USERS)], f"k{at}") for at in range(count)]
        self.killed: Dict[str, int] = {}
        self.again = 0
        self.usual = 1.0  # how long a push takes that isn't killed
        chance = random.Random(seed)
        for at, one in enumerate(chance.sample(self.pushes, count // 3)):
            one.side = SIDES[at % len(SIDES)]
        self.lock = threading.Lock()
        self.wrong: List[str] = []

    def done(self) -> None:
        threads = [threading.Thread(target=self.pushes_of, args=(user,)) for user in USERS]
        for thread in threads:
            thread.start()
        for thread in threads:
            thread.join()
        if self.wrong:
            raise RuntimeError("\n".join(self.wrong))

    def pushes_of(self, user: str) -> None:
        chance = random.Random(f"{self.seed} {user}")
        try:
            for one in self.pushes:
                if one.user == user and not self.wrong:
                    self.push(one, chance)
        except Exception:
            self.wrong.append(f"{user}: {traceback.format_exc()}")

    def push(self, one: One, chance: random.Random) -> None:
        """Pushes, in a third of all cases with a kill, and again until git calls it done."""
        own = self.clones[one.user]
        self.hosted.git(own, "checkout", "-q", "-f", "--detach", "origin/baseline")
        write(own, {f"{one.user}/{one.name}": f"{one.name}\n", f"test/{one.name}.sh": f"test -e {one.user}/{one.name}\n"})
        self.hosted.git(own, "add", "-A")
        self.hosted.git(own, "commit", "-q", "-m", one.name)
        one.commit = self.hosted.said(own, "rev-parse", "HEAD")
        one.digest = frozen(self.hosted, own, "origin/baseline", one.commit)
        began = time.monotonic()
        status, said = self.pushed(one, one.side, chance.random() * self.usual)
        if not one.side:
            self.usual = time.monotonic() - began
        one.was_done = status == 0
        for _ in range(TRIES):
            if status == 0:
                break
            if AT_WORK in said:
                time.sleep(0.2)
            elif not one.side:
                raise RuntimeError(f"{one} was refused: {said}")
            self.again += 1
            status, said = self.pushed(one, "", 0)
        found = NUMBER.search(said)
        if status or not found:
            raise RuntimeError(f"{one} isn't done: {said}")
        one.number = int(found[1])

    def pushed(self, one: One, side: str, wait: float) -> "tuple[int, str]":
        """A push, one of whose processes is killed after a time, or once it is there."""
        words = ["git", "push", "origin", "HEAD:refs/for/baseline"]
        env = self.hosted.env
        process = subprocess.Popen(words, cwd=self.clones[one.user], env=env, stderr=subprocess.PIPE, text=True, errors="replace")
        killer = threading.Thread(target=self.kill, args=(process, one.user, side, wait)) if side else None
        if killer:
            killer.start()
        _, said = process.communicate()
        if killer:
            killer.join()
        return process.returncode, said

    def kill(self, process: "subprocess.Popen[str]", user: str, side: str, wait: float) -> None:
        time.sleep(wait)
        while process.poll() is None:
            found = self.one_of(process.pid, user, side)
            if found is not None:
                with contextlib.suppress(ProcessLookupError):
                    os.kill(found, signal.SIGKILL)
                    with self.lock:
                        self.killed[side] = self.killed.get(side, 0) + 1
                    return
            time.sleep(BETWEEN)

    def one_of(self, client: int, user: str, side: str) -> Optional[int]:
        """The process of a side of a user's push, where it is there now."""
        if side in OWN:
            found = [process for process in sorted({client, *below(client)}) if self.is_side(process, side)]
        else:
            there = sorted(below(self.hosted.sshd.process.pid))
            found = [process for process in there if self.is_side(process, side) and is_of(process, user)]
        return found[0] if found else None

    def is_side(self, process: int, side: str) -> bool:
        words = words_of(process)
        if side == "client":
            return words[:2] == ["git", "push"]
        if side == "ssh":
            return words[0] == "ssh"
        return words[-2:] == ["host", "receive"] if side == "hook" else words[0] == self.hosted.program


def look(hosted: Hosted, kills: Kills) -> None:
    """Each push is one change, whose frozen bytes are just those that were pushed."""
    rows = [line.split(" ", 2) for line in hosted.at_host(hosted.program, "-l", "pc").splitlines()]
    briefs = [row[-1].split()[-1] for row in rows]
    several = sorted({one.name for one in kills.pushes if briefs.count(one.name) != 1})
    if several:
        raise RuntimeError(f"these are no change, or more than one: {several}: {rows}")
    for one in kills.pushes:
        said = hosted.ssh(one.user, f"aediff {one.number}").stdout.splitlines()[-1]
        if said != f"aediff: change {one.number}: digest {one.digest}":
            raise RuntimeError(f"{one} is frozen as {said}")
    if len(rows) != len(kills.pushes) + 1 or sum("being_reviewed" in row for row in rows) != len(kills.pushes):
        raise RuntimeError(f"{rows}")
    left = hosted.said(hosted.top / "aegis.git", "for-each-ref", "refs/aegis/begun")
    if left:
        raise RuntimeError(f"begun and not ended: {left}")


def try_kills(program: str, folder: Path, count: int, seed: int) -> str:
    """So many pushes, and what is to be said of them."""
    hosted = Hosted(program, folder)
    try:
        hosted.set_up()
        first(hosted)
        kills = Kills(hosted, count, seed)
        kills.done()
        look(hosted, kills)
    finally:
        hosted.stop()
    killed = ", ".join(f"{number} {side}" for side, number in sorted(kills.killed.items()))
    done = sum(one.was_done for one in kills.pushes)
    return f"{count} pushes, {sum(kills.killed.values())} killed: {killed}; {done} done at once, {kills.again} again, one change each"
