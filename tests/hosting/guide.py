"""Follows the GUIDE's chapter on a team on several machines, as it stands there: root at the host, and each user where he works."""
from __future__ import annotations

import contextlib
import grp
import os
import pwd
import re
import shutil
import signal
import subprocess
import tempfile
import time
from pathlib import Path
from typing import Dict, List, Tuple

from sshd import Sshd

TOP = Path(__file__).resolve().parent.parent.parent
CHAPTER = "\n## 21. "
ACCOUNTS, GROUP = ["aegis", "build"], "work"
RULES = "/etc/sudoers.d/aegis"
STEP = re.compile(r"(host#|[a-z]+\$) (.*)")
# where a user's commands find the server of the test
SSH = """#!/bin/sh
exec /usr/bin/ssh -F {folder}/client -o IdentityFile="$HOME/.ssh/id_ed25519" "$@"
"""
CLIENT = """Host host
HostName 127.0.0.1
Port {port}
UserKnownHostsFile {folder}/known_hosts
StrictHostKeyChecking yes
IdentitiesOnly yes
BatchMode yes
LogLevel ERROR
"""


def why_not() -> str:
    """Why it can't be followed here; nothing where it can."""
    if os.geteuid() != 0:
        return "that is for root alone"
    for tool in ("useradd", "userdel", "groupadd", "su", "sudo", "make"):
        if shutil.which(tool) is None:
            return f"there is no {tool}"
    taken = [name for name in [*ACCOUNTS, GROUP] if is_there(name)] + [path for path in (RULES, "/home/aegis") if os.path.lexists(path)]
    return f"this machine has {' '.join(taken)}" if taken else ""


def is_there(name: str) -> bool:
    """Whether the machine has such an account or group."""
    return any(look(name) for look in (account_of, group_of))


def account_of(name: str) -> bool:
    with contextlib.suppress(KeyError):
        return pwd.getpwnam(name).pw_uid >= 0
    return False


def group_of(name: str) -> bool:
    with contextlib.suppress(KeyError):
        return grp.getgrnam(name).gr_gid >= 0
    return False


def end_all(name: str) -> None:
    """Ends what an account still runs."""
    number = pwd.getpwnam(name).pw_uid
    for process in filter(str.isdigit, os.listdir("/proc")):
        with contextlib.suppress(OSError):
            if os.stat(f"/proc/{process}").st_uid == number:
                os.kill(int(process), signal.SIGKILL)


def steps_of(text: str) -> List[Tuple[str, str, str]]:
    """Who gives which command in the chapter, and what it prints."""
    chapter = text[text.index(CHAPTER) + 1 :].split("\n## ")[0]
    found: List[Tuple[str, str, str]] = []
    for line in re.findall(r"^    (.*)$", chapter, re.M):
        begins = STEP.match(line)
        if begins:
            found.append((begins[1].rstrip("$#"), begins[2], ""))
        elif found:
            who, words, printed = found.pop()
            found.append((who, words, f"{printed}{line}\n"))
    return found


def plain(text: str) -> str:
    """What is printed, without blanks at the ends of lines, which git adds to those of the other side."""
    return "".join(f"{line.rstrip()}\n" for line in text.splitlines())


class Guide:
    """The host is this machine, and the users' machines are folders."""

    def __init__(self, program: str, folder: Path) -> None:
        self.program, self.folder = program, folder
        self.prefix, self.top = (Path(tempfile.mkdtemp(prefix="aegis.", dir=place)) for place in ("/opt", "/srv"))
        for place in (self.prefix, self.top):
            place.chmod(0o755)
        words = ["make", "-s", "install-built", "install-account", f"PREFIX={self.prefix}", f"PROGRAM={program}"]
        subprocess.run(words, cwd=TOP, check=True, capture_output=True)
        (folder / "ssh").mkdir()
        self.sshd = Sshd(folder / "ssh", keys=".ssh/authorized_keys", uses_pam=True)
        (folder / "bin").mkdir()
        (folder / "bin" / "ssh").write_text(SSH.format(folder=folder))
        (folder / "bin" / "ssh").chmod(0o755)
        (folder / "client").write_text(CLIENT.format(port=self.sshd.port, folder=self.sshd.folder))

    def home(self, who: str) -> Path:
        """The folder of a user's machine; all that he is sent, lies there."""
        found = self.folder / f"of.{who}"
        found.mkdir(exist_ok=True)
        return found

    def environment(self, who: str) -> Dict[str, str]:
        path = f"{self.folder}/bin:{self.prefix}/bin:/usr/bin:/bin" if who != "host" else f"{self.prefix}/bin:/usr/sbin:/usr/bin:/sbin:/bin"
        return {"PATH": path, "HOME": str(self.home(who)), "LC_ALL": "C", "GIT_CONFIG_NOSYSTEM": "1", "USER": who, "LOGNAME": who}

    def prints(self, who: str, words: str) -> str:
        """What a command prints, on both streams."""
        if who == "host":
            for key in self.folder.glob("of.*/.ssh/id_ed25519.pub"):
                shutil.copy(key, self.home("host") / f"{key.parent.parent.name.removeprefix('of.')}.pub")
        place = self.home(who)
        own = place / "hello" if (place / "hello").is_dir() else place
        words = words.replace("/srv/hello", str(self.top / "hello"))
        words = re.sub(r"^apt install .*", ":", words).replace("/usr/local", str(self.prefix))
        done = subprocess.run(
            ["sh", "-c", f"exec 2>&1\n{words}"], cwd=own, env=self.environment(who), stdin=subprocess.DEVNULL, capture_output=True
        )
        return done.stdout.decode(errors="replace").replace(str(self.top / "hello"), "/srv/hello")

    def stop(self) -> None:
        """Takes away the accounts and all that was made."""
        self.sshd.stop()
        for name in filter(account_of, ACCOUNTS):
            for _ in range(50):
                end_all(name)
                if subprocess.run(["userdel", "--remove", name], capture_output=True, check=False).returncode in (0, 12):
                    break
                time.sleep(0.1)
        for name in filter(group_of, [*ACCOUNTS, GROUP]):
            subprocess.run(["groupdel", name], capture_output=True, check=False)
        if os.path.lexists(RULES):
            os.remove(RULES)
        for place in (self.prefix, self.top):
            shutil.rmtree(place, ignore_errors=True)


def look_at_builds(guide: Guide) -> int:
    """What bob's build tries at the host, as the account that builds: it reads and writes neither keys nor records. Answers how much it tried."""
    home, mirror = pwd.getpwnam(ACCOUNTS[0]).pw_dir, guide.top / "hello" / "aegis.git"
    files = ["../store/project", "../lock", "../store/x", "../x", "../../x", f"{home}/.ssh/authorized_keys", f"{home}/x"]
    files += [f"{mirror}/config", f"{mirror}/hooks/x"]
    tries = [f"echo x >>{file}" for file in files] + [f"cat {file}" for file in files if not file.endswith("/x")]
    tries += [f"ls {name}" for name in ("..", str(mirror))]
    tries = [f"({words}) 2>&1 | grep -c 'ermission denied'" for words in tries]
    conf = f'build_command = "{"; ".join(tries)}";\ntest_command = "sh ${{file_name}}";\n'
    (guide.home("bob") / "hello" / "aegis.conf").write_text(conf)
    said = guide.prints("bob", "git commit -q -a --amend --no-edit && git push -q -o change=11 origin HEAD:refs/for/baseline")
    log = guide.prints("bob", "ssh aegis@host aelog develop.11").split("== ")
    answers = [part.split("\n", 1)[1].split() for part in log if "ermission denied" in part.split("\n", 1)[0]]
    if not answers or answers[-1] != ["1"] * len(tries):
        raise RuntimeError(f"a build tried {tries}: {answers}, {said}")
    there = [guide.top / "hello" / "aegis.d" / "develop.11" / name for name in files]
    if any(path.exists() if path.name == "x" else path.read_bytes().endswith(b"\nx\n") for path in there):
        raise RuntimeError(f"a build wrote one of {there}")
    return len(tries)


def try_guide(program: str, folder: Path, count: int, seed: int) -> str:
    """All steps, and what is to be said of them. What they print is what the chapter says."""
    why = why_not()
    if why:
        return f"0 steps of the guide: {why}"
    guide = Guide(program, folder)
    try:
        steps = steps_of((TOP / "docs" / "GUIDE.md").read_text(encoding="utf-8"))
        for who, words, wanted in steps:
            said = plain(guide.prints(who, words))
            if said != plain(wanted):
                raise RuntimeError(f"{who}: {words}\nprints\n{said}\nand not\n{wanted}")
        tried = look_at_builds(guide)
    finally:
        guide.stop()
    if not steps:
        raise RuntimeError("the chapter has no step")
    return f"{len(steps)} steps of the guide: each prints what it says, and a build that tries {tried} things is kept from them"
