"""An sshd of a test's own: on the loopback address, at a free port, with a configuration and keys in a folder, and for its caller's account."""
from __future__ import annotations

import contextlib
import os
import pwd
import shutil
import signal
import socket
import subprocess
import time
from pathlib import Path
from typing import List

PROGRAM = "/usr/sbin/sshd"
# what sshd asks for where it is begun by root; its package makes that as the service is started
SEPARATION = Path("/run/sshd")
TRIES = 5
SERVER = """Port {port}
ListenAddress 127.0.0.1
HostKey {folder}/host
AuthorizedKeysFile {keys}
PidFile none
StrictModes {strict}
UsePAM {pam}
PubkeyAuthentication yes
PasswordAuthentication no
KbdInteractiveAuthentication no
PermitRootLogin forced-commands-only
MaxStartups 200
# far more comes from a caller than Debian's server takes, and its doors are open
AcceptEnv AEGIS* GIT_* PYTHON* LANG LC_* PATH HOME LOGNAME USER ENV XDG_*
AllowTcpForwarding yes
AllowStreamLocalForwarding yes
AllowAgentForwarding yes
PermitTunnel yes
X11Forwarding yes
PermitTTY yes
Subsystem sftp internal-sftp
"""
CLIENT = """Host *
HostName 127.0.0.1
Port {port}
User {account}
UserKnownHostsFile {folder}/known_hosts
StrictHostKeyChecking yes
IdentitiesOnly yes
IdentityFile {folder}/%n
BatchMode yes
LogLevel ERROR
"""


def why_not() -> str:
    """Why there can be no sshd here; nothing where there can."""
    if not os.access(PROGRAM, os.X_OK):
        return "openssh-server isn't installed"
    for tool in ("ssh", "ssh-keygen", "git"):
        if shutil.which(tool) is None:
            return f"there is no {tool}"
    return ""


def free_port() -> int:
    with socket.socket() as found:
        found.bind(("127.0.0.1", 0))
        return int(found.getsockname()[1])


def make_key(path: Path) -> str:
    """Makes a key, and answers its public line."""
    subprocess.run(["ssh-keygen", "-q", "-t", "ed25519", "-N", "", "-C", path.name, "-f", path], check=True)
    return path.with_name(f"{path.name}.pub").read_text()


class Sshd:
    """A server that is there until it is stopped. Who has the key of the name NAME comes to it by `ssh NAME`."""

    def __init__(self, folder: Path, keys: str = "", uses_pam: bool = False) -> None:
        self.folder, self.made = folder, False
        pam = "yes" if uses_pam else "no"
        self.says = {"keys": keys or f"{folder}/authorized_keys", "strict": "yes" if keys else "no", "pam": pam}
        self.account = pwd.getpwuid(os.geteuid()).pw_name
        self.host_key = make_key(folder / "host")
        if os.geteuid() == 0 and not SEPARATION.exists():
            SEPARATION.mkdir(mode=0o755)
            self.made = True
        self.start()

    def start(self) -> None:
        for _ in range(TRIES):
            self.port = free_port()
            names = {**self.says, "port": self.port, "folder": self.folder, "account": self.account}
            (self.folder / "server").write_text(SERVER.format(**names))
            (self.folder / "client").write_text(CLIENT.format(**names))
            kind, key = self.host_key.split()[:2]
            (self.folder / "known_hosts").write_text(f"[127.0.0.1]:{self.port} {kind} {key}\n")
            with open(self.folder / "log", "ab") as log:
                self.process = subprocess.Popen([PROGRAM, "-D", "-e", "-f", self.folder / "server"], stdin=subprocess.DEVNULL, stderr=log)
            if self.answers():
                return
        raise RuntimeError((self.folder / "log").read_text())

    def answers(self) -> bool:
        """Whether it is there. One that has ended, as its port was taken meanwhile, isn't."""
        for _ in range(200):
            if self.process.poll() is not None:
                return False
            with contextlib.suppress(OSError), socket.create_connection(("127.0.0.1", self.port), 1):
                return True
            time.sleep(0.05)
        return False

    @property
    def ssh(self) -> List[str]:
        """The words by which a client comes to it."""
        return ["ssh", "-F", str(self.folder / "client")]

    def stop(self) -> None:
        """Ends it, and what it began."""
        for process in sorted(below(self.process.pid), reverse=True):
            with contextlib.suppress(ProcessLookupError):
                os.kill(process, signal.SIGKILL)
        self.process.kill()
        self.process.wait()
        if self.made:
            with contextlib.suppress(OSError):
                SEPARATION.rmdir()


def parents() -> "dict[int, int]":
    """The process that began each process."""
    found = {}
    for name in os.listdir("/proc"):
        if name.isdigit():
            with contextlib.suppress(OSError):
                stat = Path("/proc", name, "stat").read_bytes()
                found[int(name)] = int(stat[stat.rindex(b")") + 2 :].split()[1])
    return found


def below(process: int) -> "set[int]":
    """All processes that a process began, and those that they began."""
    of, found = parents(), {process}
    while True:
        more = {child for child, parent in of.items() if parent in found} - found
        if not more:
            return found - {process}
        found |= more
