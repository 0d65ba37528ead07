"""The lines of a file of authorized keys by which users come to a project. Lines of others stay as they are."""
from __future__ import annotations

import base64
import binascii
import os
import re
import stat
from typing import List

from .failures import Failure, Misused
from .output import sync_folder

KINDS = r"ssh-ed25519|ssh-rsa|ecdsa-sha2-nistp(?:256|384|521)|sk-ssh-ed25519@openssh\.com|sk-ecdsa-sha2-nistp256@openssh\.com"
KEY = re.compile(rf"({KINDS}) ([A-Za-z0-9+/]+={{0,2}})(?: [^\n]*)?\n?")
# what stands in a line of authorized keys without quotes of a shell around it
SAFE = re.compile(r"/[A-Za-z0-9._+/-]*")
MOST_KEY = 16_384


def front_of(top: str, command: str, user: str) -> str:
    """How a line of a user begins: his one command, in the project's folder, with nothing of his environment."""
    for path in (top, command):
        if not SAFE.fullmatch(path):
            raise Failure(f"{path} has letters that a line of authorized keys can't have: use another folder")
    given = r"SSH_ORIGINAL_COMMAND=\"$SSH_ORIGINAL_COMMAND\""
    return f'command="cd {top} && exec /usr/bin/env -i {given} {command} serve {user}",restrict '


def key_of(text: str) -> str:
    """The kind and the body of the one public key that a text has, without what else it says."""
    found = KEY.fullmatch(text)
    if not found:
        raise Misused("standard input isn't one public key, as ssh-keygen writes it to a file NAME.pub")
    kind, body = found.groups()
    try:
        held = base64.b64decode(body, validate=True)
    except binascii.Error:
        held = b""
    if not held.startswith(len(kind).to_bytes(4, "big") + kind.encode()):
        raise Misused(f"the key isn't of the kind {kind}")
    return f"{kind} {body}"


def lines_of(path: str) -> List[str]:
    """The lines of the file; none where there is no file."""
    try:
        opened = os.open(path, os.O_RDONLY | os.O_NOFOLLOW | os.O_NONBLOCK | os.O_CLOEXEC)
    except FileNotFoundError:
        return []
    except OSError as error:
        raise Failure(f"{path} can't be read: {error.strerror}") from None
    if not stat.S_ISREG(os.fstat(opened).st_mode):
        os.close(opened)
        raise Failure(f"{path} is no file")
    # nothing but a line end ends a line, as for sshd: what else Python takes for one may stand in the comment of a key
    with open(opened, encoding="utf-8", errors="surrogateescape", newline="") as file:
        lines = file.read().split("\n")
    return lines if lines[-1] else lines[:-1]


def write_lines(path: str, lines: List[str]) -> None:
    """Writes the file anew, whole or not at all, so that nobody else may read or write it."""
    folder = os.path.dirname(path)
    os.makedirs(folder, mode=0o700, exist_ok=True)
    beside = f"{path}.again"
    opened = os.open(beside, os.O_WRONLY | os.O_CREAT | os.O_TRUNC | os.O_NOFOLLOW | os.O_CLOEXEC, 0o600)
    with open(opened, "w", encoding="utf-8", errors="surrogateescape", newline="") as file:
        file.write("".join(f"{line}\n" for line in lines))
        file.flush()
        os.fsync(opened)
    os.replace(beside, path)
    sync_folder(folder)


def add(path: str, front: str, user: str, text: str) -> None:
    """Lets a key in as a user's. One that is in the file already may do there what that line says, so it isn't added."""
    key, lines = key_of(text), lines_of(path)
    body = key.split()[1]
    if any(body in line.split() for line in lines):
        raise Failure(f"this key is in {path} already")
    write_lines(path, [*lines, f"{front}{key} {user}"])


def remove(path: str, front: str, user: str) -> int:
    """Lets no key of a user in any more, wherever `ae` was when it was added, and answers how many there were."""
    lines = lines_of(path)
    begin, end = front[: front.index(" && exec ")], front[front.rindex(" serve ") :]
    kept = [line for line in lines if not (line.startswith(f"{begin} && exec ") and end in line)]
    if len(kept) == len(lines):
        raise Failure(f"{user} has no key in {path}")
    write_lines(path, kept)
    return len(lines) - len(kept)
