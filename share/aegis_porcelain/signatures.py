"""Signatures of files by keys of ssh, made and verified by ssh-keygen."""
from __future__ import annotations

import os
import subprocess
from typing import List

from .failures import Failure
from .output import write_whole

NAMESPACE = "aegis-delta"


def keygen(*asked: str, given: bytes = b"") -> "subprocess.CompletedProcess[bytes]":
    """Runs ssh-keygen, which may ask at the terminal for what opens a key."""
    try:
        return subprocess.run(["ssh-keygen", *asked], input=given, capture_output=True, check=False)
    except FileNotFoundError:
        raise Failure("there is no ssh-keygen: apt install openssh-client") from None


def said_by(found: "subprocess.CompletedProcess[bytes]") -> str:
    """Why ssh-keygen didn't do it."""
    return (found.stderr or found.stdout).decode(errors="replace").strip().replace("\n", "; ")


def sign(path: str, held: bytes, key: str) -> None:
    """Puts the signature of these bytes beside their file, in the place of an older one. What is in the file by then counts for nothing."""
    found = keygen("-Y", "sign", "-q", "-f", key, "-n", NAMESPACE, given=held)
    if found.returncode:
        raise Failure(f"{path} can't be signed: {said_by(found)}")
    write_whole(f"{path}.sig", found.stdout)


def signers_of(path: str, held: bytes, signers: str) -> List[str]:
    """Whose signature of these bytes is beside their file, of those whom the file of allowed signers names; nobody's where none fits."""
    signature = f"{path}.sig"
    if not os.path.exists(signature):
        raise Failure(f"there is no {signature}")
    named = keygen("-Y", "find-principals", "-s", signature, "-f", signers)
    if named.returncode:
        return []
    users = named.stdout.decode(errors="replace").splitlines()
    return [
        user
        for user in users
        if not keygen("-Y", "verify", "-f", signers, "-I", user, "-n", NAMESPACE, "-s", signature, given=held).returncode
    ]
