"""ae host: makes this machine the one to which a team comes by git and ssh. Each key is a user, and gives his commands alone."""
from __future__ import annotations

import argparse
import os
import pwd
import shutil
import subprocess
import sys

from . import git, keys, place
from .failures import Failure, Misused
from .folders import MIRROR, mirror_of
from .hosting import bring_up, host_of, locked
from .mirror import FOLDERS
from .place import Place
from .program import program, script
from .records import USER
from .store import opened

MOST_PUSHED = 134_217_728
SETTINGS = {
    "receive.fsckObjects": "true",
    "receive.maxInputSize": str(MOST_PUSHED),
    "receive.denyDeletes": "true",
    "receive.advertisePushOptions": "true",
    "receive.procReceiveRefs": "refs/for",
    "transfer.hideRefs": "refs/aegis",
    "core.fsync": "committed",
}
REFUSES = "$1 is written by the host alone; push to refs/for/baseline, or to refs/for/branch/NAME"
UPDATE = f"""#!/bin/sh
echo "{REFUSES}" >&2
exit 1
"""
# git's own way to another command; its folder is in the project's
RECEIVE = """#!/bin/sh
exec {} host receive
"""
BUILDER = "build"


def words(parser: argparse.ArgumentParser) -> None:
    actions = parser.add_subparsers(metavar="ACTION", dest="action", required=True)
    says = f"make the repository {MIRROR} beside aegis.d, or set it up again"
    init = actions.add_parser("init", help=says, description=says, allow_abbrev=False)
    init.add_argument("--keys", metavar="FILE", help="the account's file of authorized keys, where it isn't ~/.ssh/authorized_keys")
    says = "what the repository's hook calls, and nobody types"
    actions.add_parser("receive", help=says, description=says, allow_abbrev=False)
    for name, says in (
        ("add", "let the public key on standard input in, as this user's"),
        ("remove", "let no key of this user in any more"),
    ):
        action = actions.add_parser(name, help=says, description=says, allow_abbrev=False)
        action.add_argument("user", metavar="USER", help="a user of the project")


def run(asked: argparse.Namespace) -> int:
    where = Place(place.find().top)
    if asked.action == "init":
        init(where, asked.keys)
        return 0
    if asked.action == "receive":
        from . import receive

        return receive.receive()
    if not USER.fullmatch(asked.user):
        raise Misused(f'"{asked.user}" is no name of a user')
    host = host_of(where)
    if not host.keys:
        raise Failure(f"{host.mirror} isn't set up: ae host init")
    front = keys.front_of(where.top, command(), asked.user)
    with locked(host.mirror):
        if asked.action == "add":
            keys.add(host.keys, front, asked.user, sys.stdin.read(keys.MOST_KEY))
            print(f"{asked.user}: key added to {host.keys}")
        else:
            count = keys.remove(host.keys, front, asked.user)
            print(f"{asked.user}: {count} {'key' if count == 1 else 'keys'} removed from {host.keys}")
    return 0


def command() -> str:
    """`ae` by its whole path."""
    found = script("ae")
    return found if os.path.isabs(found) else shutil.which(found) or found


def init(where: Place, file: str | None) -> None:
    """Makes the mirror of the project, with its settings and hooks. Where it is there, all is set anew."""
    mirror = mirror_of(where.top)
    keys.front_of(where.top, command(), "user")
    made = shutil.which(program())
    if not made:
        raise Failure(f"{program()} isn't there")
    if os.path.islink(mirror):
        raise Failure(f"{mirror} is a link")
    account = pwd.getpwuid(os.geteuid())
    file = os.path.abspath(file) if file else os.path.join(account.pw_dir, ".ssh", "authorized_keys")
    with opened(where) as store:
        git.prepare(mirror, store.project.name)
    os.chmod(mirror, 0o700)
    made = os.path.abspath(made)
    shell = shell_that_builds(made)
    own = {"aegis.program": made, "aegis.keys": file, "aegis.shell": shell}
    for name, value in {**SETTINGS, **own}.items():
        git.git("--git-dir", mirror, "config", name, value)
    write_hook(mirror, "update", UPDATE)
    write_hook(mirror, "proc-receive", RECEIVE.format(command()))
    bring_up(where, mirror)
    print(f"{mirror}: ae host add USER < KEY.pub lets a key in", flush=True)
    if not shell:
        warn(account.pw_name)


def write_hook(mirror: str, name: str, text: str) -> None:
    """Writes a hook, whole or not at all."""
    folder = os.path.join(mirror, "hooks")
    os.makedirs(folder, exist_ok=True)
    beside = os.path.join(folder, f"{name}.again")
    with open(beside, "w", encoding="ascii") as file:
        file.write(text)
        os.fchmod(file.fileno(), 0o755)
    os.replace(beside, os.path.join(folder, name))


def shell_that_builds(made: str) -> str:
    """The folder whose `sh` runs builds as an account of their own, where this account may do that without being root."""
    folder = os.path.join(os.path.dirname(os.path.dirname(made)), "lib", "aegis", "shell")
    if os.geteuid() == 0 or not os.access(os.path.join(folder, "sh"), os.X_OK):
        return ""
    words = ["sudo", "-n", "-u", BUILDER, "--", "/bin/sh", "-c", ":"]
    try:
        done = subprocess.run(words, env={"PATH": FOLDERS}, stdin=subprocess.DEVNULL, capture_output=True, check=False)
    except OSError:
        return ""
    return folder if done.returncode == 0 else ""


def warn(account: str) -> None:
    """Says what isn't kept out where builds have no account of their own."""
    print(
        f"ae: what is pushed is built and tested as {account}, and so may read the keys and write the project's records;\n"
        "ae: chapter 19 of the GUIDE gives builds an account of their own; give ae host init again after that",
        file=sys.stderr,
    )
