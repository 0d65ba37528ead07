"""ae serve USER: the one command that a key of USER may give by ssh. It lets git talk to the mirror, and a list of words through.

There is no shell, no path, and no variable of the caller: what runs has an environment that is made here.
"""
from __future__ import annotations

import contextlib
import os
import re
import subprocess
import sys
from typing import IO, TYPE_CHECKING, Dict, Iterable, Iterator, List, NoReturn, Union

from . import place
from .failures import Failure, Misused
from .git_names import kept_by_git
from .hosting import Host, bring_up, host_of
from .let_through import GITS, Call, read
from .program import script
from .records import USER

if TYPE_CHECKING:
    import argparse

MOST_GIVEN = 65_537
LONGEST_LINE = 131_072
AT_ONCE = 65_536
MOST_CHANGE_SET = 68_157_440
ROW_OF_SET = re.compile(rb"^(?:create|modify) [a-z]+ (\S+) [0-9]+$", re.M)


def words(parser: argparse.ArgumentParser) -> None:
    parser.add_argument("user", metavar="USER", help="whose key it is")


def run(asked: argparse.Namespace) -> int:
    return serve(asked.user)


def serve(user: str) -> int:
    """Gives the command that a key of the user asks for."""
    if not USER.fullmatch(user):
        raise Misused(f'"{user}" is no name of a user')
    where = place.find()
    os.chdir(where.top)
    call = read(words_of(os.environ.get("SSH_ORIGINAL_COMMAND", "")))
    host = host_of(where)
    environment = host.environment(user)
    # the account that builds writes where this one does, by their group
    os.umask(0o002 if host.shell else 0o022)
    if call.tool in GITS:
        bring_up(where, host.mirror)
        replace_by(["git", GITS[call.tool], host.mirror], environment)
    if call.tool == "aelog":
        show_log(host, call)
        return 0
    return give(host, call, environment)


def words_of(line: str) -> List[str]:
    """The words of the line that a caller sent. Quotes hold a word together; nothing else in it has a meaning."""
    import shlex

    if len(line) > LONGEST_LINE:
        raise Misused("the line is too long")
    try:
        return shlex.split(line)
    except ValueError:
        raise Misused("a quote isn't closed") from None


def replace_by(command: List[str], environment: Dict[str, str]) -> NoReturn:
    """Goes on as another program, which a pipe that nobody reads ends, as any."""
    import signal

    sys.stdout.flush()
    signal.signal(signal.SIGPIPE, signal.SIG_DFL)
    try:
        os.execvpe(command[0], command, environment)
    except OSError as error:
        raise Failure(f"{command[0]} can't be run: {error.strerror}") from None


def command_of(host: Host, call: Call) -> List[str]:
    """What runs: the program, `ae` or one of the scripts, as they are installed."""
    return [host.program if call.tool == "aegis" else script(call.tool), *call.line]


def give(host: Host, call: Call, environment: Dict[str, str]) -> int:
    """Gives the command. What a file of attributes or a report is sent in, is handed on by a name; a change set and answers as they come."""
    if call.words[0] == "-dr":
        with change_set_given() as given:
            return hand_on(command_of(host, call), environment, given)
    if call.words[0] != "review" and not call.given:
        nothing = os.open(os.devnull, os.O_RDONLY)
        os.dup2(nothing, 0)
        os.close(nothing)
    if call.tool != "aegis":
        return show(command_of(host, call), environment)
    if call.words[0] == "-rep":
        with records_copied(host, call.branch) as folder, file_given(folder) as name:
            return subprocess.run(command_of(host, named(call, name)), cwd=folder, env=environment, stdin=subprocess.DEVNULL).returncode
    if call.words[0] in ("-nf", "-nt"):
        look_at_names(call.words)
    if call.given:
        with file_given(host.where.top) as name:
            return hand_on(command_of(host, named(call, name)), environment)
    return hand_on(command_of(host, call), environment)


def look_at_names(paths: Iterable[str]) -> None:
    """Refuses a path that no commit may have: once it was integrated nobody could fetch any more, nor push."""
    for path in paths:
        if kept_by_git(path):
            raise Misused(f'"{path}" has a name that git keeps for itself')


@contextlib.contextmanager
def change_set_given() -> Iterator[IO[bytes]]:
    """Standard input as a change set, to be read again. Whatever has the form of a row of a file is looked at."""
    import tempfile

    held = sys.stdin.buffer.read(MOST_CHANGE_SET + 1)
    look_at_names(found[1].decode("ascii", "replace") for found in ROW_OF_SET.finditer(held))
    with tempfile.TemporaryFile() as file:
        file.write(held)
        file.seek(0)
        yield file


def named(call: Call, name: str) -> Call:
    """The call with a name in the place of each word that stands for standard input."""
    return Call(call.tool, call.branch, tuple(name if at in call.given else word for at, word in enumerate(call.words)))


def show(command: List[str], environment: Dict[str, str]) -> int:
    """Shows what a command says, as it comes: on the caller's terminal, of which this side knows nothing, none of it acts."""
    from .display import shown_lines

    with subprocess.Popen(command, env=environment, stdout=subprocess.PIPE) as process:
        for line in process.stdout or ():
            print(shown_lines(line.decode("utf-8", "surrogateescape")), end="", flush=True)
    return process.returncode


def hand_on(command: List[str], environment: Dict[str, str], given: Union[int, IO[bytes]] = subprocess.DEVNULL) -> int:
    """Gives a command, and hands on what it said once it has ended: it never waits for who reads that while it holds the lock."""
    import shutil
    import tempfile

    with tempfile.TemporaryFile() as out, tempfile.TemporaryFile() as errors:
        done = subprocess.run(command, env=environment, stdin=given, stdout=out, stderr=errors)
        for said, stream in ((out, sys.stdout.buffer), (errors, sys.stderr.buffer)):
            said.seek(0)
            shutil.copyfileobj(said, stream)
            stream.flush()
    return done.returncode


@contextlib.contextmanager
def records_copied(host: Host, branch: str) -> Iterator[str]:
    """A new folder with a copy of the records, since a report may take as long as its writer wants."""
    import tempfile

    from .store import opened

    with tempfile.TemporaryDirectory() as folder:
        where = host.where._replace(branch=branch)
        store = os.path.join(folder, where.home, "store")
        os.makedirs(store)
        with opened(where) as held:
            for name, content in held.contents.items():
                with open(os.path.join(store, name), "wb") as file:
                    file.write(content)
        yield folder


@contextlib.contextmanager
def file_given(folder: str) -> Iterator[str]:
    """Standard input as a file in the folder of the command, which alone is read as one of attributes or as a report."""
    import tempfile

    try:
        file = tempfile.NamedTemporaryFile(prefix="given.", dir=folder)
    except OSError as error:
        raise Failure(f"no file can be made in the project's folder: {error.strerror}") from None
    with file:
        file.write(sys.stdin.buffer.read(MOST_GIVEN))
        file.flush()
        yield os.path.basename(file.name)


def show_log(host: Host, call: Call) -> None:
    """What runs in a directory wrote, so that nothing in it acts on a terminal. No link is followed."""
    import stat

    from .display import shown_lines

    folders = [*(["aegis.d", f"branch.{call.branch}"] if call.branch else ["aegis.d"]), *call.words]
    at, opened = os.open(host.where.top, os.O_RDONLY | os.O_DIRECTORY), list[int]()
    try:
        for name in folders:
            opened.append(at)
            at = os.open(name, os.O_RDONLY | os.O_DIRECTORY | os.O_NOFOLLOW, dir_fd=at)
        log = os.open("aegis.log", os.O_RDONLY | os.O_NOFOLLOW | os.O_NONBLOCK, dir_fd=at)
    except OSError as error:
        raise Failure(f"the log of {call.words[0]} can't be read: {error.strerror}") from None
    finally:
        for folder in [*opened, at]:
            os.close(folder)
    if not stat.S_ISREG(os.fstat(log).st_mode):
        raise Failure(f"the log of {call.words[0]} is no file")
    with open(log, encoding="utf-8", errors="surrogateescape", newline="") as file:
        while text := file.read(AT_ONCE):
            print(shown_lines(text), end="")
