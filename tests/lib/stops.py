"""Stops a call that does commands one after the other, and puts files, before each of its system calls, and looks at what is left.

What a stop leaves has, by its gate, the state files that some first ones of the commands leave, at least those with a reply; and no other
store is changed. A user goes on in one of the ways of the case, in turn, and then all is as if nothing had been stopped.
"""
import os
import re
import shutil
import sys
import tempfile
from typing import Any, NamedTuple

from lib.common import STOP, OneCall, run, traced
from lib.session import read_tree


class Case(NamedTuple):
    """A call that alice gives, by these words and this input.

    `prepare(program, top)` makes what stands before. `commands` are what it does in the store of the folder `home`, each as lines of a
    script, with `words` before `-scr`; `puts` the lines of the last files. `replies` has what is said of each, nothing for a commit that
    says nothing. Each of `ways` is called with the program, the folder and how many of the commands stand, and answers whether it was done.
    """

    prepare: Any
    call: str
    given: bytes
    home: str
    words: str
    commands: list
    puts: list
    replies: list
    ways: list


def does(program, top, words, lines):
    """Does these lines of a script, and answers whether each of its commands was done."""
    found = run(program, top, "alice", f"{words} -scr", input="".join(f"{line}\n" for line in lines))
    ends = re.findall("(?m)^= .*$", found.stdout)
    return found.returncode == 0 and set(ends) <= {"= 0"} and len(ends) == sum(line.startswith("do ") for line in lines)


def entries_of(body):
    """The entries of the last commit, by name; an absent file is an empty one."""
    found, at = {}, 4
    for _ in range(int.from_bytes(body[:4], "little")):
        name = body[at + 1 : at + 1 + body[at]].decode()
        at += 1 + body[at]
        length = int.from_bytes(body[at + 1 : at + 9], "little") if body[at] else 0
        begin = at + (9 if body[at] else 1)
        found[name], at = body[begin : begin + length], begin + length
    return found


def stored(top, home):
    """The files of a store without their moments, as the gate and the last commit have them."""
    files = read_tree(os.path.join(top, home, "store"))
    gate, body = files.pop("gate", b""), files.pop("body", b"")
    if gate[:1] == b"\x01":
        files.update(entries_of(body))
    return {name: re.sub(rb"when = \d+;", b"", text) for name, text in files.items() if text and name != "pack"}


def stored_elsewhere(top, home):
    """The files of all other stores."""
    homes = ["aegis.d", *(f"aegis.d/{name}" for name in sorted(os.listdir(os.path.join(top, "aegis.d"))) if name.startswith("branch."))]
    return {other: stored(top, other) for other in homes if other != home}


def tree(top):
    """All that is in the folder, but for what a commit leaves in gate and body, logs of runs, and what is kept of a directory that was replaced."""
    files = read_tree(top, ("gate", "body", "lock", "aegis.log"))
    return {path: re.sub(rb"when = \d+;", b"", text) for path, text in files.items() if ".old" not in path and (text or "/store/" not in path)}


class Trial:
    """A case under way in a folder of its own."""

    def __init__(self, program, case, folder):
        self.program, self.case = program, case
        self.first, self.top = os.path.join(folder, "first"), os.path.join(folder, "top")
        self.states, self.whole = self.references(os.path.join(folder, "by-hand"))
        case.prepare(program, self.first)
        self.elsewhere = stored_elsewhere(self.first, case.home)

    def references(self, top):
        """What the store is after each number of commands, and what all is at the end."""
        case = self.case
        case.prepare(self.program, top)
        found = [stored(top, case.home)]
        for command in case.commands:
            assert command(top) if callable(command) else does(self.program, top, case.words, command), command
            found.append(stored(top, case.home))
        assert does(self.program, top, case.words, case.puts)
        return found, tree(top)

    def stopped(self, at):
        """Does the call, stopped before this system call, and answers how it ended and what it said; and whether it came to that one."""
        watch = OneCall(at, STOP)
        ended = self.watched(watch)
        return ended, watch.number is not None

    def watched(self, watch):
        """Does the call under a watch, and answers how it ended and what it said."""
        with tempfile.TemporaryFile() as given:
            given.write(self.case.given)
            given.seek(0)
            return traced(self.program, self.top, "alice", self.case.call, watch, given.fileno())

    def lay(self):
        shutil.rmtree(self.top, ignore_errors=True)
        shutil.copytree(self.first, self.top)

    def is_said(self, said, left):
        """What is said are whole replies, of no more commands than stand."""
        return any(said == "".join(self.case.replies[:count]) for count in range(left + 1))

    def tried(self, at):
        """Tries one stop, and a way to go on. Answers how many commands stood, and none where something is wrong."""
        self.lay()
        (status, said), is_stopped = self.stopped(at)
        found, go_on = stored(self.top, self.case.home), self.case.ways[at % len(self.case.ways)]
        left = self.states.index(found) if found in self.states else None
        is_right = status == (-9 if is_stopped else 0) and left is not None and self.is_said(said, left)
        is_right = is_right and stored_elsewhere(self.top, self.case.home) == self.elsewhere
        if is_right and go_on(self.program, self.top, left) and tree(self.top) == self.whole:
            return left
        print(f"{self.case.call}: call {at}, {go_on.__name__}: {status}, {said!r}, {left} commands stand", file=sys.stderr)
        return None

    def all_tried(self):
        """Tries each stop. Answers what each left, and none too where a number of commands was never left."""
        self.lay()
        calls = []
        ended = self.watched(lambda count, _: calls.append(count))
        if ended != (0, "".join(self.case.replies)) or tree(self.top) != self.whole or not calls:
            sys.exit(f"{self.case.call}: {ended}, {len(calls)} calls")
        left = [self.tried(at) for at in calls]
        if set(range(len(self.states))) <= set(left):
            return left
        print(f"{self.case.call}: a number of commands was never left: {set(left)}", file=sys.stderr)
        return left + [None]


def all_stops(program, case):
    """Tries each stop of a case, and answers what each left."""
    in_memory = "/dev/shm" if os.access("/dev/shm", os.W_OK) else None
    with tempfile.TemporaryDirectory(dir=in_memory) as folder:
        return Trial(os.path.abspath(program), case, folder).all_tried()
