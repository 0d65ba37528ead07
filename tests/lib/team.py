"""A project in a folder that a team shares, users of the system in it, and one of them who exchanges names there while the others work."""
import ctypes
import itertools
import os
import signal
import stat
import subprocess
import sys
import time

from lib.common import environment
from lib.session import write

GROUP = 4300
USERS = {"ann": 4200, "bob": 4201, "cal": 4202, "dee": 4203, "eve": 4204, "fay": 4205, "root": 0}
ATTRIBUTES = 'brief_description = "x"; test_exempt = true; test_baseline_exempt = true; regression_test_exempt = true;'
CONFIG = 'build_command = "true";\ntest_command = "true";\n'
# A command that takes longer waits for somebody.
SECONDS = 20
EXCHANGE = 2
HERE = -100

renameat2 = ctypes.CDLL(None, use_errno=True).renameat2
renameat2.argtypes = [ctypes.c_int, ctypes.c_char_p, ctypes.c_int, ctypes.c_char_p, ctypes.c_uint]


def taken(who):
    """The words that run a command as a user, whose group is the team's unless he is a stranger."""
    group = USERS[who] if who == "fay" else GROUP
    return ["setpriv", f"--reuid={USERS[who]}", f"--regid={group}", "--clear-groups"]


class Team:
    """A project in a folder of the team's: ann administers it, bob and eve develop, cal reviews, and dee integrates."""

    def __init__(self, program, place, name):
        self.program, self.wrong, self.tried = program, 0, 0
        self.homes = os.path.join(place, name, "homes")
        self.top = os.path.join(place, name, "hello")
        os.makedirs(self.top)
        os.chown(self.top, 0, GROUP)
        os.chmod(self.top, 0o2775)
        write(self.top, "c.attr", ATTRIBUTES)
        for who, words in [("ann", "-npr demo"), ("ann", "-nd bob eve dee"), ("ann", "-nrv cal"), ("ann", "-ni dee")]:
            self.does(who, words)

    def check(self, holds, what):
        self.tried += 1
        if not holds:
            self.wrong += 1
            print(what, file=sys.stderr)

    def at(self, *path):
        return os.path.join(self.top, "aegis.d", *path)

    def gives(self, who, words, wait="0"):
        """Gives a command, and answers its status and what it said; no status where it waits for somebody."""
        env = {**environment(who), "AEGIS_WAIT": wait}
        try:
            command = [*taken(who), self.program, *words.split()]
            found = subprocess.run(command, cwd=self.top, env=env, capture_output=True, text=True, timeout=SECONDS)
        except subprocess.TimeoutExpired:
            return None, ""
        return found.returncode, found.stderr

    def does(self, who, words, status=0, wait="0"):
        found = self.gives(who, words, wait)
        self.check(found[0] == status, f"{words} by {who}: {found}, and not {status}")

    def acts(self, who, words, **options):
        """Has a user do something with another program."""
        return subprocess.run([*taken(who), "sh", "-c", words], cwd=self.top, **{"check": True, **options})

    def begins(self, change, who, *files):
        """Begins a change, with these files and a configuration."""
        self.does("ann", "-nc -f c.attr")
        self.does(who, f"-db -c {change}")
        self.does(who, " ".join([f"-nf -c {change} aegis.conf", *files]))
        self.acts(who, f"printf '{CONFIG}' > aegis.d/develop.{change}/aegis.conf".replace("\n", "\\n"))

    def has_home(self, who, files):
        """Gives a user files of his own that nobody else may read, and answers where they are."""
        home = os.path.join(self.homes, who)
        for name, text in files.items():
            write(home, name, text)
            os.chmod(os.path.join(home, name), 0o600)
            os.chown(os.path.join(home, name), USERS[who], GROUP)
        os.chown(home, USERS[who], GROUP)
        os.chmod(home, 0o711)
        return home


class Exchange:
    """eve exchanges two names without an end, until this ends.

    Where a target is given the other name is a link to that. What comes and goes by the first name is exchanged each time that it's there:
    a link that went with it is put there again, and one is put in its place besides where nothing is there, if it `fills` that. Where it
    `rests` they are left for a millisecond after one exchange, and for four after the next, so that commands are done beside it.
    """

    def __init__(self, one, other, target=None, fills=False, rests=False):
        self.one, self.other, self.target, self.fills = one, other, target, fills
        self.rests = [0.001, 0.004] if rests else [0]

    def __enter__(self):
        self.child = os.fork()
        if self.child == 0:
            os.setgroups([])
            os.setgid(GROUP)
            os.setuid(USERS["eve"])
            names = [os.fsencode(self.one), os.fsencode(self.other)]
            for rest in itertools.cycle(self.rests):
                if renameat2(HERE, names[0], HERE, names[1], EXCHANGE) and self.target:
                    self.puts_links()
                if rest:
                    time.sleep(rest)
        return self

    def puts_links(self):
        try:
            if not os.path.islink(self.other):
                if os.path.lexists(self.other):
                    os.rename(self.other, f"{self.other}.{time.monotonic_ns()}")
                os.symlink(self.target, self.other)
            if self.fills:
                os.symlink(self.target, self.one)
        except OSError:
            # a command was quicker
            pass

    def __exit__(self, *_):
        os.kill(self.child, signal.SIGKILL)
        os.waitpid(self.child, 0)


def mode(place):
    return stat.S_IMODE(os.lstat(place).st_mode)


def text(place):
    try:
        with open(place) as file:
            return file.read()
    except OSError as error:
        return error.strerror


def puts_back(team, place, other, is_right):
    """Where the two were left exchanged, exchanges them once more."""
    if not is_right(os.lstat(place).st_mode):
        team.check(renameat2(HERE, os.fsencode(place), HERE, os.fsencode(other), EXCHANGE) == 0, f"{place} isn't put back")
