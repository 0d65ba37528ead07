"""A project of several developers whose builds and commands are given at once, for tests/runs-apart."""
import contextlib
import fcntl
import itertools
import os
import random
import re
import shutil
import signal
import subprocess
import sys
import tempfile
import threading
import time

from lib.common import environment, run
from lib.session import read_tree, write

EXEMPT = "test_baseline_exempt = true; regression_test_exempt = true;"
ALONE = "developer_may_review = true; developer_may_integrate = true; reviewer_may_integrate = true;"
# What a busy machine may take for a command.
SLACK = 60
# A build that says that it runs, and ends once it's let go.
HELD = "touch runs; while [ ! -e go ]; do sleep 0.01; done; rm -f runs go"
OWNERS = {10: "bob", 11: "carl", 12: "dan"}


class Team:
    """A project with changes 10, 11 and 12 in development by bob, carl and dan, each with a build."""

    def __init__(self, program, top):
        self.program, self.top, self.wrong = program, top, 0
        write(top, "c.attr", f"test_exempt = true; {EXEMPT}")
        write(top, "p.attr", ALONE)
        for words in ["-npr demo", "-pa -f p.attr", "-nd bob carl dan", "-nrv alice", "-ni alice"]:
            self.does("alice", words)
        for change, who in OWNERS.items():
            self.does("alice", "-nc -f c.attr")
            self.does(who, f"-db -c {change}")
            self.does(who, f"-nf -c {change} aegis.conf f{change}")
            self.builds(change, "exit 0")

    def check(self, holds, what):
        if not holds:
            self.wrong += 1
            print(what, file=sys.stderr)
        return holds

    def place(self, change, name):
        return os.path.join(self.top, "aegis.d", f"develop.{change}", name)

    def builds(self, change, command):
        write(os.path.dirname(self.place(change, "x")), "aegis.conf", f'build_command = "{command}";\ntest_command = "exit 0";\n')

    def waiting(self, who):
        return {**environment(who), "AEGIS_WAIT": "120"}

    def does(self, who, words, status=0):
        found = run(self.program, self.top, who, words, env=self.waiting(who))
        self.check(found.returncode == status, f"{who}: {words}: {found}")
        return found

    def starts(self, who, words, **more):
        env = {**self.waiting(who), **more}
        return subprocess.Popen([self.program, *words.split()], cwd=self.top, env=env, stdout=subprocess.PIPE, stderr=subprocess.PIPE, text=True)

    def runs(self, change, at_most=SLACK):
        """Waits until a build says that it runs."""
        end = time.monotonic() + at_most
        while not os.path.exists(self.place(change, "runs")):
            if not self.check(time.monotonic() < end, f"the build of {change} doesn't begin"):
                return
            time.sleep(0.01)

    def held_build(self, more=""):
        """A build of change 10 by bob, which has begun to run, and is held."""
        self.builds(10, HELD + more)
        build = self.starts("bob", "-b -c 10")
        self.runs(10)
        return build

    def lets_go(self, change):
        open(self.place(change, "go"), "w").close()

    def lets_on(self, change):
        """Lets a build that is held go on, and waits until it has, so that the one of its next turn is held again."""
        self.lets_go(change)
        end = time.monotonic() + SLACK
        while os.path.exists(self.place(change, "go")) and time.monotonic() < end:
            time.sleep(0.01)

    def said(self, child):
        """What a command said, once it has ended; one that doesn't end is killed."""
        try:
            return child.communicate(timeout=4 * SLACK)
        except subprocess.TimeoutExpired:
            self.check(False, f"{child.args} doesn't end")
            child.kill()
            return child.communicate()

    def ended(self, child, status, said):
        found = self.said(child)
        self.check((child.returncode, found[-1]) == (status, said), f"{child.args}: {child.returncode} {found}")

    @contextlib.contextmanager
    def lock_held(self):
        """Holds the store's lock, as another command does."""
        with open(os.path.join(self.top, "aegis.d", "lock"), "r+b") as file:
            fcntl.flock(file, fcntl.LOCK_EX)
            yield

    def headings(self, change):
        with open(self.place(change, "aegis.log")) as log:
            return sum(line.startswith("== ") and line.endswith(f"develop.{change}\n") for line in log)

    def evidence(self, change):
        return self.does("alice", f"-l ce -c {change}").stdout


def stored(top):
    """The files of the store without moments; gate and body hold what is done."""
    files = read_tree(os.path.join(top, "aegis.d", "store"), ("gate", "body"))
    return {name: re.sub(rb"when = \d+;", b"", text) for name, text in files.items()}


class Replay:
    """What single commands of a team leave, one after another, in a folder of its own."""

    def __init__(self, team, top):
        self.program, self.top, self.script = team.program, os.path.join(top, "0"), ""
        shutil.copytree(team.top, self.top)
        self.first = os.path.join(top, "first")
        shutil.copytree(team.top, self.first)

    def gives(self, top, script):
        found = run(self.program, top, "alice", "-scr", input=script, env={**environment("alice"), "PAUSE": "0"})
        return found.returncode == 0

    def follows(self, team, told):
        """Finds an order of these commands that leaves what the team's store holds, and goes on from there."""
        wanted = stored(team.top)
        for number, order in enumerate(itertools.permutations(told)):
            script = "".join(f"as {who}\ndo {words}\n" for who, words in order)
            top = f"{self.top}.{number}"
            shutil.copytree(self.top, top)
            if self.gives(top, script) and stored(top) == wanted:
                shutil.rmtree(self.top)
                os.rename(top, self.top)
                self.script += script
                return True
            shutil.rmtree(top)
        return False


def chosen(chance, turn):
    """A build of one change and commands of others, which may be given at once."""
    commands = []
    for change, who in OWNERS.items():
        words = chance.choice([f"-b -c {change}", f"-b -c {change}", f"-nf -c {change} n{turn}", "-l pc", f"-l cf -c {change}"])
        commands.append((who, words))
    commands.append(("alice", chance.choice([f"-nd u{turn}", "-nc -f c.attr", f"-nrv u{turn}", "-l pc"])))
    return commands


def interleaved(team, turns):
    """Builds of three changes and commands of others at once, so often: each is done, and the store is that of some order of them."""
    chance = random.Random(7)
    for change in OWNERS:
        team.builds(change, "sleep $${PAUSE:-0}")
    with tempfile.TemporaryDirectory() as top:
        replay = Replay(team, top)
        for turn in range(turns):
            given = chosen(chance, turn)
            ended, threads = [], []

            def gives(who, words, pause, late):
                time.sleep(late)
                child = team.starts(who, words, PAUSE=str(pause))
                said = team.said(child)
                team.check(child.returncode == 0, f"turn {turn}: {who}: {words}: {child.returncode} {said}")
                if not words.startswith("-l"):
                    ended.append((who, words))

            for who, words in given:
                threads.append(threading.Thread(target=gives, args=(who, words, round(chance.random() / 5, 3), chance.random() / 5)))
            for thread in threads:
                thread.start()
            for thread in threads:
                thread.join()
            if not team.check(replay.follows(team, ended), f"turn {turn}: no order of {ended} leaves the same store"):
                return
        team.check(replay.gives(replay.first, replay.script), "the commands in order, as one script")
        team.check(stored(replay.first) == stored(team.top), "the script leaves another store")
    team.does("alice", "-aud")


def killed(team, turns):
    """Builds and commands that are killed at moments at random: nothing acknowledged is lost, and the next command works."""
    chance = random.Random(11)
    for turn in range(turns):
        team.builds(10, f"sleep 0.05; echo {turn}")
        started = [team.starts("bob", "-b -c 10"), team.starts("carl", "-b -c 11"), team.starts("alice", f"-nd k{turn}")]
        time.sleep(chance.random() * 0.6)
        for child in chance.sample(started, 2):
            child.send_signal(signal.SIGKILL)
        for child in started:
            said = team.said(child)
            team.check(child.returncode in (0, -signal.SIGKILL), f"{child.args}: {child.returncode} {said}")
            if child.returncode == 0 and "-nd" in child.args:
                team.check(f"k{turn}" in team.does("alice", "-l d").stdout.split(), f"k{turn} is lost")
        team.does("alice", "-l pc")
    time.sleep(0.2)
    for who, change in [("bob", 10), ("carl", 11)]:
        team.does(who, f"-b -c {change}")
    team.does("alice", "-aud")
