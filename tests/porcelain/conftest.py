"""What the tests of `ae` share: stores that are there already, and where the package is."""
import hashlib
import os
import shutil
import subprocess
import sys
from pathlib import Path

import pytest

sys.dont_write_bytecode = True
TESTS = Path(__file__).resolve().parent.parent
AE = str(TESTS.parent / "share" / "ae")
sys.path.insert(0, str(TESTS.parent / "share"))


@pytest.fixture(autouse=True)
def own_caches(tmp_path_factory, monkeypatch):
    """What `ae` remembers lies in a folder of the test's own."""
    monkeypatch.setenv("XDG_CACHE_HOME", str(tmp_path_factory.mktemp("cache")))


@pytest.fixture
def lay(tmp_path):
    """Lays a stored store (tests/stores, tests/stories) into a new folder, and answers that folder."""

    def laid(store):
        top = tmp_path / store.replace("/", ".")
        shutil.copytree(TESTS / store, top / "aegis.d" / "store")
        (top / "aegis.d" / "lock").touch()
        return top

    return laid


@pytest.fixture(scope="session")
def program():
    """The program that is tried."""
    found = os.environ.get("AEGIS_PROGRAM")
    assert found and os.access(found, os.X_OK), "AEGIS_PROGRAM names no program"
    return found


CONFIG = 'build_command = "true";\ntest_command = "sh ${file_name}";\n'
PEOPLE = ["do -npr demo", "do -nd bob", "do -nd eve", "do -nrv cal", "do -ni dee"]
RUNS = ["do -b -c {}", "do -t -c {}", "do -t -c {} -bl", "do -t -c {} -reg"]


def quoted(text):
    """A text as a string of a script."""
    return '"' + text.replace("\\", "\\\\").replace('"', '\\"').replace("\n", "\\n") + '"'


def put(folder, path, text):
    return f"put {folder} {path} {quoted(text)}"


def attributes(brief, **more):
    fields = "".join(f" {name} = {value};" for name, value in more.items())
    return put("here", "c.attr", f'brief_description = "{brief}";{fields}')


def runs(number, first=False):
    """The lines that make all runs of a change; over no baseline there are two."""
    return [line.format(number) for line in (RUNS[:2] if first else RUNS)]


def released(number, first=False):
    """The lines that take a change from the end of its development to the baseline."""
    reviewed = ["as cal", f"do -rpass -c {number} -rea {quoted('read twice')}", "as dee", f"do -ib -c {number}"]
    return [f"do -de -c {number}", *reviewed, *runs(number, first), f"do -ipass -c {number}"]


class Team:
    """A project in a folder of its own, the program, and `ae`."""

    def __init__(self, program, top, monkeypatch=None, capfd=None):
        self.program, self.top, self.monkeypatch, self.capfd = program, Path(top), monkeypatch, capfd

    def script(self, lines, fails=0):
        """Gives the lines of a script in one call of the program, and answers what is said. So many commands aren't done."""
        found = subprocess.run([self.program, "-scr"], cwd=self.top, input="\n".join(lines) + "\n", capture_output=True, text=True)
        statuses = [line for line in found.stdout.splitlines() if line.startswith("= ")]
        assert found.returncode == 0 and sum(line != "= 0" for line in statuses) == fails, found.stdout + found.stderr
        return found.stdout

    def aegis(self, who, *words):
        env = {**os.environ, "AEGIS_USER": who}
        return subprocess.run([self.program, *words], cwd=self.top, env=env, capture_output=True, text=True)

    def ae(self, who, *words, folder=""):
        """Does a command of `ae`, and answers its status and what it wrote."""
        from aegis_porcelain.start import main

        self.monkeypatch.setenv("AEGIS_USER", who)
        self.monkeypatch.setenv("AEGIS_PROGRAM", self.program)
        self.monkeypatch.chdir(self.top / folder)
        self.capfd.readouterr()
        try:
            status = main(list(words))
        except SystemExit as ended:
            status = ended.code
        found = self.capfd.readouterr()
        return status, found.out, found.err

    def path(self, *parts):
        return self.top.joinpath("aegis.d", *parts)

    def write(self, path, text):
        place = self.path(path)
        place.parent.mkdir(parents=True, exist_ok=True)
        place.write_text(text)


def lines_of_two_deltas():
    """The lines of a script that makes a project of two deltas, and change 12, which began before the second and modifies the same file."""
    return (
        ["as ann", *PEOPLE, attributes("the first", cause="external_bug"), "do -nc -f c.attr", "as bob", "do -db -c 10"]
        + [put("develop.10", "aegis.conf", CONFIG), put("develop.10", "src/m.c", "one\ntwo\nthree\nfour\nfive\n")]
        + [put("develop.10", "test/t.sh", "grep -q one src/m.c\n"), "do -nf -c 10 aegis.conf src/m.c", "do -nt -c 10 test/t.sh"]
        + [*runs(10, first=True), *released(10, first=True)]
        + ["as ann", attributes("m is faster"), "do -nc -f c.attr", attributes("m is smaller"), "do -nc -f c.attr"]
        + ["as eve", "do -db -c 12", "do -cp -c 12 src/m.c", put("develop.12", "src/m.c", "one\ntwo\nthree\nfour\n5\n")]
        + ["as bob", "do -db -c 11", "do -cp -c 11 src/m.c", put("develop.11", "src/m.c", "1 is one\ntwo\nthree\nfour\nfive\n")]
        + ["do -nt -c 11 test/u.sh", put("develop.11", "test/u.sh", "grep -q 1 src/m.c\n"), *runs(11), *released(11)]
    )


@pytest.fixture(scope="session")
def two_deltas(program, tmp_path_factory):
    """The project that these lines make."""
    team = Team(program, tmp_path_factory.mktemp("two"))
    team.script(lines_of_two_deltas())
    return team


@pytest.fixture
def team(two_deltas, tmp_path, monkeypatch, capfd):
    """A copy of that project, for the test's own use."""
    top = tmp_path / "project"
    shutil.copytree(two_deltas.top, top)
    return Team(two_deltas.program, top, monkeypatch, capfd)


SETTINGS = put("here", "p.attr", "developers_may_create_changes = true;")


class Host(Team):
    """A project to which a team comes by git. What sshd would run is run by a script in ssh's place."""

    def __init__(self, team, place):
        super().__init__(team.program, team.top)
        self.place = place
        self.script(["as ann", SETTINGS, "do -pa -f p.attr"])
        self.init(self.program)
        ssh = place / "ssh"
        ssh.write_text(f'#!/bin/sh\nuser=$1\nshift\ncd "{self.top}" && exec env -i SSH_ORIGINAL_COMMAND="$*" {AE} serve $user\n')
        ssh.chmod(0o755)
        self.env = {**os.environ, "GIT_SSH_COMMAND": str(ssh), "GIT_SSH_VARIANT": "simple", "LC_ALL": "C"}
        self.env |= {f"GIT_{who}_{what}": "x" for who in ("AUTHOR", "COMMITTER") for what in ("NAME", "EMAIL")}

    def init(self, program):
        """Sets the host up with this program."""
        env = {"PATH": os.environ["PATH"], "AEGIS_PROGRAM": str(program)}
        subprocess.run([AE, "host", "init", "--keys", "keys"], cwd=self.top, env=env, check=True, capture_output=True)

    def clone(self, user):
        own = self.place / user
        self.git(".", "clone", "-q", "-b", "baseline", f"{user}:aegis.git", own)
        return own

    def git(self, own, *words, **more):
        return subprocess.run(["git", *words], cwd=own, env=self.env, capture_output=True, text=True, **{"check": True, **more})

    def commit(self, clone, message, **files):
        """Commits these files, by paths in which __ stands for / and _ for a dot; one of nothing is removed."""
        for name, text in files.items():
            path = clone / name.replace("__", "/").replace("_", ".")
            if text is None:
                path.unlink()
            else:
                path.parent.mkdir(parents=True, exist_ok=True)
                path.write_text(text)
        self.git(clone, "add", "-A")
        self.git(clone, "commit", "-q", "-m", message)

    def push(self, own, to="HEAD:refs/for/baseline", *more):
        """Pushes, and answers the status and what was said."""
        found = self.git(own, "push", *(word for option in more for word in ("-o", option)), "origin", to, check=False)
        return found.returncode, found.stderr

    def listing(self, *words):
        return self.aegis("ann", "-l", *words).stdout

    def digest(self):
        """Of all that the project has but for locks."""
        found = hashlib.sha256()
        for path in sorted(self.path().rglob("*")):
            if path.is_file() and path.name != "lock":
                found.update(f"{path} {path.stat().st_mode}".encode() + path.read_bytes())
        return found.hexdigest()


@pytest.fixture
def host(two_deltas, tmp_path):
    top = tmp_path / "project"
    shutil.copytree(two_deltas.top, top)
    return Host(Team(two_deltas.program, top), tmp_path)


@pytest.fixture
def bob(host):
    return host.clone("bob")
