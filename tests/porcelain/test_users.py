"""Several users of one machine take a change to the baseline by `ae`, each by another umask, in the folder of their group."""
import os
import shutil
import subprocess
import tempfile
from pathlib import Path

import pytest
from conftest import PEOPLE, TESTS, Team, put

from aegis_porcelain import directory

GROUP = 3000
USERS = {"ann": (2000, 0o022), "bob": (2001, 0o077), "cal": (2002, 0o002), "dee": (2003, 0o077)}
CONFIG = 'build_command = "umask 002; mkdir -p made; date > made/now";\ntest_command = "umask 002; sh ${file_name}";\n'


class Shared:
    """A folder of the group, with the program and `ae` in places that all may enter."""

    def __init__(self, program, top):
        self.top, self.bin, self.program = top / "project", top / "bin", top / "bin" / "aegis"
        self.bin.mkdir()
        shutil.copy(program, self.program)
        shutil.copytree(TESTS.parent / "share", self.bin / "share")
        self.top.mkdir()
        os.chown(self.top, 0, GROUP)
        self.top.chmod(0o2775)
        for folder in [top, self.bin, *self.bin.rglob("*")]:
            folder.chmod(0o755)
        for who, (number, _) in USERS.items():
            (top / who).mkdir()
            os.chown(top / who, number, GROUP)

    def run(self, who, *words, given="", folder=""):
        """Has a user run a command, and answers its status and what it wrote."""
        number, umask = USERS[who]
        env = {**os.environ, "AEGIS_USER": who, "HOME": str(self.top.parent / who), "AEGIS_PROGRAM": str(self.program)}
        env.pop("XDG_CACHE_HOME", None)
        as_user = ["setpriv", f"--reuid={number}", f"--regid={GROUP}", "--clear-groups"]
        done = subprocess.run([*as_user, *words], cwd=self.top / folder, env=env, umask=umask, input=given, capture_output=True, text=True)
        return done.returncode, done.stdout, done.stderr

    def ae(self, who, *words, **options):
        return self.run(who, "/usr/bin/python3", str(self.bin / "share" / "ae"), *words, **options)


@pytest.mark.skipif(os.geteuid() != 0, reason="root alone can be several users")
def test_a_team_of_four(program):
    # not in pytest's folder, which the next pytest closes for others
    with tempfile.TemporaryDirectory() as base:
        goes_through(program, Path(base))


def goes_through(program, base):
    shared = Shared(program, base)
    lines = ["as ann", *PEOPLE]
    assert shared.run("ann", str(shared.program), "-scr", given="\n".join(lines) + "\n")[0] == 0
    assert shared.ae("ann", "new", "the first")[:2] == (0, "10\n")
    assert shared.ae("bob", "begin", "10")[:2] == (0, "aegis.d/develop.10\n")
    files = [put("develop.10", "aegis.conf", CONFIG), put("develop.10", "t.sh", "echo passed\n")]
    given = ["as bob", *files, "do -nf -c 10 aegis.conf", "do -nt -c 10 t.sh"]
    assert shared.run("bob", str(shared.program), "-scr", given="\n".join(given) + "\n")[1].count("= 0\n") == 2
    status, out, err = shared.ae("bob", "finish", folder="aegis.d/develop.10")
    assert status == 0 and "passed\n" in out, err
    for who in USERS:
        found = shared.ae(who, "status", "10")
        assert found[0] == 0, (who, found)
        assert shared.ae(who, "diff", "10")[1].endswith(shared.ae("bob", "diff", "10")[1])
    assert shared.ae("cal", "review", "10", given="p\n")[2].endswith("review passed\n")
    status, _, err = shared.ae("dee", "queue", "-q")
    assert (status, err.splitlines()[-1]) == (0, 'aegis: project "demo": change 10: integrated as delta 1')
    assert shared.ae("cal", "log")[1].startswith("delta 1  change 10  ")
    # what bob's build made, whose umask is 077, is ann's to remove
    assert shared.run("ann", "rm", "-r", "aegis.d/develop.10/made", "aegis.d/integrate.1/made") == (0, "", "")
    # what is remembered is a user's own
    for who in ("bob", "dee"):
        found = base / who / ".cache" / "ae"
        assert not found.exists() or (found.stat().st_mode & 0o777, found.stat().st_uid) == (0o700, USERS[who][0])


@pytest.mark.skipif(os.geteuid() != 0, reason="root alone can be several users")
def test_a_cache_that_others_may_write_is_not_used(two_deltas, tmp_path, monkeypatch, capfd):
    top = tmp_path / "project"
    shutil.copytree(two_deltas.top, top)
    team = Team(two_deltas.program, top, monkeypatch, capfd)
    cache = tmp_path / "cache"
    monkeypatch.setenv("XDG_CACHE_HOME", str(cache))
    monkeypatch.setattr(directory, "SETTLED", -(10**12))
    assert team.ae("eve", "status", "12")[0] == 0 and list((cache / "ae").iterdir())
    shutil.rmtree(cache)
    (cache / "ae").mkdir(parents=True)
    (cache / "ae").chmod(0o770)
    assert team.ae("eve", "status", "12")[0] == 0 and not list((cache / "ae").iterdir())
    os.chown(cache / "ae", 2001, 0)
    (cache / "ae").chmod(0o700)
    assert team.ae("eve", "status", "12")[0] == 0 and not list((cache / "ae").iterdir())
    shutil.rmtree(cache)
    cache.mkdir()
    (cache / "ae").symlink_to(tmp_path)
    assert team.ae("eve", "status", "12")[0] == 0 and sorted(path.name for path in tmp_path.iterdir()) == ["cache", "project"]
