"""ae over projects that it wasn't written beside: a made-up one, in trunk and branch, and the stores of the worked stories.

AE_CHANGES says how many changes the made-up project has.
"""
import os
import shutil
import subprocess

import pytest
from conftest import TESTS, Team

CHANGES = int(os.environ.get("AE_CHANGES", "4"))
FILES = 5
STORES = sorted(str(path.parent.relative_to(TESTS)) for path in TESTS.glob("s[te][os]*/**/project") if path.stat().st_size)


@pytest.fixture(scope="module")
def made_up(program, tmp_path_factory):
    """A project with a history that the program makes."""
    team = Team(program, tmp_path_factory.mktemp("made"))
    assert team.aegis("gen", "-gen", "7", str(CHANGES), str(FILES)).returncode == 0
    return team


@pytest.fixture(params=["", "r1"])
def project(made_up, request, tmp_path, monkeypatch, capfd):
    """The made-up project, or the same as a branch of an empty folder; and the words that name it."""
    top = tmp_path / "project"
    home = top / "aegis.d" / (f"branch.{request.param}" if request.param else "")
    shutil.copytree(made_up.top / "aegis.d", home, dirs_exist_ok=True)
    (top / "aegis.d" / "store").mkdir(exist_ok=True)
    if request.param:
        (home / "store" / "trunk").write_text("delta = 1;\n")
    return Team(made_up.program, top, monkeypatch, capfd), ["-br", request.param] if request.param else [], home


def test_the_log_has_what_the_audit_and_the_listings_have(project):
    team, branch, _ = project
    status, said, _ = team.ae("gen", *branch, "log")
    assert status == 0 and said.count("\n    developed by gen, reviewed by gen, integrated by gen") == CHANGES
    shown = [line.split()[-1] for line in said.splitlines() if "; tree " in line]
    audit = team.aegis("gen", *branch, "-aud").stdout.splitlines()
    assert len(audit) == CHANGES and shown == [line.split()[5].rstrip(",") for line in reversed(audit)]
    rows = [line.split("\t") for line in team.ae("gen", *branch, "log", "--porcelain")[1].splitlines()]
    for number in {row[1] for row in rows}:
        listed = [line.split()[-1] for line in team.aegis("gen", *branch, "-l", "cf", "-c", number).stdout.splitlines()]
        assert [row[6] for row in rows if row[1] == number] == listed
    assert team.ae("gen", *branch, "status") == (0, "nothing waits for gen\n", "")


def files_of(folder):
    return {str(path.relative_to(folder)): path.read_bytes() for path in folder.rglob("*") if path.is_file() and path.name != "aegis.log"}


def test_what_a_delta_did_makes_one_integrate_directory_of_the_other(project, tmp_path):
    """The difference of a delta, applied to the files before it, gives the files after it."""
    team, branch, home = project
    before = tmp_path / "before"
    before.mkdir()
    for delta in range(1, CHANGES + 1):
        said = team.ae("gen", *branch, "diff", "--delta", str(delta))[1]
        subprocess.run(["git", "apply", "--unsafe-paths", "-"], cwd=before, input=said, text=True, check=True)
        assert files_of(before) == files_of(home / f"integrate.{delta}")
        assert said == team.ae("gen", *branch, "diff", str(delta + 9))[1]


@pytest.mark.parametrize("name", STORES)
def test_each_store_of_the_stories(program, name, lay, monkeypatch, capfd):
    """Each command that looks answers of each store, by what the program lists of it; none ends otherwise where the records break a rule."""
    team = Team(program, lay(name), monkeypatch, capfd)
    listed = team.aegis("alice", "-l", "pc")
    if listed.returncode:
        assert team.ae("alice", "log")[0] in (0, 1) and team.ae("alice", "status")[0] in (0, 1)
        return
    for line in listed.stdout.splitlines():
        number, phase = line.split()[:2]
        status, said, _ = team.ae("alice", "status", number)
        assert status == 0 and said.splitlines()[1].split()[0] == phase
    assert team.ae("alice", "log")[1].count("\n    developed by ") == len(team.aegis("alice", "-l", "phi").stdout.splitlines())
    assert team.ae("alice", "status")[0] == 0
