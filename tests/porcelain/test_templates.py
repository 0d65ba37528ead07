"""Each template of share/templates becomes a project, and a second change of it goes through, by whatever umask its people have."""
import io
import os
import shutil
import sys

import pytest
from conftest import PEOPLE, TESTS, Team, attributes

TEMPLATES = TESTS.parent / "share" / "templates"
# a file that a second change modifies, with what it gets, and a test that the first program doesn't pass
SECOND = {
    "c": ("src/greet.h", '#define GREETING "hello, world"\n', "test/world.sh", "build/greet | grep -q world\n"),
    "python": (
        "src/greet/__init__.py",
        'def greeting():\n    return "hello, world"\n',
        "test/test_world.py",
        "import unittest\nfrom greet import greeting\nclass World(unittest.TestCase):\n    def test_world(self):\n"
        '        self.assertIn("world", greeting())\nunittest.main()\n',
    ),
}


def released(team, monkeypatch, number):
    """Takes a change from its development to the baseline, and answers what was said meanwhile."""
    said = team.ae("bob", "finish", "-q", str(number))
    assert said[0] == 0, said
    monkeypatch.setattr(sys, "stdin", io.StringIO("p\n"))
    assert team.ae("cal", "review", str(number))[0] == 0
    done = team.ae("dee", "queue", "-q")
    assert done[0] == 0, done
    return said[2] + done[2]


@pytest.fixture(params=[0o022, 0o077, 0o002])
def umask(request):
    before = os.umask(request.param)
    yield request.param
    os.umask(before)


@pytest.mark.parametrize("name", sorted(path.name for path in TEMPLATES.iterdir()))
def test_a_template_becomes_a_project(program, tmp_path, monkeypatch, capfd, umask, name):
    if name == "c" and not (shutil.which("cc") and shutil.which("make")):
        pytest.skip("there is no compiler")
    top = tmp_path / "project"
    top.mkdir()
    top.chmod(0o2775)
    team = Team(program, top, monkeypatch, capfd)
    team.script(["as ann", *PEOPLE, attributes("all"), "do -nc -f c.attr", "do -nc -f c.attr", "as bob", "do -db -c 10"])
    shutil.copytree(TEMPLATES / name, team.path("develop.10"), dirs_exist_ok=True)
    paths = sorted(str(path.relative_to(TEMPLATES / name)) for path in (TEMPLATES / name).rglob("*") if path.is_file())
    tests = [path for path in paths if path.startswith("test/")]
    team.script(["as bob", "do -nf -c 10 " + " ".join(path for path in paths if path not in tests), "do -nt -c 10 " + " ".join(tests)])
    assert released(team, monkeypatch, 10).endswith("integrated as delta 1\n")

    source, text, test, body = SECOND[name]
    team.script(["as bob", "do -db -c 11", f"do -cp -c 11 {source}", f"do -nt -c 11 {test}"])
    team.write(f"develop.11/{source}", text)
    team.write(f"develop.11/{test}", body)
    said = released(team, monkeypatch, 11)
    assert said.count(f'baseline test "{test}": status 1\n') == 2 and said.endswith("integrated as delta 2\n")
    made = [path for path in team.path("integrate.2").rglob("*") if str(path.relative_to(team.path("integrate.2"))) not in [*paths, test]]
    made = [path for path in made if path.name != "aegis.log"]
    assert made and all(path.stat().st_mode & 0o020 for path in made)
