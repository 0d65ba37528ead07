"""On a terminal there are colours, and nothing that others wrote acts there."""
import os
import re
import shlex
import shutil
import subprocess

import pytest
from conftest import TESTS, put

from aegis_porcelain.display import shown_lines

EVIL = "\x1b[2Jevil"
SHOWN = "<U+001B>[2Jevil"


def on_terminal(team, *words):
    """What a command writes on a terminal."""
    command = shlex.join(["/usr/bin/python3", str(TESTS.parent / "share" / "ae"), *words])
    env = {**os.environ, "AEGIS_USER": "bob", "AEGIS_PROGRAM": team.program, "TERM": "xterm-256color", "LESS": "-R"}
    done = subprocess.run(["script", "-qec", command, "/dev/null"], cwd=team.top, env=env, stdin=subprocess.DEVNULL, stdout=subprocess.PIPE)
    assert done.returncode == 0, done
    return done.stdout.decode()


@pytest.mark.skipif(not shutil.which("script"), reason="there is no script")
def test_what_others_wrote_is_shown_by_its_number(team):
    (team.top / "c.attr").write_text('brief_description = "\\033[2Jevil"; test_exempt = true; regression_test_exempt = true;\n')
    team.script(["as ann", "do -nc -f c.attr", "as bob", "do -db -c 13", "do -nf -c 13 evil.c"])
    team.write("develop.13/evil.c", f"{EVIL}\n")
    team.write(f"develop.13/{EVIL}", "")
    team.script(["as bob", "do -cp -c 13 aegis.conf"])
    team.write("develop.13/aegis.conf", 'build_command = "cat evil.c";\n')
    for words, text in {("status",): SHOWN, ("status", "13"): SHOWN, ("diff", "13"): f"+{SHOWN}", ("log",): "delta 2  change 11"}.items():
        said = on_terminal(team, *words)
        assert EVIL not in said and text in said and "\x1b[" in said, (words, said)
    said = on_terminal(team, "finish", "13")
    assert EVIL not in said and SHOWN in said and "development ended" in said


def test_what_is_not_seen_is_the_same_everywhere():
    """Each letter that shown.pl shows by its number, by which aediff shows, is shown so by `ae` too."""
    seen = [letter for letter in map(chr, (*range(0x20, 0xD800), *range(0xE000, 0x110000))) if shown_lines(letter) == letter]
    done = subprocess.run(["perl", str(TESTS.parent / "share" / "shown.pl")], input="\n".join(seen).encode(), capture_output=True)
    assert done.stdout.decode().split("\n") == seen and len(seen) > 100_000
    for letter in "\ufe0f\U000e0101\u115f\u202e\u200b\u3164\u034f":
        assert shown_lines(f"a{letter}b") == f"a<U+{ord(letter):04X}>b"


# a build that goes on until there is a file `go`, so that it is known what is shown before its end
SLOW = 'build_command = "echo first line; echo no end; while [ ! -e ../../go ]; do sleep 0.05; done; echo last line";\n'


def slow_change(team):
    """Change 13, whose build waits."""
    (team.top / "c.attr").write_text('brief_description = "slow"; test_exempt = true; regression_test_exempt = true;\n')
    team.script(["as ann", "do -nc -f c.attr", "as bob", "do -db -c 13", "do -cp -c 13 aegis.conf", put("develop.13", "aegis.conf", SLOW)])


def begun(team, command):
    """A command that is under way, given by bob."""
    env = {**os.environ, "AEGIS_USER": "bob", "AEGIS_PROGRAM": team.program, "TERM": "xterm-256color"}
    return subprocess.Popen(command, cwd=team.top, env=env, stdin=subprocess.DEVNULL, stdout=subprocess.PIPE, stderr=subprocess.PIPE)


AE = ["/usr/bin/python3", str(TESTS.parent / "share" / "ae")]


def test_lines_of_a_log_come_while_the_build_works(team):
    """They are read one by one, and only then the build may end."""
    slow_change(team)
    with begun(team, [*AE, "finish", "13"]) as under_way:
        lines = iter(under_way.stdout.readline, b"")
        assert b"no end\n" in lines and under_way.poll() is None
        (team.top / "go").touch()
        rest = b"".join(lines)
        assert under_way.wait(60) == 0 and b"last line\n" in rest and b"\x1b" not in rest, rest


@pytest.mark.skipif(not shutil.which("script"), reason="there is no script")
def test_how_long_a_build_works_is_shown_on_a_terminal(team):
    """In a line that changes, which the log's lines are above, and which is away at the end."""
    slow_change(team)
    with begun(team, ["script", "-qec", shlex.join([*AE, "finish", "13"]), "/dev/null"]) as under_way:
        said, line = b"", re.compile(rb"aegis -b -c 13[^\n]*0:00:0[1-9]")
        while not line.search(said):
            read = os.read(under_way.stdout.fileno(), 4096)
            assert read, said
            said += read
        (team.top / "go").touch()
        rest = under_way.stdout.read()
        assert under_way.wait(60) == 0
    assert b"no end" in said[: line.search(said).start()] and b"last line" in rest and b"development ended" in rest
    assert not re.search(rb"-b -c 13", rest[rest.index(b"development ended") :])


@pytest.mark.parametrize(
    "words", [["status"], ["log"], ["status", "12"], ["diff", "12"], ["why"], ["audit"], ["finish", "12"]], ids=" ".join
)
def test_what_draws_is_loaded_only_where_something_is_drawn(team, words):
    """Where the output is no terminal none of it is."""
    found = subprocess.run(
        ["/usr/bin/python3", "-X", "importtime", AE[1], *words],
        cwd=team.top,
        env={**os.environ, "AEGIS_USER": "bob", "AEGIS_PROGRAM": team.program},
        stdin=subprocess.DEVNULL,
        capture_output=True,
        text=True,
    )
    assert "aegis_porcelain.main" in found.stderr and not re.search(r"\| +rich", found.stderr), found.stderr
