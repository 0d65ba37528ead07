"""The commands of `ae` that change a project: a change from its beginning to the baseline, one that goes back, and merges."""
import io
import os
import shutil
import signal
import subprocess
import sys
import time

import pytest
from conftest import TESTS, attributes, put, runs

MADE = 'aegis: project "demo": change {}: {}\n'
EXEMPT = put("here", "e.attr", "test_exempt = true; regression_test_exempt = true;")


def answers(monkeypatch, text):
    monkeypatch.setattr(sys, "stdin", io.StringIO(text))


def exempt(team, number, who):
    """Lets a change end after a build alone."""
    team.script(["as ann", EXEMPT, f"do -ca -c {number} -f e.attr", f"as {who}"])


def test_a_change_in_seven_commands(team, monkeypatch):
    """new, begin, finish, review and queue; besides, the files are named to the program, and edited."""
    assert team.ae("ann", "new", "say it twice", "--cause", "external_bug") == (0, "13\n", MADE.format(13, "created"))
    assert team.ae("bob", "begin", "13") == (0, "aegis.d/develop.13\n", MADE.format(13, "development begun"))
    team.script(["as bob", "do -cp -c 13 src/m.c", "do -nt -c 13 test/twice.sh"])
    team.write("develop.13/src/m.c", "1 is one\ntwice\n")
    team.write("develop.13/test/twice.sh", "echo twice it is; grep -q twice src/m.c\n")
    team.write("develop.13/stray.h", "x\n")
    status, out, err = team.ae("bob", "finish", folder="aegis.d/develop.13/src")
    assert status == 0 and err.startswith("ae: not in the change, so no integration has it: stray.h\n")
    assert err.endswith(MADE.format(13, "development ended, being reviewed"))
    ran = [line.split(": ", 3)[3] for line in err.splitlines() if ": status " in line]
    twice, rest = 'test "test/twice.sh": status {}', [f'regression test "test/{name}.sh": status 0' for name in "tu"]
    assert ran == ["build: status 0", twice.format(0), "baseline " + twice.format(1), *rest]
    assert out.count("twice it is\n") == 2 and out.count("== status") == 5
    answers(monkeypatch, "p\n")
    status, out, err = team.ae("cal", "review", "13")
    assert (status, err) == (0, MADE.format(13, "review passed")) and "+twice\n" in out and "stray" not in out
    status, out, err = team.ae("dee", "queue", "-q")
    assert status == 0 and err.endswith(MADE.format(13, "integrated as delta 3")) and out == ""
    assert team.ae("dee", "status", "13")[1].splitlines()[1].startswith("  completed for ")


def test_new_writes_what_it_is_told(team):
    text = 'quotes " and \\, lines\nand ä, \udcff'
    assert team.ae("ann", "new", text, "--description", "\ttab", "--test-exempt", "--reason", "asked for")[0] == 0
    record = team.path("store/change.13").read_bytes()
    brief = b'brief_description = "quotes \\" and \\\\, lines\\nand \\303\\244, \\377";\n'
    assert brief in record and b'description = "\\ttab";\n' in record and b"\ntest_exempt = true;\n" in record
    assert b'why = "asked for"' in record and not list(team.top.glob("new-*")) and not list(team.path().glob("new-*"))
    assert team.ae("bob", "new", "x") == (1, "", "aegis: 6: you are not an administrator\n")


def test_a_failed_run_ends_a_finish(team):
    exempt(team, 12, "eve")
    team.script(["as eve", "do -cp -ow -c 12 src/m.c", "do -cp -c 12 aegis.conf"])
    team.write("develop.12/aegis.conf", 'build_command = "echo it breaks; exit 3";\n')
    status, out, err = team.ae("eve", "finish", "12")
    assert (status, err) == (1, MADE.format(12, "build: status 3"))
    assert "it breaks\n" in out and out.endswith("== status 3\n")
    assert team.ae("eve", "finish", "11") == (1, "", "ae: change 11 is completed: nothing is developed or integrated\n")
    status, _, err = team.ae("bob", "finish", "12")
    assert (status, err) == (1, "aegis: 10: the developer is eve\n")


def test_the_queue_sends_back_what_fails(team):
    """One change fails in its integration, and goes back with the end of its log as the reason; the next one becomes a delta."""
    team.script(
        ["as ann", EXEMPT, attributes("good"), "do -nc -f c.attr", "do -ca -c 12 -f e.attr", "do -ca -c 13 -f e.attr", "as eve"]
        + ["do -cp -ow -c 12 src/m.c", "do -cp -c 12 aegis.conf", put("develop.12", "aegis.conf", 'build_command = "cat here.txt";')]
        + [put("develop.12", "here.txt", "x"), "do -b -c 12", "do -de -c 12", "as bob", "do -db -c 13", "do -nf -c 13 good"]
        + [put("develop.13", "good", "x"), "do -b -c 13", "do -de -c 13", "as cal", "do -rpass -c 12", "do -rpass -c 13"]
    )
    status, out, err = team.ae("dee", "queue")
    assert status == 1 and "cat: here.txt: No such file" in out
    assert MADE.format(12, "integration failed") in err and err.endswith(MADE.format(13, "integrated as delta 3"))
    why = team.aegis("dee", "-l", "ch", "-c", "12").stdout.splitlines()[-1]
    assert "dee integrate_fail == " in why and why.endswith("cat: here.txt: No such file or directory | == status 1")
    assert team.ae("dee", "queue") == (0, "", "")


def test_the_queue_goes_on_with_its_own_and_leaves_those_of_others(team):
    exempt(team, 12, "eve")
    team.script(
        [
            "as ann",
            "do -ni fay",
            "as eve",
            "do -cp -ow -c 12 src/m.c",
            "do -b -c 12",
            "do -de -c 12",
            "as cal",
            "do -rpass -c 12",
            "as dee",
            "do -ib -c 12",
        ]
    )
    assert team.ae("fay", "queue") == (1, "", "ae: change 12 is being integrated by dee\n")
    assert team.ae("dee", "queue", "-q")[2].endswith(MADE.format(12, "integrated as delta 3"))


def test_a_queue_that_watches(team):
    """It integrates what comes to wait, and ends when it is asked to."""
    exempt(team, 12, "eve")
    env = {**os.environ, "AEGIS_USER": "dee", "AEGIS_PROGRAM": team.program}
    command = ["/usr/bin/python3", str(TESTS.parent / "share" / "ae"), "queue", "--watch", "--every", "0.2"]
    with subprocess.Popen(command, cwd=team.top, env=env, stdout=subprocess.DEVNULL, stderr=subprocess.PIPE, text=True) as watching:
        team.script(["as eve", "do -cp -ow -c 12 src/m.c", "do -b -c 12", "do -de -c 12", "as cal", "do -rpass -c 12"])
        lines = [line for line in iter(watching.stderr.readline, MADE.format(12, "integrated as delta 3"))]
        watching.send_signal(signal.SIGTERM)
        assert watching.wait(60) == 0 and lines[0] == MADE.format(12, "integration of delta 3 begun")


def test_reviews(team, monkeypatch):
    """Neither leaves it, a failed one gives the reason, and one whose files were frozen again meanwhile isn't passed."""
    exempt(team, 12, "eve")
    team.script(["as eve", "do -cp -ow -c 12 src/m.c", put("develop.12", "src/m.c", "first\n"), "do -b -c 12", "do -de -c 12"])
    answers(monkeypatch, "")
    status, out, err = team.ae("cal", "review", "12")
    assert (status, err) == (0, "") and "+first\n" in out and out.endswith("it is as it was\n")
    answers(monkeypatch, "f\nsay more\n")
    assert team.ae("cal", "review", "12")[2] == MADE.format(12, "review failed")
    assert team.aegis("cal", "-l", "ch", "-c", "12").stdout.endswith("cal review_fail say more\n")
    assert team.ae("cal", "review", "12") == (1, "", "ae: change 12 is being_developed: there is nothing to review\n")

    team.script(["as eve", "do -de -c 12"])

    class Slow(io.StringIO):
        def readline(self):
            team.script(["as eve", "do -deu -c 12", put("develop.12", "src/m.c", "second\n"), "do -b -c 12", "do -de -c 12"])
            return "p\n"

    monkeypatch.setattr(sys, "stdin", Slow())
    status, _, err = team.ae("cal", "review", "12")
    assert status == 1 and err.startswith("aepass: change 12 has another digest now, ")
    assert "phase = being_reviewed;\n" in team.path("store/change.12").read_text()


def test_a_review_that_is_begun_first(team, monkeypatch):
    exempt(team, 12, "eve")
    team.script(["as ann", put("here", "p.attr", "develop_end_action = goto_awaiting_review;"), "do -pa -f p.attr"])
    team.script(["as eve", "do -cp -ow -c 12 src/m.c", put("develop.12", "src/m.c", "first\n"), "do -b -c 12", "do -de -c 12"])
    answers(monkeypatch, "n\n")
    assert team.ae("cal", "review", "12")[2] == MADE.format(12, "review begun") + MADE.format(12, "review given up")
    answers(monkeypatch, "pass\n")
    assert team.ae("cal", "review", "12")[2] == MADE.format(12, "review begun") + MADE.format(12, "review passed")


def test_merge(team):
    """Both sides' changes are there where they don't clash; where they do, it is said and marked."""
    assert team.ae("eve", "merge", folder="aegis.d/develop.12") == (0, "src/m.c: merged\n", MADE.format(12, 'file "src/m.c" copied'))
    assert team.path("develop.12/src/m.c").read_text() == "1 is one\ntwo\nthree\nfour\n5\n"
    assert team.path("develop.12.old/src/m.c").read_text() == "one\ntwo\nthree\nfour\n5\n"
    assert team.ae("eve", "merge", "12") == (0, "nothing is out of date\n", "")
    assert team.ae("eve", "merge", "11") == (1, "", "ae: change 11 is completed: nothing is developed\n")


def test_merge_where_both_changed_a_line(team):
    team.write("develop.12/src/m.c", "eins\ntwo\nthree\nfour\nfive\n")
    status, out, _ = team.ae("eve", "merge", "12")
    assert (status, out) == (1, "src/m.c: 1 conflict: look for <<<<<<<\n")
    text = team.path("develop.12/src/m.c").read_text()
    assert text == "<<<<<<< yours\neins\n=======\n1 is one\n>>>>>>> the project's\ntwo\nthree\nfour\nfive\n"


def test_merge_of_what_is_no_text(team):
    team.path("develop.12/src/m.c").write_bytes(b"a\0b")
    status, out, _ = team.ae("eve", "merge", "12")
    assert status == 1 and out == "src/m.c: not a text; it is as the project has it, and yours is aegis.d/develop.12.old/src/m.c\n"
    assert team.path("develop.12.old/src/m.c").read_bytes() == b"a\0b"


def test_use_is_a_shell_s(team, monkeypatch):
    said = "ae: a shell's default is set by its function `ae`: . /usr/local/share/aegis/profile.sh\n"
    assert team.ae("eve", "use", "12") == (2, "", said)
    monkeypatch.setenv("AE_SHELL", "profile")
    assert team.ae("eve", "use", "12") == (0, "12\n", "")
    assert team.ae("eve", "use", "13") == (1, "", "ae: there is no change 13\n")
    assert team.ae("eve", "use") == (0, "", "")


def test_a_branch(team, monkeypatch):
    """The same commands in a branch, which one stands in or names."""
    team.script(["as ann", "do -nd ann"])
    assert team.aegis("ann", "-br", "r1", "-begin", "2").returncode == 0
    shutil.rmtree(team.path("develop.12"))
    assert team.ae("ann", "status", folder="aegis.d/branch.r1")[1].split()[:2] == ["10", "being_developed"]
    status, _, err = team.ae("ann", "finish", folder="aegis.d/branch.r1/develop.10")
    assert status == 0 and err.endswith('aegis: project "r1": change 10: development ended, being reviewed\n')
    answers(monkeypatch, "p\n")
    assert team.ae("cal", "-br", "r1", "review", "10")[0] == 0
    assert team.ae("dee", "-br", "r1", "queue", "-q")[2].endswith('aegis: project "r1": change 10: integrated as delta 1\n')
    assert team.ae("dee", "-br", "r1", "log")[1].startswith("delta 1  change 10  ")
    assert team.ae("dee", "log")[1].startswith("delta 2  change 11  ")


INSTEAD = "grep -q twice src/m.c || exit 1\ncase $PWD in *integrate*) rm aegis.log; {}; exit 1 ;; esac\n"


@pytest.mark.parametrize("instead", ["mkdir aegis.log", "mkfifo aegis.log", "ln -s /nonexistent aegis.log"])
@pytest.mark.parametrize("words", [["queue"], ["queue", "-q"]], ids=" ".join)
def test_a_test_that_puts_something_in_the_place_of_the_log(team, words, instead):
    """The change goes back, and the next integration isn't held up."""
    script = [
        attributes("c"),
        "do -nc -f c.attr",
        "as bob",
        "do -db -c 13",
        "do -cp -c 13 src/m.c",
        put("develop.13", "src/m.c", "1 is one\ntwice\n"),
    ]
    script += ["do -nt -c 13 test/n.sh", put("develop.13", "test/n.sh", INSTEAD.format(instead)), *runs(13)]
    team.script(["as ann", *script, "do -de -c 13", "as cal", "do -rpass -c 13"])
    status, _, err = team.ae("dee", *words)
    assert status == 1 and "change 13: integration failed" in err and "Traceback" not in err, err
    assert "its log can't be read" in team.path("store/change.13").read_text()


def test_a_merge_writes_through_no_link(team, monkeypatch, tmp_path):
    """Whatever somebody puts in the place of a folder, just as a file of it is opened."""
    away, folder = tmp_path / "away", team.path("develop.12", "src")
    away.mkdir()
    (away / "m.c").write_text("own\n")
    opened = os.open

    def opens(path, flags, *more, **named):
        if flags & os.O_WRONLY and str(path).endswith("m.c") and not folder.is_symlink():
            folder.rename(folder.with_name("was"))
            folder.symlink_to(away)
        return opened(path, flags, *more, **named)

    monkeypatch.setattr(os, "open", opens)
    team.ae("eve", "merge", "12")
    assert folder.is_symlink() and (away / "m.c").read_text() == "own\n" and [path.name for path in away.iterdir()] == ["m.c"]
