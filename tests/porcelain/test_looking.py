"""ae log, ae diff and ae why over a worked project, and how `ae` ends where a word isn't right."""
import fcntl
import hashlib

import pytest

EMPTY = (0, "", "")


def test_log(team):
    status, said, _ = team.ae("bob", "log")
    assert status == 0
    lines = said.splitlines()
    assert lines[0].startswith("delta 2  change 11  ") and lines[0].endswith("  m is faster")
    assert lines[1:3] == [
        "    developed by bob, reviewed by cal, integrated by dee; internal_enhancement",
        "    review_pass by cal: read twice",
    ]
    assert lines[3] == "    2 files"
    assert lines[4].startswith("    builds: 1, tests: 1, tests on the baseline: 1, tests of the project: 1; tree ")
    audit = team.aegis("bob", "-aud").stdout.splitlines()
    assert [line.split()[-1] for line in lines if "; tree" in line] == [line.split()[5].rstrip(",") for line in reversed(audit)]
    assert team.ae("bob", "log", "-n", "1")[1] == "\n".join(lines[:5]) + "\n"


def test_log_of_paths(team):
    digest = hashlib.sha256(b"1 is one\ntwo\nthree\nfour\nfive\n").hexdigest()
    said = team.ae("bob", "log", "src/m.c")[1]
    assert f"    modify src/m.c, edit 2 sha256 {digest}\n" in said and said.count("delta ") == 2
    assert team.ae("bob", "log", "m.c", folder="aegis.d/develop.12/src")[1] == said
    assert team.ae("bob", "log", "aegis.d/develop.12/src/m.c")[1] == said
    assert team.ae("bob", "log", "src")[1] == said
    assert team.ae("bob", "log", "test/u.sh")[1].count("delta ") == 1
    rows = [line.split("\t") for line in team.ae("bob", "log", "--porcelain", "src")[1].splitlines()]
    assert [(row[0], row[1], *row[3:8]) for row in rows] == [
        ("2", "11", "bob", "cal", "dee", "src/m.c", "2"),
        ("1", "10", "bob", "cal", "dee", "src/m.c", "1"),
    ]
    assert team.ae("bob", "log", "src/n.c") == (1, "", 'ae: the project never had "src/n.c"\n')


def test_diff_by_phase(team):
    status, said, _ = team.ae("eve", "diff", folder="aegis.d/develop.12")
    assert status == 0 and [line for line in said.splitlines() if line[:1] in "+-"] == ["--- a/src/m.c", "+++ b/src/m.c", "-five", "+5"]
    assert team.ae("eve", "diff", "12")[1] == team.ae("eve", "diff", "-c", "12", "src")[1] == said
    assert team.ae("eve", "diff", "12", "aegis.conf") == EMPTY
    said = team.ae("eve", "diff", "11")[1]
    assert "\n-one\n+1 is one\n" in said and "+++ b/test/u.sh\n" in said
    assert said == team.ae("eve", "diff", "--delta", "2")[1] == team.ae("eve", "diff", "--delta", "1", "2")[1]
    assert "+++" not in team.ae("eve", "diff", "--delta", "2", "src")[1].replace("+++ b/src/m.c", "")
    assert team.ae("eve", "diff", "--delta", "3") == (1, "", "ae: there is no delta 3\n")
    assert team.ae("eve", "diff", "--delta", "x") == (2, "", 'ae: "x" is no number of a delta\n')


def test_diff_of_what_is_frozen(team):
    """What is frozen is shown, with its digest, and not what the developer has written since."""
    team.script(
        [
            "as ann",
            'put here e.attr "test_exempt = true; regression_test_exempt = true;"',
            "do -ca -c 12 -f e.attr",
            "as eve",
            "do -cp -ow -c 12 src/m.c",
        ]
    )
    team.write("develop.12/src/m.c", "frozen\n")
    team.script(["as eve", "do -b -c 12", "do -de -c 12"])
    team.write("develop.12/src/m.c", "later\n")
    said = team.ae("cal", "diff", "12")[1]
    digest = hashlib.sha256(f"src/m.c 7 {hashlib.sha256(b'frozen' + bytes([10])).hexdigest()}\n".encode()).hexdigest()
    assert "+frozen\n" in said and "later" not in said and said.endswith(f"change 12: digest {digest}\n")


def test_why(team):
    assert team.ae("eve", "why") == (0, "aewhy: nothing found; AEGIS_TRACE=1 has a command say what failed\n", "")
    with open(team.path("lock")) as lock:
        fcntl.flock(lock, fcntl.LOCK_EX)
        status, said, _ = team.ae("eve", "why", folder="aegis.d/develop.12")
    assert status == 1 and said.startswith("aewhy: another command holds the lock: ") and "pytest" in said
    assert team.ae("eve", "why", "24")[1].endswith("24: ae merge N\n")
    assert team.ae("eve", "why", "48") == (2, "", "ae: no refusal has the number 48\n")
    project = team.path("store/files")
    project.write_bytes(project.read_bytes()[:-9])
    status, said, _ = team.ae("eve", "why")
    assert status == 1 and said.startswith('ae: "files" is damaged: ')


@pytest.mark.parametrize(
    "words, said",
    [
        (["nothing"], "ae: argument COMMAND: invalid choice: 'nothing' "),
        (["status", "x"], 'ae status: argument N: "x" is no number of a change; '),
        (["-br", "../x", "status"], 'ae: "../x" is no name of a branch\n'),
        (["diff"], "ae: which change? Name it, "),
    ],
)
def test_words_that_are_not_understood(team, words, said):
    status, out, err = team.ae("eve", *words)
    assert (status, out) == (2, "") and err.startswith(said) and err.count("\n") == 1


def test_a_change_by_the_variable(team, monkeypatch):
    monkeypatch.setenv("AEGIS_CHANGE", "12")
    assert "+5\n" in team.ae("eve", "diff")[1]
    monkeypatch.setenv("AEGIS_CHANGE", "x")
    assert team.ae("eve", "diff") == (2, "", 'ae: AEGIS_CHANGE: "x" is no number of a change\n')
    assert team.ae("eve", "diff", "99") == (1, "", "ae: there is no change 99\n")


def test_attributes_of_a_user_s_own_hide_nothing(team, tmp_path, monkeypatch):
    """What git takes for no text, or leaves out, by a file of the user's home, is shown as to anybody."""
    (tmp_path / ".config" / "git").mkdir(parents=True)
    (tmp_path / ".config" / "git" / "attributes").write_text("* -diff ident\n")
    wanted = team.ae("eve", "diff", "12")[1]
    monkeypatch.setenv("HOME", str(tmp_path))
    monkeypatch.delenv("XDG_CONFIG_HOME", raising=False)
    assert team.ae("eve", "diff", "12")[1] == wanted != "" and "Binary" not in wanted
