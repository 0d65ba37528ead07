"""A push is a change: what becomes of one, what is refused, and that one which was stopped is gone on with."""
import os
import shutil
import signal
import subprocess
import time
from pathlib import Path

import pytest
from conftest import SETTINGS, attributes, released, runs

TEST = "grep -q twice src/m.c\n"


def test_a_push_is_a_change(host, bob):
    """Made, built, tested and ended by it; the same again is the same; another goes on with it; and a fetch has its delta."""
    host.commit(
        bob, "say it twice\n\nAt length.", src__m_c="1 is one\ntwice\n", test__twice_sh=TEST, aegis_tests="*.x\n!*.sh\n", own_x=TEST
    )
    status, said = host.push(bob)
    assert status == 0 and "remote: change 13" in said and 'baseline test "own.x": status 1' in said, said
    assert host.listing("cd", "-c", "13").splitlines()[1:3] == ["brief_description: say it twice", "description: At length."]
    files = ["create source    0 aegis.tests", "create test      0 own.x", "modify source    2 src/m.c", "create source    0 test/twice.sh"]
    assert [" ".join(line.split()) for line in host.listing("cf", "-c", "13").splitlines()] == [" ".join(line.split()) for line in files]
    before = host.digest()
    assert host.push(bob)[0] == 0 and host.digest() == before
    (bob / "aegis.tests").write_text("/test/\n")
    host.git(bob, "rm", "-q", "-f", "own.x")
    host.git(bob, "commit", "-q", "-a", "--amend", "-m", "say it twice\n\nAegis-Change: 13")
    status, said = host.push(bob)
    assert status == 0 and "development resumed" in said or "remote: change 13" in said, said
    assert [line.split()[::3] for line in host.listing("cf", "-c", "13").splitlines()][2] == ["create", "test/twice.sh"]
    host.script(
        ["as cal", "do -rpass -c 13", "as dee", "do -ib -c 13"] + [f"do {run} -c 13" for run in ("-b", "-t", "-t -bl", "-t -reg", "-ipass")]
    )
    host.git(bob, "fetch", "-q")
    assert host.git(bob, "diff", "--stat", "HEAD", "origin/baseline").stdout == ""
    before = host.digest()
    assert host.push(bob)[0] == 0 and host.digest() == before
    host.git(bob, "commit", "-q", "--amend", "-m", "another\n\nAegis-Change: 13")
    assert host.push(bob)[1].count("5: change 13 is completed") == 0
    host.commit(bob, "more\n\nAegis-Change: 13", src__m_c="1 is one\n")
    assert host.push(bob)[1].count("5: change 13 is completed") == 1


def test_a_push_that_fails_is_pushed_again(host, bob):
    """It is answered with the end of the log, and goes on by the number of its change."""
    host.commit(bob, "twice", src__m_c="1 is one\n", tests__t_sh="echo it is not so; " + TEST)
    status, said = host.push(bob)
    assert status == 1 and "remote: it is not so" in said and "push again with -o change=13" in said
    host.commit(bob, "twice", src__m_c="1 is one\ntwice\n")
    assert host.push(bob, "HEAD:refs/for/baseline", "change=13")[0] == 0
    assert host.listing("pc").count("being_reviewed") == 1


def test_a_push_that_goes_on_over_another_baseline(host, bob):
    """What another change has removed meanwhile isn't in its directory any more, where its tests run."""
    host.commit(bob, "x", own="x", tests__t2_sh="test -e own && test ! -e test/u.sh\n")
    status, said = host.push(bob)
    assert status == 1 and '(project "demo": change 13: test "tests/t2.sh": status 1; push again with -o change=13)' in said, said
    both = ["do -b -c 14", "do -t -c 14 -reg"]
    made = ["as ann", attributes("less", test_exempt="true"), "do -nc -f c.attr", "as eve", "do -db -c 14", "do -rm -c 14 test/u.sh"]
    host.script([*made, *both, "do -de -c 14", "as cal", "do -rpass -c 14", "as dee", "do -ib -c 14", *both, "do -ipass -c 14"])
    host.git(bob, "fetch", "-q")
    host.git(bob, "rebase", "-q", "origin/baseline")
    status, said = host.push(bob, "HEAD:refs/for/baseline", "change=13")
    assert status == 0 and not host.path("develop.13/test/u.sh").exists(), said


def test_a_push_into_a_branch(host, bob):
    """It is a change of the branch, and grows from the branch's own deltas."""
    host.script(["as ann", "do -nd ann"])
    assert host.aegis("ann", "-br", "r.1", "-begin", "2").returncode == 0
    branch = "HEAD:refs/for/branch/r.1"
    host.commit(bob, "too early", src__m_c="1 is one\ntwice\n", test__t2_sh=TEST)
    assert "branch r.1 has no delta yet" in host.push(bob, branch)[1]
    first = [*runs(10, first=True), *released(10, first=True)]
    words = [host.program, "-br", "r.1", "-scr"]
    done = subprocess.run(words, cwd=host.top, input="\n".join(["as ann", *first]) + "\n", capture_output=True, text=True)
    assert "integrated as delta 1" in done.stdout, done.stdout
    assert "24: fetch and rebase: the baseline has changed src/m.c" in host.push(bob, branch)[1]
    host.git(bob, "fetch", "-q")
    host.git(bob, "rebase", "-q", "origin/branch/r.1")
    before = host.listing("pc")
    status, said = host.push(bob, branch)
    assert status == 0 and 'project "r.1": change 11: development ended' in said and host.listing("pc") == before, said
    assert "there is no branch other" in host.push(bob, "HEAD:refs/for/branch/other")[1]


def hostile(host, bob):
    """Pushes that are refused: what is made of the clone, and what is pushed where."""
    plain = {"src__m_c": "1 is one\nthen\n"}

    def blob(text):
        return host.git(bob, "hash-object", "-w", "--stdin", input=text).stdout.strip()

    def index(*rows):
        for mode, path in rows:
            host.git(
                bob, "update-index", "--add", "--replace", "--cacheinfo", f"{mode},{blob('x') if mode != '160000' else 'a' * 40},{path}"
            )
        host.git(bob, "commit", "-q", "-m", "x")

    for path in ("-x", "a b", "a;b", "x" * 252 + ".txt", "ä", "a\nb", "aegis.log", "a:b", "a/-b c", "$(id)"):
        yield f"no path {ascii(path)}", lambda path=path: index(("100644", path)), "HEAD:refs/for/baseline", "is no path that a project has"
    yield "a link", lambda: index(("120000", "link")), "HEAD:refs/for/baseline", "link is a link"
    yield "a submodule", lambda: index(("160000", "sub")), "HEAD:refs/for/baseline", "sub is a submodule"
    yield "a link in a file's place", lambda: index(("120000", "src/m.c")), "HEAD:refs/for/baseline", "src/m.c is a link"
    yield "large", lambda: host.commit(bob, "x", large="x" * 4_194_305), "HEAD:refs/for/baseline", "37: large has 4194305 bytes"
    many = {f"f{number}": "" for number in range(1001)}
    yield "many", lambda: host.commit(bob, "x", **many), "HEAD:refs/for/baseline", "37: more than 1000 files differ"
    yield "a tree that has itself", lambda: bomb(host, bob, blob("x")), "HEAD:refs/for/baseline", "37: more than 1000 files differ"
    yield "folders without a file", lambda: bomb(host, bob, ""), "HEAD:refs/for/baseline", "is a folder without a file"
    yield "nothing", lambda: host.git(bob, "commit", "-q", "--allow-empty", "-m", "x"), "HEAD:refs/for/baseline", "nothing differs"
    yield "a mode alone", lambda: (
        os.chmod(bob / "src/m.c", 0o755),
        host.git(bob, "commit", "-qam", "x"),
    ), "HEAD:refs/for/baseline", "nothing"
    yield "a message", lambda: host.commit(bob, "x" * 12_001, **plain), "HEAD:refs/for/baseline", "more than 12000 bytes"
    yield "two numbers", lambda: host.commit(bob, "x\n\nAegis-Change: 13", **plain), "HEAD:refs/for/baseline/12", "not for 12 and 13"
    yield "a trailer", lambda: host.commit(bob, "x\n\nAegis-Change: $(id)", **plain), "HEAD:refs/for/baseline", "is its number"
    yield "no parent", lambda: host.git(bob, "checkout", "-q", "--orphan", "o") and host.commit(
        bob, "x", **plain
    ), "HEAD:refs/for/baseline", "doesn't grow"

    def old():
        host.git(bob, "checkout", "-q", "origin/baseline~1")
        host.commit(bob, "x", **plain)

    yield "changed since", old, "HEAD:refs/for/baseline", "24: fetch and rebase: the baseline has changed src/m.c"
    refs = {
        "refs/for/other": "push to refs/for/baseline",
        "refs/for/baseline/x": "push to",
        "refs/for/baseline/99": "there is no change 99",
    }
    refs |= {"refs/for/baseline/11": "5: change 11 is completed", "refs/for/baseline/12": "10: the developer of change 12 is eve"}
    refs |= {"refs/for/branch/none": "there is no branch none", "refs/for/branch/../x": "", "refs/for/branch": "push to", "refs/for": ""}
    refs |= {"refs/heads/baseline": "", "refs/heads/x": "", "refs/tags/delta-1": "", "refs/tags/delta-9": "", "refs/changes/12/head": ""}
    refs |= {
        "refs/aegis/changes/12": "",
        "refs/aegis/begun/x": "",
        "refs/replace/" + "a" * 40: "",
        "refs/for/baseline/0012345678901": "push to",
    }
    for ref, said in refs.items():
        yield ref, lambda: host.commit(bob, "x", **plain), f"+HEAD:{ref}", said
    yield "a removal", lambda: None, ":refs/for/baseline", ""
    yield "a tag", lambda: host.git(bob, "tag", "-a", "-f", "-m", "x", "t"), "t:refs/for/baseline", "no commit"
    yield "a tree", lambda: host.git(bob, "tag", "-f", "u", "HEAD^{tree}"), "u:refs/for/baseline", "no commit"


def bomb(host, bob, inner):
    """Makes a commit of few objects whose tree has a thousand million paths; without an inner one they are folders."""
    kind = "100644 blob" if inner else "040000 tree"
    inner = inner or host.git(bob, "mktree", input="").stdout.strip()
    for _ in range(9):
        rows = "".join(f"{kind} {inner}\tf{number}\n" for number in range(10))
        inner, kind = host.git(bob, "mktree", input=rows).stdout.strip(), "040000 tree"
    commit = host.git(bob, "commit-tree", "-p", "HEAD", "-m", "x", inner).stdout.strip()
    host.git(bob, "update-ref", "HEAD", commit)


def test_hostile_pushes(host, bob):
    """Each is answered by a line, and nothing of the project changes."""
    before, refs = host.digest(), host.git(host.top / "aegis.git", "for-each-ref").stdout
    count = 0
    for name, make, to, said in hostile(host, bob):
        host.git(bob, "checkout", "-q", "-f", "--detach", "origin/baseline")
        host.git(bob, "clean", "-q", "-f", "-d")
        make()
        status, answer = host.push(bob, to)
        assert status != 0 and said in answer and "Traceback" not in answer, (name, answer)
        assert host.digest() == before, name
        count += 1
    for option in ("change=x", "change=12;id", "other", "change="):
        assert host.push(bob, "HEAD:refs/for/baseline", option)[1].count("the option that a push has is change=N") == 1
    assert count >= 40 and host.git(host.top / "aegis.git", "for-each-ref").stdout == refs


def test_who_may_not_push(host):
    """A user without the role, one who may make no change, and one whose path another change holds."""
    cal = host.clone("cal")
    host.commit(cal, "x", src__m_c="other\n")
    assert "7: you are not a developer" in host.push(cal)[1]
    bob = host.clone("bob")
    host.commit(bob, "twice", src__m_c="1 is one\ntwice\n", test__twice_sh=TEST)
    assert host.push(bob)[0] == 0
    eve = host.clone("eve")
    host.commit(eve, "x", src__m_c="1 is one\nother\n")
    before = host.digest()
    assert "23: src/m.c is locked by change 13 of bob" in host.push(eve)[1] and host.digest() == before
    host.script(["as ann", SETTINGS.replace("true", "false"), "do -pa -f p.attr", "do -rrv cal", "do -nrv cal"])
    host.commit(eve, "y", new="x")
    assert "6: you are not an administrator" in host.push(eve)[1]


def test_nothing_is_written_through_a_link(host, bob, tmp_path):
    """Links that a build made in the develop directory lead nowhere."""
    host.commit(bob, "x", src__m_c="1 is one\n", deep__f="x", own="x", test__t_sh="exit 1\n")
    assert host.push(bob)[0] == 1
    away = tmp_path / "away"
    away.mkdir()
    (away / "own").write_text("kept")
    shutil.rmtree(host.path("develop.13/deep"))
    host.path("develop.13/deep").symlink_to(away)
    host.path("develop.13/own").unlink()
    host.path("develop.13/own").symlink_to(away / "own")
    host.commit(bob, "y", own="y", deep__f="y")
    status, said = host.push(bob, "HEAD:refs/for/baseline/13")
    assert status == 1 and [path.name for path in away.iterdir()] == ["own"] and (away / "own").read_text() == "kept", said
    assert "deep" in said


@pytest.mark.parametrize("call, when", [(1, "before"), (1, "after"), (2, "after"), (3, "before"), (4, "after"), (6, "before")])
def test_a_push_that_was_stopped(host, bob, tmp_path, call, when):
    """The hook is killed beside a command that it gives. The same push again goes on, and there is one change."""
    counted, killer = tmp_path / "count", tmp_path / "killer"
    kill = f'[ "$(wc -c <{counted})" != {call} ] || kill -9 $PPID\n'
    lines = [
        f"printf x >>{counted}\n",
        kill if when == "before" else "",
        f'{host.program} "$@"\nstatus=$?\n',
        kill if when == "after" else "",
    ]
    killer.write_text("#!/bin/sh\n" + "".join(lines) + "exit $status\n")
    killer.chmod(0o755)
    host.init(killer)
    counted.write_text("")
    host.commit(bob, "twice", src__m_c="1 is one\ntwice\n", test__twice_sh=TEST)
    assert host.push(bob)[0] != 0
    host.init(host.program)
    status, said = host.push(bob)
    assert status == 0 and "change 13" in said, said
    assert host.listing("pc").count("\n") == 4 and host.listing("pc").count("being_reviewed") == 1
    assert host.git(host.top / "aegis.git", "for-each-ref", "refs/aegis/begun").stdout == ""


HOLDS = """#!/bin/sh
case " $* " in *" {word} "*)
    if mkdir {place}/held 2>/dev/null; then
        echo $$ >{place}/held/pid.new && mv {place}/held/pid.new {place}/held/pid
        while [ ! -e {place}/go ]; do sleep 0.1; done
    fi ;;
esac
exec {program} "$@"
"""
TIMES = int(os.environ.get("AE_KILLS", "1"))


def until(is_so):
    """Waits until something holds."""
    for _ in range(6000):
        if is_so():
            return
        time.sleep(0.05)
    raise AssertionError("it never came")


def parents(pid):
    """The processes over one, up to this one."""
    found = []
    while True:
        pid = int((Path("/proc") / str(pid) / "stat").read_text().rpartition(")")[2].split()[1])
        if pid == os.getpid():
            return found
        found.append(pid)


def read_to(file, text):
    """What comes up to a line with this text, or to the end."""
    found = []
    while not found or (found[-1] and text not in found[-1]):
        found.append(file.readline())
    return "".join(found)


@pytest.mark.parametrize("turn", range(TIMES))
@pytest.mark.parametrize("word, waits", [("-nc", True), ("-nt", True), ("-b", False), ("-de", True)])
def test_a_command_that_outlives_its_push(host, bob, tmp_path, word, waits, turn):
    """Each process of a push is killed but the command that it gave, which goes on later. The same push again ends as the one change."""
    holds = tmp_path / "holds"
    holds.write_text(HOLDS.format(word=word, place=tmp_path, program=host.program))
    holds.chmod(0o755)
    host.init(holds)
    host.commit(bob, "twice", src__m_c="1 is one\ntwice\n", test__twice_sh=TEST)
    words = ["git", "push", "origin", "HEAD:refs/for/baseline"]
    started = {"cwd": bob, "env": host.env, "stdout": subprocess.DEVNULL, "stderr": subprocess.PIPE, "text": True}
    with subprocess.Popen(words, **started) as first:
        until(lambda: (tmp_path / "held" / "pid").exists())
        held = int((tmp_path / "held" / "pid").read_text())
        for process in parents(held):
            os.kill(process, signal.SIGKILL)
    with subprocess.Popen(words, **started) as second:
        # for a command it waits, as it says; for a run it doesn't
        said = read_to(second.stderr, "waiting for that") if waits else second.stderr.read()
        (tmp_path / "go").touch()
        assert ("waiting for that" in said) == waits, said
        said += second.stderr.read()
    until(lambda: not (Path("/proc") / str(held)).exists())
    assert first.returncode != 0 and second.returncode == 0 and "change 13" in said, said
    assert host.listing("pc").count("\n") == 4 and host.listing("cf", "-c", "13").count("\n") == 2
    assert host.listing("pc").count("being_reviewed") == 1
    assert host.push(bob)[0] == 0
