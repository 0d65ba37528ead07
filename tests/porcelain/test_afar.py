"""`ae` in a clone of a host: what it shows is what the host shows, a commit becomes a change, and what is reviewed is what is passed."""
import argparse
import os
import re
import shlex
import subprocess

import pytest
from conftest import AE, attributes, runs

from aegis_porcelain import afar
from aegis_porcelain.failures import Misused

TEST = "grep -q twice src/m.c\n"


def ageless(text):
    """The text without how long a change has waited, since that differs between two calls."""
    return re.sub(r"\b\d+ (s|min)\b", "some time", text)


class Afar:
    """A user on another machine, with a clone of his own."""

    def __init__(self, host, user):
        self.host, self.user, self.top = host, user, host.place / f"{user}'s own"
        found = self.ae("clone", user, str(self.top), folder=host.place)
        assert found.returncode == 0, found.stderr

    def ae(self, *words, folder=None, given="", **more):
        env = {**self.host.env, "AEGIS_USER": "nobody", "AEGIS_PROGRAM": "/nonexistent", **more}
        return subprocess.run([AE, *words], cwd=folder or self.top, env=env, input=given, capture_output=True, text=True)

    def begin(self, *words):
        """Begins a command, which is answered later."""
        env = {**self.host.env, "AEGIS_PROGRAM": "/nonexistent"}
        pipes = {"stdin": subprocess.PIPE, "stdout": subprocess.PIPE, "stderr": subprocess.STDOUT}
        return subprocess.Popen([AE, *words], cwd=self.top, env=env, text=True, **pipes)

    def by_ssh(self, *words):
        """What the host says itself."""
        env = {"PATH": os.environ["PATH"], "SSH_ORIGINAL_COMMAND": shlex.join(words)}
        found = subprocess.run([AE, "serve", self.user], cwd=self.host.top, env=env, capture_output=True, text=True)
        return found.returncode, found.stdout


@pytest.fixture
def afar_of(host):
    return lambda user: Afar(host, user)


@pytest.fixture
def pushed(host, afar_of):
    """Bob's change 13, which he submitted from his clone."""
    bob = afar_of("bob")
    host.commit(bob.top, "say it twice\n\nAt length.", src__m_c="1 is one\ntwice\n", test__twice_sh=TEST)
    found = bob.ae("submit")
    assert found.returncode == 0 and "remote: change 13" in found.stderr, found.stderr
    return bob


def test_the_words_are_those_of_the_host(afar_of):
    """What waits, the deltas and what they did, from the top of the clone and from a folder in it; what isn't known says so."""
    eve = afar_of("eve")
    shown = {
        ("status",): ("ae", "status"),
        ("status", "-c", "12"): ("ae", "status", "12"),
        ("status", "--porcelain", "12"): ("ae", "status", "--porcelain", "12"),
        ("log", "-n", "1"): ("ae", "log", "-n", "1"),
        ("log", "--porcelain", "src"): ("ae", "log", "--porcelain", "src"),
        ("diff", "--delta", "1", "2", "test"): ("ae", "diff", "--delta", "1", "2", "test"),
        ("diff", "12"): ("ae", "diff", "12"),
        ("queue", "-q"): ("ae", "queue", "-q"),
        ("why",): ("ae", "why"),
        ("why", "24"): ("ae", "why", "24"),
    }
    for words, asked in shown.items():
        found, (status, said) = eve.ae(*words), eve.by_ssh(*asked)
        assert (found.returncode, ageless(found.stdout)) == (status, ageless(said)), (words, found)
        assert found.stdout or words in (("queue", "-q"), ("why",)), words
    assert eve.ae("log", "m.c", folder=eve.top / "src").stdout == eve.by_ssh("ae", "log", "src/m.c")[1] != ""
    assert eve.ae("diff", AEGIS_CHANGE="12").stdout == eve.by_ssh("ae", "diff", "12")[1] != ""
    for words in (("diff",), ("log", "../x"), ("log", "a b"), ("log", "$(id)"), ("queue", "--watch"), ("-br", "../x", "status")):
        found = eve.ae(*words)
        assert (found.returncode, found.stdout, found.stderr.count("\n")) == (2, "", 1), (words, found)
    missing = eve.ae("-br", "none", "status")
    assert missing.returncode == 1 and missing.stderr == "ae: there is no branch none\n"


def test_a_change_from_a_clone_to_a_delta(host, pushed, afar_of):
    """Submitted, taken up again by its number, reviewed, integrated and fetched, by `ae` and git alone."""
    host.git(pushed.top, "commit", "-q", "--amend", "-m", "say it more than once")
    assert pushed.ae("submit", "13").returncode == 0 and host.listing("pc").count("\n") == 4
    cal, dee = afar_of("cal"), afar_of("dee")
    found = cal.ae("review", "13", given="p\n")
    assert found.returncode == 0 and found.stderr.endswith("change 13: review passed\n"), found
    assert "+twice\n" in found.stdout and "change 13 of bob: say it twice\n" in found.stdout
    assert f"digest {host.listing('ce', '-c', '13').split()[4]}\n" in found.stdout
    again = cal.ae("review", "13")
    assert (again.returncode, again.stderr) == (1, "ae: change 13 is awaiting_integration: there is nothing to review\n")
    found = dee.ae("queue")
    assert found.returncode == 0 and found.stderr.endswith("change 13: integrated as delta 3\n"), found
    host.git(dee.top, "pull", "-q")
    assert (dee.top / "src/m.c").read_text() == "1 is one\ntwice\n"


def test_a_change_that_is_made_from_a_clone(host, afar_of):
    """An administrator makes it with all that it has, a developer takes it over and submits into it, and ends it where a run failed."""
    ann, bob = afar_of("ann"), afar_of("bob")
    text, reason = 'it\'s "said"; $(id)', "a -c 10 'reason'\nof two lines"
    words = ["--cause", "external_bug", "--description", "At length.", "--test-exempt", "--test-baseline-exempt", "--reason", reason]
    found = ann.ae("new", text, *words)
    assert (found.returncode, found.stdout) == (0, "13\n"), found
    record = host.path("store/change.13").read_text()
    assert 'brief_description = "it\'s \\"said\\"; $(id)";' in record and "why = \"a -c 10 'reason'\\nof two lines\"" in record, record
    for line in ('description = "At length.";', "cause = external_bug;", "test_exempt = true;", "test_baseline_exempt = true;"):
        assert f"\n{line}\n" in record, record
    assert "\nregression_test_exempt = false;\n" in record
    assert bob.ae("new", "-x").returncode == 2 and bob.ae("new", "--", "-x").returncode == 2 and bob.ae("begin").returncode == 2
    found = bob.ae("begin", "13", "--reason", "mine")
    assert (found.returncode, found.stdout) == (0, "commit here, and ae submit 13\n") and "development begun" in found.stderr, found
    assert ann.ae("begin", "13").returncode == 1
    host.commit(bob.top, "said", src__m_c="1 is one\ntwice\n", aegis_conf='build_command = "test -e ../../go";\n')
    assert bob.ae("submit", "13").returncode == 1 and host.listing("pc").count("13 being_developed") == 1
    (host.top / "go").touch()
    found = bob.ae("finish", "-q", "13")
    assert found.returncode == 1 and "build: status 0" in found.stderr, found
    assert bob.ae("finish", "12").stderr.startswith("aegis: 10: ")


def test_what_is_given_on_the_host_alone(afar_of):
    """It is said in a line, with what does it from a clone; what needs no project isn't kept."""
    bob = afar_of("bob")
    for words in (("merge", "12"), ("git", "x"), ("json",), ("pages", "x"), ("prove", "1"), ("backup", "x"), ("host", "init")):
        found = bob.ae(*words)
        assert (found.returncode, found.stdout, found.stderr.count("\n")) == (2, "", 1) and "on the host" in found.stderr, found
    assert bob.ae("merge", "12").stderr.endswith("; here fetch, git rebase, and ae submit N\n")
    store = bob.host.path("store")
    assert bob.ae("audit", "--store", str(store)).returncode == 0
    assert bob.ae("merge", "12", folder=bob.host.place).stderr == "ae: there is no project in this folder, nor in one above\n"


def test_a_review_that_fails_or_is_given_back(host, pushed, afar_of):
    """The reason comes as it was written; a review that was begun only to look is given back."""
    cal = afar_of("cal")
    assert cal.ae("review", "13", given="n\n").stdout.endswith("it is as it was\n") and host.listing("pc").count("being_reviewed") == 1
    reason = "it's \"wrong\"; $(id) 'again' -c 12"
    assert cal.ae("review", "13", given=f"f\n{reason}\n").returncode == 0
    assert host.listing("pc").count("13 being_developed") == 1
    assert ("why = " + '"' + reason.replace('"', '\\"') + '"').encode() in host.path("store/change.13").read_bytes()
    host.script(["as ann", 'put here p.attr "develop_end_action = goto_awaiting_review;"', "do -pa -f p.attr"])
    assert pushed.ae("submit").returncode == 0 and host.listing("pc").count("13 awaiting_review") == 1
    found = cal.ae("review", "13", given="n\n")
    assert "review begun" in found.stderr and "review given up" in found.stderr and host.listing("pc").count("13 awaiting_review") == 1


def test_what_is_passed_is_what_was_shown(host, pushed, afar_of):
    """Neither what was frozen since it was fetched is passed, nor what somebody put into the repository."""
    cal = afar_of("cal")
    with cal.begin("review", "13") as review:
        said = [review.stdout.readline()]
        while "pass it" not in said[-1]:
            said.append(review.stdout.readline())
        host.commit(pushed.top, "worse", src__m_c="1 is one\ntwice\nand more\n")
        assert pushed.ae("submit", "13").returncode == 0
        end = review.communicate("p\n")[0]
    assert review.returncode == 1 and "change 13 has another digest now" in end and host.listing("pc").count("13 being_reviewed") == 1
    mirror = host.top / "aegis.git"
    for make in (other_tree, other_message):
        host.git(mirror, "update-ref", "refs/changes/13/head", make(host, mirror))
        found = cal.ae("review", "13", given="p\n")
        assert (found.returncode, found.stdout) == (1, "") and "and says another" in found.stderr, found
    assert host.listing("pc").count("13 being_reviewed") == 1


def other_tree(host, mirror):
    """A commit that says the same of other files."""
    message = host.git(mirror, "log", "-1", "--format=%B", "refs/changes/13/head").stdout
    return host.git(mirror, "commit-tree", "-p", "delta-2", "-m", message, "delta-1^{tree}").stdout.strip()


def other_message(host, mirror):
    """A commit of the right files that leaves its digest out."""
    head = "refs/changes/13/head"
    return host.git(mirror, "commit-tree", "-p", "delta-2", "-m", "x\n\nAegis-Delta: 2", f"{head}^{{tree}}").stdout.strip()


def test_in_a_branch(host, afar_of):
    """A clone of a branch is of that branch, whatever its name is in git."""
    host.script(["as ann", "do -nd ann"])
    assert host.aegis("ann", "-br", "r.1", "-begin", "2").returncode == 0
    lines = ["as ann", *runs(10, first=True), "do -de -c 10", "as cal", "do -rpass -c 10", "as dee", "do -ib -c 10", *runs(10, first=True)]
    lines += ["do -ipass -c 10", "as ann", attributes("x")]
    subprocess.run([host.program, "-br", "r.1", "-scr"], cwd=host.top, input="\n".join(lines) + "\n", capture_output=True, text=True)
    eve = afar_of("eve")
    host.git(eve.top, "checkout", "-q", "branch/r.1")
    assert eve.ae("log").stdout == eve.by_ssh("ae", "-br", "r.1", "log")[1] != eve.by_ssh("ae", "log")[1]
    host.commit(eve.top, "mended", src__m_c="1 is one\ntwice\n", test__t2_sh=TEST)
    found = eve.ae("submit")
    assert found.returncode == 0 and 'project "r.1": change 11: development ended' in found.stderr, found
    found = afar_of("cal").ae("-br", "r.1", "review", "11", given="p\n")
    assert found.returncode == 0 and found.stderr.endswith('project "r.1": change 11: review passed\n'), found


def test_what_is_no_host(host, tmp_path):
    """Nothing that ssh or git would take for an option, or for a command; and no clone at all."""
    for name in (
        "-oProxyCommand=touch${IFS}x",
        "--upload-pack=id",
        "",
        "a b",
        "a;b",
        "a:b",
        "ext::sh -c id",
        "a/b",
        "file:///x",
        "u@-x",
        "ä",
    ):
        with pytest.raises(Misused):
            afar.url_of(name)
    for name in ("host", "u@host", "a.b-c", "10.0.0.1", "ssh://u@host:2222", "ssh://host", "ssh://[::1]:22"):
        assert afar.url_of(name).endswith("aegis.git")
    env = {**host.env, "AEGIS_PROGRAM": host.program}

    def ae(*words, folder=tmp_path):
        return subprocess.run([AE, *words], cwd=folder, env=env, capture_output=True, text=True)

    assert ae("clone", "--", "-oProxyCommand=id").returncode == 2
    assert ae("status").stderr == "ae: there is no project in this folder, nor in one above\n"
    assert ae("submit").stderr == "ae: this is no clone of a host: ae clone HOST makes one\n"
    host.git(".", "init", "-q", tmp_path / "own")
    host.git(tmp_path / "own", "config", "aegis.host", "-oProxyCommand=touch x")
    assert ae("status", folder=tmp_path / "own").returncode == 2 and not (tmp_path / "own/x").exists()
    # where there is a project, it is asked itself
    assert ae("log", folder=host.top).returncode == 0


def test_each_command_is_one_of_ae():
    from aegis_porcelain.main import COMMANDS, parser_of

    for name in afar.COMMANDS:
        assert name in COMMANDS and isinstance(parser_of([name]), argparse.ArgumentParser)
