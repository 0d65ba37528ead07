"""`ae host` makes the repository to which a team comes, and lets keys in and out; what is pushed to its own refs is refused."""
import os
import pwd
import shlex
import stat
import subprocess

import pytest
from conftest import TESTS, attributes, put, released, runs

from aegis_porcelain import keys

AE = str(TESTS.parent / "share" / "ae")


@pytest.fixture
def key(tmp_path):
    """Makes keys, and answers their public lines."""

    def made(name):
        subprocess.run(["ssh-keygen", "-q", "-t", "ed25519", "-N", "", "-C", "of mine", "-f", tmp_path / name], check=True)
        return (tmp_path / f"{name}.pub").read_text()

    return made


def host(team, *words, given=""):
    """A command of `ae host` in the project's folder."""
    env = {"PATH": os.environ["PATH"], "AEGIS_PROGRAM": team.program}
    return subprocess.run([AE, "host", *words], cwd=team.top, env=env, input=given, capture_output=True, text=True)


@pytest.fixture
def hosted(team):
    found = host(team, "init", "--keys", "home/.ssh/authorized_keys")
    assert (found.returncode, found.stdout) == (0, f"{team.top}/aegis.git: ae host add USER < KEY.pub lets a key in\n"), found
    # the third account isn't there
    assert "is built and tested as " + pwd.getpwuid(os.geteuid()).pw_name in found.stderr
    return team


def git(team, *words):
    found = subprocess.run(["git", "--git-dir", team.top / "aegis.git", *words], capture_output=True, text=True)
    return found.stdout.strip()


def test_init_may_be_given_again(hosted):
    before = git(hosted, "for-each-ref")
    assert before.count("refs/tags/delta-") == 2 and "refs/heads/baseline" in before
    assert host(hosted, "init", "--keys", "home/.ssh/authorized_keys").returncode == 0 and git(hosted, "for-each-ref") == before
    assert git(hosted, "config", "receive.fsckObjects") == "true" and git(hosted, "config", "aegis.program") == hosted.program
    assert stat.S_IMODE((hosted.top / "aegis.git").stat().st_mode) == 0o700


def refs(folder):
    said = subprocess.run(["git", "--git-dir", folder, "for-each-ref", "refs/heads", "refs/tags"], capture_output=True, text=True)
    return said.stdout.splitlines()


def test_a_mirror_gets_what_it_lacks(hosted, tmp_path):
    """It has the ids that `ae git` gives a new repository, of the trunk and of branches; another delta in the place of one isn't kept."""
    files = [put("develop.13", "new", "new\n"), "do -nf -c 13 new", "do -b -c 13", "do -t -c 13 -reg"]
    exempt = attributes("the third", test_exempt="true")
    hosted.script(["as ann", "do -nd ann", exempt, "do -nc -f c.attr", "as bob", "do -db -c 13", *files, "do -de -c 13"])
    hosted.script(["as cal", "do -rpass -c 13", "as dee", "do -ib -c 13", "do -b -c 13", "do -t -c 13 -reg", "do -ipass -c 13"])
    before = refs(hosted.top / "aegis.git")
    assert host(hosted, "init", "--keys", "keys").returncode == 0
    assert set(before[1:]) < set(refs(hosted.top / "aegis.git")) and len(before) == 3
    assert hosted.aegis("ann", "-br", "r.1", "-begin", "2").returncode == 0
    first = "\n".join(["as ann", *runs(10, first=True), *released(10, first=True)]) + "\n"
    done = subprocess.run([hosted.program, "-br", "r.1", "-scr"], cwd=hosted.top, input=first, capture_output=True, text=True)
    assert "integrated as delta 1" in done.stdout, done.stdout
    assert host(hosted, "init", "--keys", "keys").returncode == 0
    subprocess.run([AE, "git", tmp_path / "new.git"], cwd=hosted.top, check=True, capture_output=True)
    assert refs(hosted.top / "aegis.git") == refs(tmp_path / "new.git") and len(refs(tmp_path / "new.git")) == 6
    git(hosted, "update-ref", "refs/tags/delta-3", "refs/tags/delta-2")
    (hosted.top / "aegis.git" / "aegis-stamp").unlink()
    assert "has another delta-3: it was made of another history" in host(hosted, "init", "--keys", "keys").stderr


def test_init_where_something_else_is(team, tmp_path):
    (team.top / "aegis.git").mkdir()
    (team.top / "aegis.git" / "x").touch()
    assert host(team, "init").stderr == f"ae: {team.top}/aegis.git is there, and wasn't made by ae git\n"
    (team.top / "aegis.git" / "x").unlink()
    (team.top / "aegis.git").rmdir()
    (team.top / "aegis.git").symlink_to(tmp_path)
    assert host(team, "init").stderr == f"ae: {team.top}/aegis.git is a link\n"
    assert host(team, "add", "bob").stderr == f"ae: there is no aegis.git in {team.top}: ae host init makes it\n"


def test_keys_are_users(hosted, key):
    """A line of each key; those of others stay; a key is of one user."""
    file = hosted.top / "home/.ssh/authorized_keys"
    bob, eve = key("bob"), key("eve")
    assert host(hosted, "add", "bob", given=bob).stdout == f"bob: key added to {file}\n"
    assert stat.S_IMODE(file.stat().st_mode) == 0o600 and stat.S_IMODE(file.parent.stat().st_mode) == 0o700
    file.write_text("# of root's\n" + file.read_text())
    assert host(hosted, "add", "eve", given=eve).returncode == 0
    assert host(hosted, "add", "ann", given=bob).stderr == f"ae: this key is in {file} already\n"
    lines = file.read_text().splitlines()
    front = f'command="cd {hosted.top} && exec /usr/bin/env -i SSH_ORIGINAL_COMMAND=\\"$SSH_ORIGINAL_COMMAND\\" {AE} serve bob",restrict '
    assert lines[:2] == ["# of root's", front + " ".join(bob.split()[:2]) + " bob"] and len(lines) == 3
    assert host(hosted, "remove", "bob").stdout == f"bob: 1 key removed from {file}\n"
    assert file.read_text().splitlines() == [lines[0], lines[2]]
    assert host(hosted, "remove", "bob").stderr == f"ae: bob has no key in {file}\n"


def test_a_line_of_a_key_runs_the_one_command(hosted, key):
    """As sshd runs it: by sh, with the words of the caller in a variable."""
    host(hosted, "add", "bob", given=key("bob"))
    line = (hosted.top / "home/.ssh/authorized_keys").read_text()
    command = line[len('command="') : line.index('",restrict')].replace('\\"', '"')
    for asked, said in (
        ("aegis -na bob", "aegis: 6: you are not an administrator\n"),
        ('"; id; "', "ae: there is no shell: "),
        ("$(id)", "ae: "),
    ):
        env = {"SSH_ORIGINAL_COMMAND": asked, "AEGIS_USER": "ann", "PATH": os.environ["PATH"], "PYTHONPATH": "/nonexistent"}
        found = subprocess.run(["sh", "-c", command], env=env, cwd="/", capture_output=True, text=True)
        assert found.returncode and found.stdout == "" and found.stderr.startswith(said) and found.stderr.count("\n") == 1, found


def test_what_is_no_key(hosted, key):
    """Options before a key, more keys than one, another kind than it says, and names that aren't users."""
    own = key("own")
    kind, body = own.split()[:2]
    bad = [
        "",
        "x",
        f'command="sh" {own}',
        f"environment=A=b {own}",
        own + own,
        f"ssh-rsa {body}",
        f"{kind} {body[:-4]}!!==",
        f" {own}",
        f"{kind}  {body}",
    ]
    bad += [f"ssh-dss {body}", f"{kind} AAAA", f"restrict {own}", f"\n{own}", f"# {own}", f"{kind} {body} a\nssh-rsa x"]
    for text in bad:
        found = host(hosted, "add", "bob", given=text)
        assert (found.returncode, found.stdout, found.stderr.count("\n")) == (2, "", 1), text
    for user in ("Ann", 'a",no-x', "a b", "../x", "", "-x", "a\nb"):
        assert host(hosted, "add", user, given=own).returncode == 2
    assert not (hosted.top / "home").exists()


def test_folders_that_a_line_can_t_have():
    for top in ("/srv/a b", '/srv/a"', "/srv/$x", "/srv/a;b", "/srv/ä", "srv", "/srv/a\n"):
        with pytest.raises(keys.Failure):
            keys.front_of(top, "/usr/local/bin/ae", "bob")


def test_pushes_to_what_the_host_writes(hosted, tmp_path):
    """Each is refused by a sentence that says where to push, and a fetch has the new delta."""
    ssh = tmp_path / "ssh"
    ssh.write_text(f'#!/bin/sh\nshift\ncd "{hosted.top}" && exec env -i SSH_ORIGINAL_COMMAND="$*" {AE} serve eve\n')
    ssh.chmod(0o755)
    env = {**os.environ, "GIT_SSH_COMMAND": str(ssh), "GIT_SSH_VARIANT": "simple", "LC_ALL": "C"}
    env |= {f"GIT_{who}_{what}": "eve" for who in ("AUTHOR", "COMMITTER") for what in ("NAME", "EMAIL")}

    def own(*words):
        return subprocess.run(["git", *words], cwd=tmp_path / "own", env=env, capture_output=True, text=True)

    (tmp_path / "own").mkdir()
    assert own("clone", "-q", "-b", "baseline", "host:aegis.git", ".").returncode == 0
    before = git(hosted, "for-each-ref")
    assert own("commit", "-q", "--allow-empty", "-m", "x").returncode == 0
    for words in (
        "HEAD:refs/heads/baseline",
        "-f HEAD:refs/tags/delta-1",
        ":refs/tags/delta-1",
        "HEAD:refs/heads/x",
        "-f HEAD~2:refs/heads/baseline",
    ):
        found = own("push", "origin", *words.split())
        assert found.returncode == 1 and (
            "is written by the host alone; push to refs/for/baseline" in found.stderr or "denying ref deletion" in found.stderr
        ), found
    for words in ("--mirror", "--force origin HEAD:refs/changes/12/head", "origin HEAD:refs/aegis/x"):
        assert own("push", *words.split()).returncode != 0
    assert git(hosted, "for-each-ref") == before
    assert shlex.split(git(hosted, "config", "aegis.project")) == ["demo"]


def test_lines_of_others_stay_as_they_are(hosted, key):
    """Nothing but a line end ends a line: what follows another sign in a comment is no key that is let in."""
    file = hosted.top / "home/.ssh/authorized_keys"
    file.parent.mkdir(parents=True)
    other = f"restrict {key('other').strip()}".encode()
    lines = [
        other + sign + key(f"key{at}").encode()
        for at, sign in enumerate((b"\r", b"\x0c", b"\xc2\x85", "\u2028".encode(), b"\x1c", b"\xff"))
    ]
    file.write_bytes(b"".join(lines) + b"# no end")
    assert host(hosted, "add", "bob", given=key("bob")).returncode == 0
    assert file.read_bytes().startswith(b"".join(lines) + b"# no end\ncommand=") and file.read_bytes().count(b"\n") == len(lines) + 2
    assert host(hosted, "remove", "bob").returncode == 0 and file.read_bytes() == b"".join(lines) + b"# no end\n"


def test_all_keys_of_a_user_go(hosted, key):
    """Also one that was added when `ae` was at another place; those of a user whose name begins so stay."""
    file = hosted.top / "home/.ssh/authorized_keys"
    for user in ("bob", "bo", "bob.b"):
        assert host(hosted, "add", user, given=key(user)).returncode == 0
    lines = file.read_text().splitlines(keepends=True)
    file.write_text("".join([lines[0].replace(AE, "/opt/bin/ae"), *lines]))
    assert host(hosted, "remove", "bob").stdout == f"bob: 2 keys removed from {file}\n"
    assert file.read_text() == "".join(lines[1:])
