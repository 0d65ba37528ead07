"""`ae git` makes a commit of each delta, with the tree that the audit tells, and the same ids each time."""
import hashlib
import os
import re
import subprocess
from pathlib import Path
from typing import Any, Callable, Dict, List, Tuple

import projects
import pytest
import stores
from commands import ae

Lay = Callable[[Dict[str, bytes]], Path]
Audit = Callable[[Path], Any]


class ScriptMaker(stores.Maker):
    """Makes projects of whose files some are scripts."""

    def held(self) -> bytes:
        return b"#!/bin/sh\n" + super().held() if self.chance(0.4) else super().held()


def git(repository: Path, *words: str) -> bytes:
    """What git says."""
    return subprocess.run(["git", "--git-dir", repository, *words], capture_output=True, check=True).stdout


def refs(repository: Path) -> Dict[str, str]:
    """The refs of a repository."""
    return dict(line.split() for line in git(repository, "for-each-ref", "--format=%(refname) %(objectname)").decode().splitlines())


def digest_of(repository: Path, commit: str) -> str:
    """The digest of a commit's tree, from the bytes that git has."""
    lines = []
    for row in git(repository, "ls-tree", "-r", "-z", commit).split(b"\0")[:-1]:
        mode, _, blob, path = re.split(rb"[ \t]", row, 3)
        held = git(repository, "cat-file", "blob", blob.decode())
        assert mode == (b"100755" if held[:2] == b"#!" else b"100644")
        lines.append((path, b"%s %d %s\n" % (path, len(held), hashlib.sha256(held).hexdigest().encode())))
    return hashlib.sha256(b"".join(line for _, line in sorted(lines))).hexdigest()


def without_last_delta(made: stores.Made) -> None:
    """The store as it was before its last integration, as far as its deltas go."""
    last = made.records["project"]["deltas"].pop()
    made.records["project"]["changes"].remove(last["change"])
    del made.records[f"change.{last['change']}"]
    rows = made.records["files"]["files"]
    for row in rows:
        row["past"] = [entry for entry in row["past"] if entry["delta"] != last["delta"]]
        row["edit"] = len(row["past"])
    made.records["files"]["files"] = [row for row in rows if row["past"]]


def trees_told(audit: Audit, top: Path) -> List[str]:
    """The digests of the trees, as the lines of the audit have them."""
    return [line.split()[5] for line in audit(top)[1].splitlines()]


@pytest.mark.parametrize("seed", [5, 11])
def test_each_delta_is_a_commit(lay: Lay, audit: Audit, tmp_path: Path, seed: int) -> None:
    """With the trees that the audit tells; fsck finds nothing; the same again changes nothing."""
    top, dest = lay(stores.files_of(ScriptMaker(seed).make())), tmp_path / "made.git"
    found = ae(top, "git", str(dest))
    assert (found.returncode, found.stderr) == (0, "")
    told = trees_told(audit, top)
    before = refs(dest)
    assert told == [digest_of(dest, f"delta-{number + 1}") for number in range(len(told))] and told
    assert before["refs/heads/baseline"] == before[f"refs/tags/delta-{len(told)}"]
    assert len(before) == len(told) + 1
    assert git(dest, "fsck", "--strict", "--full") == b""
    assert ae(top, "git", str(dest)).returncode == 0
    assert refs(dest) == before
    again = tmp_path / "again.git"
    assert ae(top, "git", str(again)).returncode == 0
    assert refs(again) == before


def test_a_commit_says_who_and_what_was_shown(lay: Lay, tmp_path: Path) -> None:
    """Author, committer, and the trailers in their order."""
    made = stores.made_up(5)
    top, dest = lay(stores.files_of(made)), tmp_path / "made.git"
    assert ae(top, "git", str(dest)).returncode == 0
    for delta in made.records["project"]["deltas"]:
        change = made.records[f"change.{delta['change']}"]
        commit = git(dest, "cat-file", "commit", f"delta-{delta['delta']}").decode()
        ended = [row["when"] for row in change["history"] if row["what"] == "develop_end"][-1]
        developer, who = change["developer"].decode(), delta["who"].decode()
        assert f"\nauthor {developer} <{developer}> {ended} +0000\ncommitter {who} <{who}> {delta['when']} +0000\n" in commit
        said = subprocess.run(["git", "interpret-trailers", "--parse"], input=commit, capture_output=True, text=True, check=True).stdout
        runs = [run for run in change["evidence"] if run["ground"] == "integrate"]
        names = ["Reviewed-by"] * bool(change["reviewer"]) + ["Aegis-Change", "Aegis-Tree"] + ["Aegis-Run"] * len(runs)
        assert [line.split(":")[0] for line in said.splitlines()] == names


def test_a_delta_more_is_one_commit_more(lay: Lay, tmp_path: Path) -> None:
    """What was there before stays."""
    made, dest = stores.made_up(5), tmp_path / "made.git"
    without_last_delta(made)
    assert ae(lay(stores.files_of(made)), "git", str(dest)).returncode == 0
    before, objects = refs(dest), git(dest, "rev-list", "--all", "--count")
    assert ae(lay(stores.files_of(stores.made_up(5))), "git", str(dest)).returncode == 0
    after = refs(dest)
    assert {name: commit for name, commit in after.items() if name in before and "tags" in name} == {
        n: c for n, c in before.items() if "tags" in n
    }
    assert len(after) == len(before) + 1
    assert int(git(dest, "rev-list", "--all", "--count")) == int(objects) + 1


@pytest.mark.parametrize("path", [b".git", b".git/config", b"d/.GIT/x", b"e/.git."])
def test_a_name_that_git_keeps_is_refused(lay: Lay, tmp_path: Path, path: bytes) -> None:
    """It is named, and nothing is made."""
    made = stores.made_up(5)
    made.records["files"]["files"][0]["path"] = path
    made.records["files"]["files"].sort(key=lambda row: row["path"])
    found = ae(lay(stores.files_of(made)), "git", str(tmp_path / "made.git"))
    assert (found.returncode, found.stderr) == (1, f'ae: "{path.decode()}" has a name that git keeps for itself\n')
    assert not (tmp_path / "made.git").exists()


def test_such_a_name_is_said_earlier(lay: Lay, program: str) -> None:
    """By `ae new` where the project has it, and by `ae status` where a change has."""
    made = projects.of_many_files(3, 1)
    made.records["files"]["files"][0]["path"] = made.records["change.10"]["files"][0]["path"] = b".git/config"
    file = {"path": b".GIT/x", "action": stores.Word("create"), "usage": stores.Word("source"), "origin": 0, "version": {}}
    change = {
        **projects.change_of(11, 2, [file]),
        "phase": stores.Word("being_developed"),
        "reviewing": b"",
        "reviewer": b"",
        "integrator": b"",
    }
    change["history"] = change["history"][:2]
    made.records["change.11"] = change
    project = made.records["project"]
    project.update(changes=[10, 11], developers_may_create_changes=stores.flag(False))
    top = lay(stores.files_of(made))
    (top / "aegis.d" / "develop.11" / ".GIT").mkdir(parents=True)
    (top / "aegis.d" / "develop.11" / ".GIT" / "x").write_text("x")
    found = ae(top, "status", "11", AEGIS_PROGRAM=program, AEGIS_USER="alice")
    assert found.returncode == 0 and "of a name that git keeps for itself, so `ae git` can't write it: .GIT/x\n" in found.stdout
    found = ae(top, "new", "more", AEGIS_PROGRAM=program, AEGIS_USER=project["administrators"][0].decode())
    assert (found.returncode, found.stdout) == (0, "12\n")
    assert '".git/config" has a name that git keeps for itself' in found.stderr


def lay_branch(top: Path, name: str, made: stores.Made) -> None:
    """Lays a branch that was begun from the second delta."""
    folder = top / "aegis.d" / f"branch.{name}" / "store"
    folder.mkdir(parents=True)
    for file, held in {**stores.files_of(made), "trunk": b"delta = 2;\n"}.items():
        (folder / file).write_bytes(held)


@pytest.mark.parametrize("seeds", [(5, 11), (11, 5)])
def test_a_commit_of_a_branch_has_the_tree_of_its_audit(lay: Lay, program: str, tmp_path: Path, seeds: Tuple[int, int]) -> None:
    """As those of the trunk have it; none has a file of the trunk that the branch hasn't."""
    (one, other), dest = (ScriptMaker(seed).make() for seed in seeds), tmp_path / "made.git"
    top = lay(stores.files_of(one))
    lay_branch(top, "r1", other)
    assert ae(top, "git", str(dest)).stderr == ""
    places: List[Tuple[List[str], str]] = [([], ""), (["-br", "r1"], "branch/r1/")]
    for words, tags in places:
        audit = subprocess.run([program, *words, "-aud"], cwd=top, capture_output=True, text=True, check=True)
        told = [line.split()[5] for line in audit.stdout.splitlines()]
        assert told == [digest_of(dest, f"{tags}delta-{number + 1}") for number in range(len(told))] and len(told) > 2
    assert git(dest, "fsck", "--strict", "--full") == b""


def test_a_branch_begins_at_its_delta(lay: Lay, tmp_path: Path) -> None:
    """Its ref has no byte that a ref can't have."""
    top, dest = lay(stores.files_of(stores.made_up(5))), tmp_path / "made.git"
    for name in ["a..b", "r1.", "x.lock"]:
        lay_branch(top, name, stores.made_up(3))
    assert ae(top, "git", str(dest)).stderr == ""
    found = refs(dest)
    for name in ["a%2E.b", "r1%2E", "x%2Elock"]:
        assert found[f"refs/heads/branch/{name}"] == found[f"refs/tags/branch/{name}/delta-5"]
        first = f"refs/tags/branch/{name}/delta-1"
        assert git(dest, "rev-parse", f"{first}^").decode().strip() == found["refs/tags/delta-2"]
    assert git(dest, "fsck", "--strict") == b""


def test_what_is_no_text_for_a_terminal_is_written_by_its_number(lay: Lay, tmp_path: Path) -> None:
    """Also what git wouldn't take: zero bytes."""
    made, dest = stores.made_up(7), tmp_path / "made.git"
    change = made.records[f"change.{made.records['project']['deltas'][0]['change']}"]
    change["brief_description"], change["description"] = b"\x1b[2Jred\0", b"Reviewed-by: mallory\n\xff"
    assert ae(lay(stores.files_of(made)), "git", str(dest)).returncode == 0
    message = git(dest, "cat-file", "commit", "delta-1").split(b"\n\n", 1)[1]
    assert message.startswith(b"<U+001B>[2Jred<U+0000>\n\nReviewed-by: mallory\n\\xff\n\n")
    assert b"mallory" not in subprocess.run(["git", "interpret-trailers", "--parse"], input=message, capture_output=True, check=True).stdout
    assert git(dest, "fsck", "--strict") == b""


def test_another_repository_stays_as_it_is(lay: Lay, tmp_path: Path) -> None:
    """One of another history, one that ae git hasn't made, and one in the folder of the records."""
    top, dest = lay(stores.files_of(stores.made_up(5))), tmp_path / "made.git"
    assert ae(top, "git", str(dest)).returncode == 0
    before = refs(dest)
    top = lay(stores.files_of(stores.made_up(3)))
    found = ae(top, "git", str(dest))
    assert (found.returncode, found.stderr) == (1, f"ae: {dest} has another delta-1: it was made of another history\n")
    assert refs(dest) == before
    subprocess.run(["git", "init", "-q", "--bare", tmp_path / "other.git"], check=True, env={**os.environ, "GIT_CONFIG_NOSYSTEM": "1"})
    assert ae(top, "git", str(tmp_path / "other.git")).stderr.endswith("is there, and wasn't made by ae git\n")
    assert ae(top, "git", "aegis.d/made.git").returncode == 1


def test_a_damaged_version_ends_it(lay: Lay, tmp_path: Path) -> None:
    """No ref is made."""
    files = stores.files_of(stores.made_up(5))
    files["pack"] = bytes(len(files["pack"]))
    found = ae(lay(files), "git", str(tmp_path / "made.git"))
    assert (found.returncode, found.stderr) == (1, 'ae: "pack" is damaged\n')
    assert refs(tmp_path / "made.git") == {}


def test_no_hook_of_a_repository_runs(lay: Lay, tmp_path: Path) -> None:
    """Somebody else may have made the repository that is named, and put what he likes into it."""
    top, made = lay(stores.files_of(stores.made_up(5))), tmp_path / "made.git"
    subprocess.run(["git", "init", "-q", "--bare", made], check=True)
    git(made, "config", "aegis.project", "demo")
    for name in ("reference-transaction", "post-update", "update", "pre-auto-gc"):
        hook = made / "hooks" / name
        hook.write_text(f"#!/bin/sh\ntouch {tmp_path}/ran\n")
        hook.chmod(0o755)
    found = ae(top, "git", str(made))
    assert (found.returncode, found.stderr) == (0, "") and not (tmp_path / "ran").exists()
