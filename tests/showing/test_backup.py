"""`ae backup` copies the records while commands run, and `ae restore` puts them back."""
import contextlib
import fcntl
import os
import re
import stat
import subprocess
import threading
from pathlib import Path
from typing import Any, Callable, Dict, Iterator, List

import pytest
import stores
from aegis_porcelain import backup
from aegis_porcelain.failures import Failure
from aegis_porcelain.place import Place
from commands import ae

Lay = Callable[[Dict[str, bytes]], Path]
Audit = Callable[[Path], Any]
COUNT = int(os.environ.get("EVIDENCE_BACKUPS", "10"))


def store_of(top: Path) -> Dict[str, bytes]:
    """The files of a store."""
    return {path.name: path.read_bytes() for path in (top / "aegis.d" / "store").iterdir()}


def aegis(program: str, top: Path, *words: str) -> "subprocess.CompletedProcess[str]":
    """Runs the program as an administrator of the project, where there is one."""
    project = top / "aegis.d" / "store" / "project"
    found = re.search(r'administrators = \["([^"]*)"', project.read_text()) if project.exists() else None
    environment = {**os.environ, "AEGIS_USER": found[1] if found else "alice", "AEGIS_WAIT": "60"}
    return subprocess.run([program, *words], cwd=top, env=environment, capture_output=True, text=True, check=False)


def test_a_backup_is_audited(lay: Lay, program: str, audit: Audit, tmp_path: Path) -> None:
    """It has all files, those of a branch too, and the lines of its audits."""
    top, dest = lay(stores.files_of(stores.made_up(5))), tmp_path / "copy"
    folder = top / "aegis.d" / "branch.old" / "store"
    folder.mkdir(parents=True)
    for name, held in {**stores.files_of(stores.made_up(7)), "trunk": b"delta = 2;\n"}.items():
        (folder / name).write_bytes(held)
    found = ae(top, "backup", str(dest), AEGIS_PROGRAM=program)
    assert (found.returncode, found.stderr) == (0, "")
    assert store_of(dest) == store_of(top) and audit(dest) == audit(top)
    lines = (dest / "audit").read_text().splitlines(keepends=True)
    assert lines[:12] == audit(top)[1].splitlines(keepends=True) and lines[12] == "branch old\n"
    assert found.stdout == lines[-1]
    assert ae(top, "backup", str(dest), AEGIS_PROGRAM=program).stderr == f"ae: {dest} is there already\n"
    assert ae(top, "backup", "aegis.d/copy", AEGIS_PROGRAM=program).returncode == 1


def test_no_backup_of_what_is_damaged(lay: Lay, program: str, tmp_path: Path) -> None:
    """Nothing is left of it."""
    files = {**stores.files_of(stores.made_up(5)), "files": b""}
    found = ae(lay(files), "backup", str(tmp_path / "copy"), AEGIS_PROGRAM=program)
    assert (found.returncode, found.stderr) == (1, 'ae: the copy isn\'t shown: aegis: "files" is damaged\n')
    assert not [path for path in tmp_path.iterdir() if path.name != "aegis.d"]


@contextlib.contextmanager
def commands_at_work(program: str, top: Path) -> Iterator[List[int]]:
    """A made project, and one command after another, whose statuses these are: a change goes from its begin to its review and back again."""
    top.mkdir()
    assert aegis(program, top, "-gen", "5", "3", "2").returncode == 0
    (top / "c.attr").write_text(
        'brief_description = "one more";\ntest_exempt = true; test_baseline_exempt = true; regression_test_exempt = true;\n'
    )
    words = ["-db -c 13", "-nf -c 13 more", "-b -c 13", "-de -c 13", "-deu -c 13", "-dbu -c 13", "-ncu -c 13"]
    ended, answers = threading.Event(), []

    def work() -> None:
        while not ended.is_set():
            answers.append(aegis(program, top, "-nc", "-f", "c.attr").returncode)
            answers.extend(aegis(program, top, *each.split()).returncode for each in words)

    worker = threading.Thread(target=work)
    worker.start()
    try:
        yield answers
    finally:
        ended.set()
        worker.join()


def test_backups_while_commands_run(program: str, audit: Audit, tmp_path: Path) -> None:
    """Each is shown, and goes on."""
    top = tmp_path / "project"
    with commands_at_work(program, top) as answers:
        for number in range(COUNT):
            copy = tmp_path / str(number)
            found = ae(top, "backup", str(copy), AEGIS_PROGRAM=program, AEGIS_WAIT="60")
            assert (found.returncode, found.stderr) == (0, ""), number
            assert audit(copy)[0] == 0 and aegis(program, copy, "-l", "pc").returncode == 0, number
    assert len(answers) > 1 and set(answers) == {0}


def test_the_guide_s_copies_while_commands_run(program: str, audit: Audit, tmp_path: Path) -> None:
    """The line of the guide, as it stands there: each copy is shown, and goes on."""
    guide = Path(__file__).resolve().parent.parent.parent / "docs" / "GUIDE.md"
    (line,) = [text[6:] for text in guide.read_text().splitlines() if text.startswith("    $ flock aegis.d/lock cp ")]
    assert line.endswith(" aegis.d/store ../backup && sync")
    top = tmp_path / "project"
    with commands_at_work(program, top) as answers:
        for number in range(COUNT):
            copy = tmp_path / str(number)
            (copy / "aegis.d").mkdir(parents=True)
            words = line.replace("../backup && sync", f"../{number}/aegis.d/store")
            assert subprocess.run(words, shell=True, cwd=top, check=False).returncode == 0
            assert audit(copy)[0] == 0 and aegis(program, copy, "-l", "pc").returncode == 0, number
    assert len(answers) > 1 and set(answers) == {0}


def test_a_backup_while_somebody_holds_the_lock(lay: Lay, program: str, audit: Audit, tmp_path: Path) -> None:
    """He changes nothing, as a script that waits for its next line: it is as any other."""
    top, dest = lay(stores.files_of(stores.made_up(5))), tmp_path / "copy"
    with open(top / "aegis.d" / "lock", "w", encoding="ascii") as lock:
        fcntl.flock(lock, fcntl.LOCK_EX)
        found = ae(top, "backup", str(dest), AEGIS_PROGRAM=program, AEGIS_WAIT="0")
    assert (found.returncode, found.stderr) == (0, "")
    assert store_of(dest) == store_of(top) and audit(dest) == audit(top)


def test_no_backup_of_two_moments(lay: Lay, tmp_path: Path, monkeypatch: pytest.MonkeyPatch) -> None:
    """A command writes after a record was copied, and before the next one is: the copy is made once more, and is of one moment."""
    older = stores.files_of(stores.made_up(5))
    newer = {name: held + b"/* later */\n" if name in ("change.10", "project") else held for name, held in older.items()}
    top = lay(older)
    copied: List[str] = []
    copy_file = backup.copy_file

    def writes_between(name: str, source: int, dest: str) -> None:
        copied.append(name)
        if name == "files" and copied.count(name) <= changes:
            lay(newer if store_of(top) == older else older)
        copy_file(name, source, dest)

    monkeypatch.setattr(backup, "copy_file", writes_between)
    monkeypatch.setattr(backup, "BETWEEN_TRIES", 0)
    changes = 1
    backup.copy_home(Place(str(top)), str(tmp_path / "copy"))
    found = {path.name: path.read_bytes() for path in (tmp_path / "copy" / "store").iterdir()}
    assert found == store_of(top) == newer and copied.count("files") == 2
    changes = 1000
    with pytest.raises(Failure, match="no copy of one moment"):
        backup.copy_home(Place(str(top)), str(tmp_path / "other"))


def test_a_restored_project_goes_on(program: str, audit: Audit, tmp_path: Path) -> None:
    """With its modes, and with the next command."""
    top, other = tmp_path / "project", tmp_path / "other"
    top.mkdir()
    other.mkdir()
    assert aegis(program, top, "-gen", "5", "3", "2").returncode == 0
    for folder in [top / "aegis.d", top / "aegis.d" / "store"]:
        folder.chmod(0o2775)
    assert ae(top, "backup", str(tmp_path / "copy"), AEGIS_PROGRAM=program).returncode == 0
    found = ae(other, "restore", str(tmp_path / "copy"), AEGIS_PROGRAM=program)
    assert (found.returncode, found.stderr) == (0, "") and found.stdout == audit(top)[1].splitlines(keepends=True)[-1]
    assert store_of(other) == store_of(top)
    assert {stat.S_IMODE(path.stat().st_mode) for path in [other / "aegis.d", other / "aegis.d" / "store"]} == {0o2775}
    (other / "c.attr").write_text('brief_description = "one more";\ntest_exempt = true;\n')
    assert aegis(program, other, "-nc", "-f", "c.attr").returncode == 0
    assert (
        ae(other, "restore", str(tmp_path / "copy"), AEGIS_PROGRAM=program).stderr == "ae: this folder has an aegis.d: move it away first\n"
    )


@pytest.mark.parametrize("what", ["pack", "audit", "gone"])
def test_a_backup_that_was_changed_is_not_restored(lay: Lay, program: str, tmp_path: Path, what: str) -> None:
    """A byte of a version, the lines that were kept, and a folder that is none."""
    copy, other = tmp_path / "copy", tmp_path / "other"
    other.mkdir()
    assert ae(lay(stores.files_of(stores.made_up(5))), "backup", str(copy), AEGIS_PROGRAM=program).returncode == 0
    if what == "pack":
        (copy / "aegis.d" / "store" / "pack").write_bytes(b"")
    if what == "audit":
        (copy / "audit").write_text("")
    found = ae(other, "restore", str(copy if what != "gone" else tmp_path / "nowhere"), AEGIS_PROGRAM=program)
    assert found.returncode == 1 and not list(other.iterdir())


def test_what_a_stop_left_is_no_part_of_a_copy(lay: Lay, program: str, tmp_path: Path) -> None:
    """A file that was to be made again, and a folder that was in its place, are no part of the project; a link is said in a line."""
    top = lay(stores.files_of(stores.made_up(5)))
    store = top / "aegis.d" / "store"
    whole = store_of(top)
    (store / "project.again").write_bytes(b"x")
    (store / "project.again.1").mkdir()
    found = ae(top, "backup", str(tmp_path / "copy"), AEGIS_PROGRAM=program)
    assert (found.returncode, found.stderr) == (0, "") and store_of(tmp_path / "copy") == whole
    os.rename(store / "pack", tmp_path / "pack")
    (store / "pack").symlink_to(tmp_path / "pack")
    found = ae(top, "backup", str(tmp_path / "other"), AEGIS_PROGRAM=program)
    assert found.returncode == 1 and found.stderr.startswith("ae: pack of the store can't be read: "), found
    (tmp_path / "copy" / "audit").write_bytes(b"\xff")
    (tmp_path / "new").mkdir()
    found = ae(tmp_path / "new", "restore", str(tmp_path / "copy"), AEGIS_PROGRAM=program)
    assert (found.returncode, found.stderr) == (1, f"ae: {tmp_path}/copy/audit isn't as it was made\n")
