"""`ae audit` says what the program's audit says, and where the two differ both."""
from pathlib import Path
from typing import Callable, Dict

import pytest
import stores
from commands import ae

Lay = Callable[[Dict[str, bytes]], Path]
LINES = "delta 1 change 10 tree 39d3e1ca7c4c4024171c82d518e6e57c8250ec14bb20922965782f5e98528873 runs 2, reviewed by alice\n"
STORE = Path(__file__).resolve().parent.parent / "stories" / "audited" / "stores" / "before"


@pytest.fixture
def project(lay: Lay) -> Path:
    """A project with a delta."""
    return lay({path.name: path.read_bytes() for path in STORE.iterdir()})


@pytest.fixture
def other_program(tmp_path: Path) -> str:
    """A program whose audit says something else."""
    path = tmp_path / "other"
    path.write_text("#!/bin/sh\necho delta 1 change 11\n")
    path.chmod(0o755)
    return str(path)


@pytest.mark.parametrize("words", [[], ["--alone"], ["--store", "aegis.d/store"]])
def test_each_delta_has_its_line(project: Path, program: str, words: list[str]) -> None:
    """In the folder of the project, and without the program."""
    found = ae(project, "audit", *words, AEGIS_PROGRAM=program if not words else "/nowhere")
    assert (found.returncode, found.stdout, found.stderr) == (0, LINES, "")


def test_it_is_found_from_below(project: Path, program: str) -> None:
    """In a folder of the project."""
    (project / "some").mkdir()
    assert ae(project / "some", "audit", AEGIS_PROGRAM=program).stdout == LINES


def test_where_the_two_differ_both_are_shown(project: Path, other_program: str) -> None:
    """With the first lines that differ, and a status of its own."""
    found = ae(project, "audit", AEGIS_PROGRAM=other_program)
    assert (found.returncode, found.stdout) == (3, "")
    assert found.stderr.splitlines()[1:] == ["  program: delta 1 change 11", f"  second opinion: {LINES.strip()}"]


def test_what_is_damaged_is_named(project: Path, program: str) -> None:
    """As the program names it."""
    (project / "aegis.d" / "store" / "files").write_bytes(b"files = [];")
    found = ae(project, "audit", AEGIS_PROGRAM=program)
    assert (found.returncode, found.stdout, found.stderr) == (7, "", 'aegis: "files" is damaged\n')


def test_a_stopped_commit_is_read_over_the_files(lay: Lay, program: str) -> None:
    """And nothing is written."""
    files = stores.files_of(stores.made_up(5))
    body = stores.body_of({name: held or None for name, held in files.items()})
    top = lay({"gate": b"\1", "body": body})
    before = {path.name: path.read_bytes() for path in (top / "aegis.d" / "store").iterdir()}
    found = ae(top, "audit", AEGIS_PROGRAM=program)
    assert found.returncode == 0 and found.stdout
    assert {path.name: path.read_bytes() for path in (top / "aegis.d" / "store").iterdir()} == before


def test_a_folder_that_is_not_there(tmp_path: Path) -> None:
    """It is said, with status 1."""
    found = ae(tmp_path, "audit", "--store", "nowhere")
    assert (found.returncode, found.stderr) == (1, "ae: there is no folder nowhere\n")
