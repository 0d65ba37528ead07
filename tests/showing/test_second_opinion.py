"""The second opinion and the program's own audit say the same of each store: of those made up, of altered ones, and of stored ones."""
import os
import random
import re
import subprocess
from pathlib import Path
from typing import Callable, Dict, Tuple

import alterations
import pytest
import stores
from aegis_porcelain.second_opinion.files import Unavailable
from aegis_porcelain.second_opinion.verdict import judge

Answer = Tuple[int, str, str]
Lay = Callable[[Dict[str, bytes]], Path]
Audit = Callable[[Path], Answer]
STORIES = Path(__file__).resolve().parent.parent / "stories"


def opinion(top: Path) -> Answer:
    """What the second opinion answers."""
    verdict = judge(str(top / "aegis.d" / "store"))
    return verdict.status, verdict.lines, verdict.message


def test_of_stores_that_are_made_up(count: int, lay: Lay, audit: Audit) -> None:
    """Some have deltas that aren't shown; none is damaged."""
    answers = []
    for seed in range(count):
        top = lay(stores.files_of(stores.made_up(seed)))
        answers.append(audit(top))
        assert opinion(top) == answers[-1], f"seed {seed}"
    assert {status for status, _, _ in answers} == {0, 1}
    assert sum(len(lines.splitlines()) for _, lines, _ in answers) > count


def test_of_stores_that_are_altered(count: int, lay: Lay, audit: Audit) -> None:
    """Each state file, the body and the pack are found damaged in some, and some are still right."""
    named = set()
    for seed in range(count):
        top = lay(alterations.altered(stores.made_up(seed), seed))
        answer = audit(top)
        assert opinion(top) == answer, f"seed {seed}"
        named.update(re.findall(r'"([a-z]+)', answer[2]) or ["none"])
    assert named >= {"none", "project", "files", "change", "pack", "body"}


def made_by_the_program(program: str, top: Path, words: str) -> Dict[str, bytes]:
    """The files of a project that the program makes up."""
    top.mkdir()
    environment = {**os.environ, "AEGIS_USER": "alice"}
    subprocess.run([program, "-gen", *words.split()], cwd=top, env=environment, capture_output=True, check=True)
    return {path.name: path.read_bytes() for path in (top / "aegis.d" / "store").iterdir()}


@pytest.mark.parametrize("words", ["0 1 1", "7 12 6"])
def test_of_a_project_of_the_program(program: str, tmp_path: Path, lay: Lay, audit: Audit, words: str) -> None:
    """As it is, and with some bytes altered in one of its files."""
    files = made_by_the_program(program, tmp_path / "made", words)
    top = lay(files)
    assert opinion(top) == audit(top)
    assert opinion(top)[0] == 0
    for seed in range(4):
        changed = dict(files)
        alterations.alter_bytes(random.Random(seed), changed)
        top = lay(changed)
        assert opinion(top) == audit(top), f"seed {seed}"


@pytest.mark.parametrize("folder", sorted(STORIES.glob("*/stores/*")), ids=lambda path: "-".join(path.parts[-3::2]))
def test_of_a_stored_store(folder: Path, lay: Lay, audit: Audit) -> None:
    """Those of an independent program."""
    top = lay({path.name: path.read_bytes() for path in folder.iterdir()})
    assert opinion(top) == audit(top)


def test_a_link_is_not_followed(lay: Lay) -> None:
    """A file of the store that is a link can't be read."""
    top = lay(stores.files_of(stores.made_up(3)))
    place = top / "aegis.d" / "store" / "project"
    place.rename(top / "elsewhere")
    place.symlink_to(top / "elsewhere")
    with pytest.raises(Unavailable):
        opinion(top)
