"""What the tests of this folder share: the program that they try, and how many stores they make up."""
import os
import subprocess
import sys
from pathlib import Path
from typing import Callable, Dict, Tuple

import pytest

sys.dont_write_bytecode = True
HERE = Path(__file__).resolve().parent
sys.path[:0] = [str(HERE), str(HERE.parent.parent / "share")]

Answer = Tuple[int, str, str]


@pytest.fixture(scope="session")
def program() -> str:
    """The program `aegis`, by its whole path."""
    return os.path.abspath(os.environ["AEGIS_PROGRAM"])


@pytest.fixture(scope="session")
def count() -> int:
    """How many stores are made up of each sort."""
    return int(os.environ.get("EVIDENCE_STORES", "50"))


@pytest.fixture
def lay(tmp_path: Path) -> Callable[[Dict[str, bytes]], Path]:
    """Lays the files of a store in the place of those that are there, and answers the project's folder."""
    folder = tmp_path / "aegis.d" / "store"
    folder.mkdir(parents=True)

    def lay_files(files: Dict[str, bytes]) -> Path:
        for path in folder.iterdir():
            path.unlink()
        for name, held in files.items():
            (folder / name).write_bytes(held)
        return tmp_path

    return lay_files


@pytest.fixture
def audit(program: str) -> Callable[[Path], Answer]:
    """What the program's audit of the project in a folder answers."""

    def answer(top: Path) -> Answer:
        found = subprocess.run([program, "-aud"], cwd=top, capture_output=True, text=True, check=False)
        return found.returncode, found.stdout, found.stderr

    return answer
