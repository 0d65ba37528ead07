"""How the tests of this folder run `ae`."""
import os
import subprocess
from pathlib import Path

TOP = Path(__file__).resolve().parent.parent.parent
AE = TOP / "share" / "ae"
Done = subprocess.CompletedProcess[str]


def ae(folder: Path, *words: str, **environment: str) -> Done:
    """Runs `ae` in a folder."""
    return subprocess.run([AE, *words], cwd=folder, env={**os.environ, **environment}, capture_output=True, text=True, check=False)
