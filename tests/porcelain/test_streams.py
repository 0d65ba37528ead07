"""What a command does where its output isn't read to the end, can't be written, or is closed."""
import os
import subprocess

import pytest
from conftest import AE, TESTS

PIPED = f"""import sys
sys.path.insert(0, {str(TESTS.parent / "share")!r})
from aegis_porcelain import display, failures, signatures
display.PAGER = ["true"]
display.is_terminal = lambda: True
def work():
    {{}}
    print("it goes on")
    return 0
sys.exit(failures.ended(work))
"""


def piped(work):
    return subprocess.run(["/usr/bin/python3", "-I", "-c", PIPED.format(work)], capture_output=True, text=True)


def shell(top, line):
    return subprocess.run(["bash", "-c", line.replace("ae ", f"{AE} ")], cwd=top, capture_output=True, text=True)


def test_a_pager_that_is_left_before_the_end():
    """What comes after the text is done still, as the question of a review."""
    found = piped('display.paged("line\\n" * 100_000)')
    assert (found.returncode, found.stdout) == (0, "it goes on\n"), found


def test_a_program_that_ends_before_it_has_read_all(tmp_path):
    """It is said why a document can't be signed."""
    found = piped(f'signatures.sign("{tmp_path}/document", b"x" * 300_000, "/nonexistent")')
    assert found.returncode == 1 and found.stderr.startswith(f"ae: {tmp_path}/document can't be signed: "), found


def test_output_that_nobody_reads(lay):
    """It ends as by the signal, and says nothing."""
    top = lay("stores/three-deltas")
    found = shell(top, "ae json | true; echo ${PIPESTATUS[0]}")
    assert (found.stdout, found.stderr) in (("141\n", ""), ("0\n", "")), found
    found = shell(top, "(sleep 0.5; ae json) | true; echo ${PIPESTATUS[0]}")
    assert (found.stdout, found.stderr) == ("141\n", ""), found


@pytest.mark.parametrize("words", ["log", "json"])
def test_output_that_is_full(lay, words):
    found = shell(lay("stores/three-deltas"), f"ae {words} >/dev/full")
    assert (found.returncode, found.stderr) == (1, "ae: No space left on device\n"), found


@pytest.mark.parametrize("words, wanted", [("pages /proc/x", "/proc/x: "), ("restore x", ""), ("pages pages.link", "")])
def test_what_the_system_refuses_is_said_in_a_line(lay, words, wanted):
    top = lay("stores/three-deltas")
    (top / "pages.link").mkdir()
    (top / "pages.link" / "pages.txt").touch()
    (top / "pages.link" / "path").symlink_to("/nonexistent")
    found = shell(top, f"ae {words}")
    assert found.returncode == 1 and found.stderr.count("\n") == 1 and found.stderr.startswith(f"ae: {wanted}"), found


def test_streams_that_are_closed(lay):
    """No file that is opened takes their place."""
    top = lay("stores/three-deltas")
    for closed in (">&-", "2>&-", "<&-", ">&- 2>&-", "<&- >&- 2>&-"):
        found = shell(top, f"ae log {closed}")
        assert found.returncode == 0 and "Traceback" not in found.stderr, (closed, found)
    before = {name: (top / "aegis.d" / "store" / name).read_bytes() for name in os.listdir(top / "aegis.d" / "store")}
    assert shell(top, "ae log x 2>&-").returncode == 1
    assert before == {name: (top / "aegis.d" / "store" / name).read_bytes() for name in before}
