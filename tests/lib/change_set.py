"""Texts of change sets, written by the table of docs/FORMATS.md, what is said where one is received, and a project for it."""
import hashlib
from typing import NamedTuple

from lib.common import run
from lib.session import write

NOT_UNDERSTOOD = "aegis: 45: the change set is not understood\n"
# no text is longer
MOST_BYTES = 68157440
MOST_FILES, MOST_OF_FILE, MOST_OF_FILES, MOST_OF_TEXT = 1000, 4194304, 67108864, 65536
SETTINGS = "developers_may_create_changes = true; reviewer_may_integrate = true; default_test_exemption = true;"
PEOPLE = ["-nd bob carol", "-nrv alice", "-ni alice"]


class File(NamedTuple):
    """What a change set does to a file: `create`, `modify` or `remove`; its usage and path; and its bytes."""

    action: str
    usage: str
    path: str
    text: bytes = b""


def counted(label, text):
    return f"{label} {len(text)}\n".encode() + text + b"\n"


def sealed(front):
    """What stands before the last line, with the line that ends it."""
    return front + f"end {hashlib.sha256(front).hexdigest()}\n".encode()


def front_of(files, brief=b"a change", description=b"", cause="internal_enhancement"):
    """All that stands before the last line."""
    parts = [b"aegis-change 1\n", counted("brief", brief), counted("description", description), f"cause {cause}\n".encode()]
    parts += [counted(f"{file.action} {file.usage} {file.path}", file.text) for file in sorted(files, key=lambda file: file.path.encode())]
    return b"".join(parts)


def text_of(files, **head):
    """The text of a change set with these files."""
    return sealed(front_of(files, **head))


def replies(project, number, *texts):
    """What is said of a change that is made, begun, and then of its files."""
    return "".join(f'aegis: project "{project}": change {number}: {text}\n' for text in ["created", "development begun", *texts])


def has_people(program, top, name="demo"):
    """Makes a project in which bob and carol develop and make changes, and alice does all else."""
    write(top, "p.attr", SETTINGS)
    for words in [f"-npr {name} -f p.attr", *PEOPLE]:
        found = run(program, top, "alice", words)
        assert found.returncode == 0, found
