"""Projects of which commands are measured: made of a store that is written at once, and led by commands from change to change."""
import hashlib
import os

from lib.cost import Cost, Words, cost
from lib.floors import names_of, size_of
from lib.large import content, write_store

CONFIG = "aegis.conf"
COMMAND = b'build_command = "exit 0";'
ATTRIBUTES = {
    "c.attr": 'brief_description = "next"; test_exempt = true; regression_test_exempt = true;',
    "p.attr": "develop_end_action = goto_awaiting_review;",
}


def write_apart(folder: str, paths: int, changes: int) -> None:
    """Writes a store in a process of its own, since the memory of this one is counted in that of each command that it begins."""
    child = os.fork()
    if child == 0:
        try:
            write_store(folder, paths, changes)
            os._exit(0)
        finally:
            os._exit(1)
    if os.waitstatus_to_exitcode(os.waitpid(child, 0)[1]) != 0:
        raise OSError("the store can't be written")


def change_set(count: int) -> bytes:
    """The text of a change set of so many new files (docs/FORMATS.md)."""
    pieces = [b"aegis-change 1\nbrief 8\nreceived\ndescription 0\n\ncause internal_enhancement\n"]
    for number in range(count):
        text = content(number)
        pieces.append(f"create source received/part{number // 100:02}/file{number:03}.c {len(text)}\n".encode() + text + b"\n")
    text = b"".join(pieces)
    return text + f"end {hashlib.sha256(text).hexdigest()}\n".encode()


class Project:
    """A project of so many paths and changes, whose administrator, reviewer and integrator is alice, and whose developers are both."""

    def __init__(self, program: str, top: str, paths: int, changes: int) -> None:
        self.program, self.top, self.paths, self.changes = program, top, paths, changes
        self.store = os.path.join(top, "aegis.d", "store")
        write_apart(self.store, paths, changes)
        for name, text in ATTRIBUTES.items():
            with open(os.path.join(top, name), "w", encoding="ascii") as file:
                file.write(text)
        self.run("-nd alice")

    def command(self, words: str, who: str = "alice", given: bytes = b"") -> Words:
        """A command of the program here."""
        return Words([self.program, *words.split()], self.top, given, {"AEGIS_USER": who})

    def run(self, words: str, who: str = "alice", memory: bool = False) -> Cost:
        """What it costs."""
        return cost(self.command(words, who), memory)

    def at(self, *names: str) -> str:
        """A place in the project's folder."""
        return os.path.join(self.top, "aegis.d", *names)

    def size(self, *names: str) -> int:
        """The bytes of files of the store."""
        return size_of(os.path.join(self.store, name) for name in names)

    def tree(self, folder: str) -> list[str]:
        """The files of a directory."""
        return [place for place in names_of(self.at(folder)) if not place.endswith("/aegis.log")]

    def put_config(self, number: int) -> None:
        """Gives the change its build command."""
        with open(self.at(f"develop.{number}", CONFIG), "wb") as file:
            file.write(COMMAND)

    def develop(self, number: int) -> None:
        """A change that awaits its review."""
        for words in ("-pa -f p.attr", "-nc -f c.attr"):
            self.run(words)
        for words in (f"-db -c {number}", f"-nf -c {number} {CONFIG}"):
            self.run(words, "bob")
        self.put_config(number)
        for words in (f"-b -c {number}", f"-de -c {number}"):
            self.run(words, "bob")
