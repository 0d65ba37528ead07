"""Commands on real files of which each is to end and to say what is written, and a count of what differs."""
import os
import sys

from lib.common import run
from lib.session import read_tree

# where files are kept in memory, since no stop of the machine is tried there
IN_MEMORY = "/dev/shm" if os.access("/dev/shm", os.W_OK) else None
# what each command may make or write
LEFT_OUT = ("gate", "body", "lock")
SITE_FAULT = "aegis: directory fault\n"


class Trial:
    """Counts what is done, and what is wrong, and says that."""

    def __init__(self, program):
        self.program, self.done, self.wrong = program, 0, 0

    def check(self, holds, what):
        if not holds:
            self.wrong += 1
            print(what[:1000], file=sys.stderr)

    def says(self, top, who, words, status=0, said=b"", told="", given=b""):
        """The command ends so, and says just that."""
        found = run(self.program, top, who, words, input=given, text=False)
        self.done += 1
        if (found.returncode, found.stdout, found.stderr.decode("latin-1")) != (status, said, told):
            self.check(False, f"{who}: {words}: {found}, and not {status}, {said!r}, {told!r}")

    def leaves(self, top, who, words, status, told, given=b""):
        """The same, and it changes no file."""
        before = read_tree(top, LEFT_OUT)
        self.says(top, who, words, status, b"", told, given)
        self.check(read_tree(top, LEFT_OUT) == before, f"{who}: {words}: a file is changed")

    def asked(self, top, who, words):
        """What a command that is done writes to standard output."""
        found = run(self.program, top, who, words, text=False)
        self.done += 1
        self.check((found.returncode, found.stderr) == (0, b""), f"{who}: {words}: {found}")
        return found.stdout

    def does(self, top, *lines):
        """Commands that are to be done, each after its user."""
        for line in lines:
            who, words = line.split(" ", 1)
            found = run(self.program, top, who, words)
            self.done += 1
            self.check(found.returncode == 0, f"{line}: {found}")
