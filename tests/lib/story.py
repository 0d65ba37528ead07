"""Runs a stored story on real files (tests/stories/README.md says what one is), and compares what it says and leaves."""
import hashlib
import os
import re
import subprocess
import tempfile
import time

from lib.session import TIME, Session, read_tree, write

STORIES = os.path.join(os.path.dirname(os.path.dirname(os.path.abspath(__file__))), "stories")
ESCAPES = {"n": b"\n", "t": b"\t", "\\": b"\\"}


def cell(text):
    """The bytes that a cell stands for."""
    pieces = re.findall(r"\\x..|\\.|[^\\]+", text)
    return b"".join(
        bytes([int(piece[2:], 16)]) if piece.startswith("\\x") else ESCAPES[piece[1]] if piece.startswith("\\") else piece.encode()
        for piece in pieces
    )


def words_of(text):
    """The words of a cell: one with a blank or nothing in it is in double quotes."""
    return [found[2] if found[1] is None else found[1] for found in re.finditer(rb'"([^"]*)"|([^" ]+)', text)]


class Story(Session):
    """A story under way in a folder of its own."""

    def __init__(self, program, top, data):
        super().__init__(program, top)
        self.data = data

    def of_folder(self, folder):
        """The files of one of the story's folders, by their names."""
        front = folder + "/"
        return {path[len(front) :]: text for path, text in self.data.items() if path.startswith(front)}

    def lay(self, store):
        """Puts these files in place of those of the store."""
        place = os.path.join(self.top, "aegis.d", "store")
        os.makedirs(place, exist_ok=True)
        for name in os.listdir(place):
            os.remove(os.path.join(place, name))
        for name, text in self.of_folder(f"stores/{store}").items():
            write(self.top, f"aegis.d/store/{name}", text)

    def command(self, who, words, handed, status, said, told):
        """One command, with what it is handed as its input: what it writes, but for its times, and its status."""
        env = {**os.environ, "AEGIS_USER": who}
        found = subprocess.run([os.fsencode(self.program), *words], cwd=self.top, input=handed, capture_output=True, env=env)
        self.done += 1
        masked = TIME.sub("TIME", found.stdout.decode("latin-1")), TIME.sub("TIME", said.decode("latin-1"))
        if (found.returncode, found.stderr, masked[0]) != (status, told, masked[1]):
            self.complain(f"{who}: {words}: {found}, and not {status}, {said!r}, {told!r}")

    def step(self, line):
        """Does a line of the story."""
        first, *rest = line.split("\t")
        if not rest:
            verb, *words = line.split(" ")
            if verb == "lay":
                self.lay(words[0])
            elif verb == "is":
                self.compare(words[0])
            else:
                write(self.top, words[0], self.data[f"data/{words[1]}"])
            return
        words, name, status, said, told = rest
        handed = b"" if name == "-" else self.data[f"data/{name}"]
        self.command(first, words_of(cell(words)), handed, int(status), cell(said), cell(told))

    def compare(self, store, home="aegis.d"):
        """The state files are these, but for moments, where a file isn't the same: then each is that of the stories, or one of this run."""
        found = read_tree(os.path.join(self.top, home, "store"), ("gate", "body"))
        for name, wanted in sorted(self.of_folder(f"stores/{store}").items()):
            if found.get(name) == wanted:
                continue
            moments = [int(moment) for moment in re.findall(rb"when = (\d+);", found.get(name, b""))]
            if not all(moment == 1000000000 or self.began <= moment <= time.time() for moment in moments):
                self.complain(f"{name}: a moment that is none of this run")
            if plain(found.get(name, b"")) != plain(wanted):
                self.complain(f"{name}: {found.get(name)!r}, and not {wanted!r}")
        for name in sorted(found.keys() - self.of_folder(f"stores/{store}").keys()):
            if found[name]:
                self.complain(f"{name} isn't wanted")

    def compare_branches(self, store):
        """Compares the store of each branch of which the story has files."""
        for name in sorted({path.split("/")[1] for path in self.data if path.startswith(f"stores/{store}.branch.")}):
            self.compare(name, os.path.join("aegis.d", name.removeprefix(f"{store}.")))

    def compare_files(self, expected):
        """Each file of a directory is as the story has it, by its SHA-256. What stood before the story isn't there."""
        found = read_tree(self.top, ("aegis.log", "lock"))
        for path, text in found.items():
            if "/store/" not in path and ".old/" not in path and f"{hashlib.sha256(text).hexdigest()}  {path}" not in expected.splitlines():
                self.complain(f"{path}: {text!r}")


def plain(text):
    """A state file without its moments."""
    return re.sub(rb"when = \d+;", b"", text)


def run_stories(program, names):
    """Runs the stories of these names, and answers how many commands there were, and how much is wrong."""
    done = wrong = 0
    for name in names:
        data = read_tree(os.path.join(STORIES, name))
        with tempfile.TemporaryDirectory() as top:
            story = Story(os.path.abspath(program), top, data)
            for line in data["steps.tsv"].decode().splitlines():
                if line and not line.startswith("#"):
                    story.step(line)
            story.compare("after")
            story.compare_branches("after")
            story.compare_files(data["folders"].decode())
            done, wrong = done + story.done, wrong + story.wrong
    return done, wrong
