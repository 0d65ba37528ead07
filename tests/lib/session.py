"""Runs a stored session on real files (tests/sessions/README.md says what one is), and compares all that is said and left.

It runs twice: as single commands, each a process of its own, and as one script, byte for byte.
"""
import calendar
import hashlib
import os
import re
import subprocess
import sys
import tempfile
import time

SESSIONS = os.path.join(os.path.dirname(os.path.dirname(os.path.abspath(__file__))), "sessions")
TIME = re.compile(r"[0-9]{4}-[0-9]{2}-[0-9]{2} [0-9]{2}:[0-9]{2}:[0-9]{2}")
ESCAPES = {"n": "\n", "t": "\t", '"': '"', "\\": "\\"}


def run(program, top, who, words):
    """Runs one command as a process of its own."""
    env = {**os.environ, "AEGIS_USER": who}
    return subprocess.run([program, *words], cwd=top, capture_output=True, text=True, env=env)


def write(top, path, text):
    """Writes a file, and the folders on the way to it."""
    place = os.path.join(top, path)
    os.makedirs(os.path.dirname(place), exist_ok=True)
    with open(place, "wb") as file:
        file.write(text if isinstance(text, bytes) else text.encode("latin-1"))


def is_of_locks(place, name):
    """Whether this folder in a place is the one of a project's locks, or of a branch's. What is in it says nothing: tests/runs-apart looks at it."""
    around = os.path.basename(os.path.abspath(place))
    return name == "locks" and (around == "aegis.d" or around.startswith("branch."))


def read_tree(folder, left_out=()):
    """The bytes of each file below a folder, by its path from there, but for the locks."""
    found = {}
    for place, folders, names in os.walk(folder):
        folders[:] = sorted(name for name in folders if not is_of_locks(place, name))
        for name in sorted(names):
            path = os.path.relpath(os.path.join(place, name), folder)
            if name not in left_out:
                with open(os.path.join(place, name), "rb") as file:
                    found[path] = file.read()
    return found


def plain(piece):
    """What a piece of a string stands for."""
    if piece.startswith("\\x"):
        return chr(int(piece[2:], 16))
    return ESCAPES[piece[1]] if piece.startswith("\\") else piece


def tokens(line):
    """The tokens of a line of a script."""
    found = []
    for string, word in re.findall(r'"((?:[^"\\]|\\.)*)"|([^\s"]\S*)', line):
        pieces = re.findall(r"\\x..|\\.|[^\\]", string)
        found.append(word or "".join(plain(piece) for piece in pieces))
    return found


def place_of(directory, path):
    return path if directory == "here" else f"aegis.d/{directory}/{path}"


def is_time_of_now(text, began):
    """Whether the text is a time in UTC between then and now."""
    moment = calendar.timegm(time.strptime(text, "%Y-%m-%d %H:%M:%S"))
    return began <= moment <= int(time.time())


def kept_evidence(change):
    """The rows of evidence that the state file of a change has, as a listing shows them."""
    row = r'ground = (\w+); kind = (\w+); path = "([^"]*)"; status = (\d+); clean = (\w+); subject = "(\w+)";'
    found = re.findall(row, change.split("\nevidence = ")[1].split("\nhistory = ")[0])
    return [
        (ground, kind, status, "clean" if clean == "true" else "changed", subject, path or "-")
        for ground, kind, path, status, clean, subject in found
    ]


def answers(transcript):
    """What each command is to say, and its status."""
    said = []
    for line in transcript.splitlines(keepends=True):
        if line.startswith("= "):
            yield "".join(said), int(line[2:])
            said = []
        else:
            said.append(line)


class Session:
    """A session under way in a folder of its own. What differs is written to standard error and counted."""

    def __init__(self, program, top):
        self.program, self.top = program, top
        self.who, self.began = "nobody", int(time.time())
        self.done, self.wrong = 0, 0

    def complain(self, text):
        self.wrong += 1
        print(text, file=sys.stderr)

    def do(self, words, said, status):
        """A single command. A listing goes to standard output, where each time is one of this run."""
        found = run(self.program, self.top, self.who, words)
        self.done += 1
        told, wanted = (found.returncode, found.stdout, found.stderr), (status, "", said)
        if words[0] == "-l" and status == 0:
            if not all(is_time_of_now(text, self.began) for text in TIME.findall(found.stdout)):
                self.complain(f"{' '.join(words)}: a time that isn't one of this run")
            told, wanted = (found.returncode, TIME.sub("TIME", found.stdout), found.stderr), (0, TIME.sub("TIME", said), "")
        if told != wanted:
            self.complain(f"{self.who}: {' '.join(words)}: {told}, and not {wanted}")

    def follow(self, script, transcript):
        """Does each line of the script by itself, and compares what each command says with the transcript."""
        expected = answers(transcript)
        for line in script.splitlines():
            verb, *words = tokens(line) if line and not line.startswith("#") else ["at"]
            if verb == "as":
                self.who = words[0]
            elif verb == "put":
                write(self.top, place_of(*words[:2]), words[2])
            elif verb == "drop":
                os.remove(os.path.join(self.top, place_of(*words)))
            elif verb == "do":
                self.do(words, *next(expected))
            elif verb != "at":
                self.complain(f"no line of a script: {line}")
        if next(expected, None) is not None:
            self.complain("the transcript has more commands than the script")

    def script(self, script, transcript):
        """Does all of it as one script, whose output is the transcript."""
        env = {**os.environ, "AEGIS_USER": "nobody"}
        found = subprocess.run([self.program, "-script"], cwd=self.top, env=env, input=script, capture_output=True)
        if (found.returncode, found.stderr) != (0, b""):
            self.complain(f"the script ends with {found.returncode}, and says {found.stderr!r}")
        if found.stdout != transcript:
            pairs = zip(found.stdout.splitlines(), transcript.splitlines())
            at = next((pair for pair in pairs if pair[0] != pair[1]), "the one is longer")
            self.complain(f"the script's output isn't the transcript: {at}")

    def compare_store(self, expected, exact):
        """The state files are the same, but for moments where it isn't exact: then each is one of this run. No file is an empty one.

        `gate` and `body` are compared where the session has them.
        """
        left_out = {"gate", "body"} - expected.keys()
        store = read_tree(os.path.join(self.top, "aegis.d", "store"), left_out)
        for name in sorted({*store, *expected}):
            found, wanted = store.get(name, b""), expected.get(name, b"")
            if found == wanted:
                continue
            moments = [int(moment) for moment in re.findall(rb"when = (\d+);", found)]
            if exact or not all(self.began <= moment <= int(time.time()) for moment in moments):
                self.complain(f"{name}: a moment that is none of this run, or other bytes")
            if re.sub(rb"when = \d+;", b"", found) != re.sub(rb"when = \d+;", b"", wanted):
                self.complain(f"{name}: {found!r}, and not {wanted!r}")

    def compare_directories(self, expected):
        """The directories hold just these files, by their SHA-256. What is kept beside them isn't one."""
        files = read_tree(os.path.join(self.top, "aegis.d"), ("aegis.log",))
        files = {path: text for path, text in files.items() if path != "lock" and not path.startswith("store/") and ".old/" not in path}
        found = [f"{hashlib.sha256(text).hexdigest()}  {path}" for path, text in files.items()]
        if sorted(found) != sorted(expected.splitlines()):
            self.complain(f"the directories hold {found}, and not {expected.splitlines()}")


def main(name):
    """Runs the session of this name, as commands and as a script."""
    stored = read_tree(os.path.join(SESSIONS, name))
    store = {path[len("store/") :]: text for path, text in stored.items() if path.startswith("store/")}
    done = wrong = 0
    for as_script in [False, True]:
        with tempfile.TemporaryDirectory() as top:
            session = Session(os.path.abspath(sys.argv[1]), top)
            if as_script:
                session.script(stored["script"], stored["transcript"])
            else:
                session.follow(stored["script"].decode("latin-1"), stored["transcript"].decode("latin-1"))
            session.compare_store(store, as_script)
            session.compare_directories(stored["folders"].decode("latin-1"))
            done, wrong = done + session.done, wrong + session.wrong
    print(f"{done} commands, and as one script; {len(store)} files of the store; {wrong} wrong")
    sys.exit(1 if wrong or not done else 0)
