"""A project with a baseline on real files (tests/stores/README.md), and the change that is developed over it."""
import os
import shutil
import sys

sys.dont_write_bytecode = True
from lib.session import read_tree, run, write

STORES = os.path.join(os.path.dirname(os.path.dirname(os.path.abspath(__file__))), "stores")
CONFIG = 'build_command = "exit 0";\ntest_command = "sh ${file_name}";\n'
ONE_DELTA = {"aegis.conf": CONFIG, "hello": "hi\n", "t.sh": "test -f hello\n"}
THREE_DELTAS = {"aegis.conf": CONFIG, "hello": "hi there\n", "u.sh": "grep -q there hello"}
DAMAGED = 'aegis: "pack" is damaged\n'
DIRECTORY_FAULT = "aegis: directory fault\n"


class Project:
    """A project with a baseline in a folder of its own, and the change that is developed. What differs is counted."""

    def __init__(self, program, top, store, baseline, change):
        self.program, self.top, self.change, self.wrong, self.steps = program, top, change, 0, 0
        self.files = dict(baseline)
        shutil.copytree(os.path.join(STORES, store), self.store())
        write(top, "c.attr", "test_exempt = true; regression_test_exempt = true;")
        self.says("alice", "-nc -f c.attr", 0, self.line("created"))

    def store(self, name=""):
        return os.path.join(self.top, "aegis.d", "store", name)

    def line(self, text):
        return f'aegis: project "demo": change {self.change}: {text}\n'

    def complain(self, text):
        self.wrong += 1
        print(text if len(text) < 1000 else f"{text[:500]} .. {text[-500:]}", file=sys.stderr)

    def says(self, who, words, status, said):
        """The command ends so, and says just that."""
        self.steps += 1
        found = run(self.program, self.top, who, words.split())
        if (found.returncode, found.stdout, found.stderr) != (status, "", said):
            self.complain(f"{who}: {words}: {found.returncode}, {found.stdout!r}, {found.stderr!r}, and not {status}, {said!r}")

    def holds(self, **changed):
        """The directory holds what it held, but for these files (None where there is to be none), and nothing else.

        What runs wrote, `aegis.log`, is left out.
        """
        for path, text in changed.items():
            self.files.pop(path, None)
            if text is not None:
                self.files[path] = text
        found = read_tree(os.path.join(self.top, "aegis.d", f"develop.{self.change}"), ("aegis.log",))
        wanted = {path: text.encode() for path, text in self.files.items()}
        if found != wanted:
            self.complain(f"the directory holds {found}, and not {wanted}")

    def done(self, words, *texts, **changed):
        """bob's command is done, says a line for each text, and the directory has these changes."""
        words = words.replace(" ", f" -c {self.change} ", 1) if " " in words else f"{words} -c {self.change}"
        self.says("bob", words, 0, "".join(self.line(text) for text in texts))
        self.holds(**changed)

    def refused(self, words, refusal, status=1):
        """bob's command is refused so, and changes neither the directory nor a state file."""
        store = read_tree(self.store(), ("gate", "body"))
        self.says("bob", words.replace(" ", f" -c {self.change} ", 1), status, refusal)
        self.holds()
        if read_tree(self.store(), ("gate", "body")) != store:
            self.complain(f"{words}: a refused command changed a state file")

    def place(self, path):
        """Where a file of the directory is."""
        return os.path.join(self.top, "aegis.d", f"develop.{self.change}", path)

    def put(self, path, text):
        """The developer writes a file."""
        write(self.top, f"aegis.d/develop.{self.change}/{path}", text)
        self.files[path] = text

    def has_rows(self, *rows):
        """The change has these files: action, usage, origin and path."""
        listed = []
        for row in rows:
            action, usage, origin, path = row.split()
            listed.append(f'{{ path = "{path}"; action = {action}; usage = {usage}; origin = {origin}; version = {{ }}; }}')
        with open(self.store(f"change.{self.change}")) as file:
            if f"files = [{', '.join(listed)}];\n" not in file.read():
                self.complain(f"the change hasn't just the files {rows}")
