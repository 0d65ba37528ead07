"""The life of two changes, from a new project to its second baseline: its steps, and what stands after each."""
import fcntl
import os
import re
import shlex
import sys
import tempfile

sys.dont_write_bytecode = True
from lib.common import run
from lib.session import TIME, place_of, tokens

CONFIG = r'"build_command = \"exit 0\";\ntest_command = \"sh ${file_name}\";\n"'

# each step: who gives the command, the lines of a script that edit files before it, and its words
LIFE = [
    ("alice", [], "-npr demo"),
    ("alice", [], "-nd bob"),
    ("alice", [], "-nrv carol"),
    ("alice", [], "-ni alice"),
    ("alice", ['put here p.attr "description = \\"a life\\";"'], "-pa -f p.attr"),
    ("alice", ['put here c.attr "brief_description = \\"first\\";"'], "-nc -f c.attr"),
    ("bob", [], "-db -c 10"),
    ("bob", [f"put develop.10 aegis.conf {CONFIG}", 'put develop.10 lib/hello "hi\\n"'], "-nf -c 10 aegis.conf lib/hello"),
    ("bob", ['put develop.10 t.sh "grep -q hi lib/hello"'], "-nt -c 10 t.sh"),
    ("bob", [], "-b -c 10"),
    ("bob", [], "-t -c 10"),
    ("bob", [], "-de -c 10"),
    ("carol", [], "-rpass -c 10"),
    ("alice", [], "-ib -c 10"),
    ("alice", [], "-b -c 10"),
    ("alice", [], "-t -c 10"),
    ("alice", [], "-ipass -c 10"),
    ("alice", ['put here c.attr "brief_description = \\"second\\"; test_exempt = true;"'], "-nc -f c.attr"),
    ("bob", [], "-db -c 11"),
    ("bob", [], "-cp -c 11 lib/hello"),
    ("bob", ['put develop.11 lib/hello "hi there\\n"'], "-b -c 11"),
    ("bob", [], "-t -c 11 -reg"),
    ("bob", [], "-de -c 11"),
    ("carol", [], "-rfail -c 11"),
    ("bob", [], "-de -c 11"),
    ("carol", [], "-rpass -c 11"),
    ("alice", [], "-ib -c 11"),
    ("alice", [], "-b -c 11"),
    ("alice", [], "-t -c 11 -reg"),
    ("alice", [], "-ipass -c 11"),
]
OF_PROJECT = ["a", "d", "r", "i", "pc", "pd", "pf", "phi", "l"]
OF_CHANGE = ["cd", "cf", "ch", "ce"]
LISTINGS = "".join(f"do -l {name}\n" for name in OF_PROJECT)
LISTINGS += "".join(f"do -l {name} -c {number}\n" for number in [10, 11] for name in OF_CHANGE)


def script_of(steps):
    """The steps as a script."""
    return "".join("".join(f"{edit}\n" for edit in edits) + f"as {who}\ndo {words}\n" for who, edits, words in steps)


def shell_of(steps):
    """The steps as commands of a shell, each a process of its own, whose messages are appended to the file `told`."""
    lines = []
    for who, edits, words in steps:
        for edit in edits:
            _, directory, path, text = tokens(edit)
            place = shlex.quote(place_of(directory, path))
            lines.append(f"mkdir -p $(dirname {place}) && printf %s {shlex.quote(text)} >{place} || exit 1\n")
        lines.append(f'AEGIS_USER={who} "$0" {words} 2>>told || exit 1\n')
    return "".join(lines)


def snapshot(program, top):
    """What all listings say, but for times."""
    found = run(program, top, "nobody", "-scr", input=LISTINGS)
    return TIME.sub("TIME", found.stdout) + found.stderr


def references(program):
    """What stands before the first step and after each."""
    found = []
    with tempfile.TemporaryDirectory() as top:
        found.append(snapshot(program, top))
        for step in LIFE:
            done = run(program, top, "nobody", "-scr", input=script_of([step]))
            if (done.returncode, done.stderr, re.findall("(?m)^= .*$", done.stdout)) != (0, "", ["= 0"]):
                sys.exit(f"{step}: {done}")
            found.append(snapshot(program, top))
    if len(set(found)) != len(found):
        sys.exit("two steps leave the same")
    return found


def wait_for_lock(top):
    """Waits until the killed command has let the lock go."""
    place = os.path.join(top, "aegis.d", "lock")
    if os.path.exists(place):
        with open(place, "r+b") as lock:
            fcntl.flock(lock, fcntl.LOCK_EX)
