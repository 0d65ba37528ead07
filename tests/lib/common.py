"""What the scripts share that run the program on real files.

`run` runs a command as a process of its own. `traced` does so under a watch that sees each system call of the command once
it looks at its folder, and may let one fail or stop the command there. `looked_at` answers which files a command looks at. Both
need ptrace on x86-64 Linux.
"""
import ctypes
import os
import signal
import subprocess
import sys
import tempfile

MADE = 'aegis: project "demo": '
NO_PROJECT = "aegis: 1: there is no project\n"
DISK_FAULT = "aegis: disk fault\n"
# Whether it is known that no process can be traced here; what needs that is then left out.
WITHOUT_TRACE = os.environ.get("AEGIS_WITHOUT_TRACE") == "1"

# The numbers of system calls.
READ, WRITE, PREAD, PWRITE, FLOCK, FSYNC, FDATASYNC, FTRUNCATE = 0, 1, 17, 18, 73, 74, 75, 77
MKDIR, GETDENTS, OPENAT, STATX = 83, 217, 257, 332
# What a write to standard error counts as, which is that of the reply; no system call has this number.
REPLY = 10000
# What a read of standard input counts as.
INPUT = 10001
# What a stop at a call has besides the signal.
AT_A_CALL = 0x80
WATCHED = {WRITE, PREAD, PWRITE, FLOCK, FSYNC, FDATASYNC, FTRUNCATE, MKDIR, GETDENTS, OPENAT, STATX, REPLY, INPUT}

TRACEME, PEEKUSER, POKEUSER, SYSCALL, SETOPTIONS = 0, 3, 6, 24, 0x4200
SEES_CALLS_ENDS_WITH_TRACER = 0x00100001
NUMBER, ANSWER, FIRST_WORD, SECOND_WORD, THIRD_WORD = 15 * 8, 10 * 8, 14 * 8, 13 * 8, 12 * 8
STOP = object()

ptrace = ctypes.CDLL(None, use_errno=True).ptrace
ptrace.argtypes = [ctypes.c_long, ctypes.c_long, ctypes.c_void_p, ctypes.c_void_p]
ptrace.restype = ctypes.c_long


def environment(who):
    """That of this process, but for who asks. No command waits for the lock, so that a test can hold it."""
    return {**os.environ, "AEGIS_USER": who, "AEGIS_WAIT": "0"}


def run(program, top, who, words, **options):
    """Runs one command in the folder. The words are a text, split at blanks, or a list."""
    words = words.split() if isinstance(words, str) else words
    options = {"capture_output": True, "text": True, "env": environment(who), **options}
    return subprocess.run([program, *words], cwd=top, **options)


def differs(found, status, said):
    return (found.returncode, found.stdout, found.stderr) != (status, "", said)


def has_project(program, top):
    """Makes a project in the folder."""
    assert not differs(run(program, top, "alice", "-npr demo"), 0, MADE + "created\n")


def can_trace():
    """Whether a process may be traced here; some containers refuse it. Says so where it may not be.

    A script that needs it then fails, unless the environment has AEGIS_WITHOUT_TRACE=1.
    """
    child = os.fork()
    if child == 0:
        os._exit(0 if ptrace(TRACEME, 0, None, None) == 0 else 1)
    if os.waitstatus_to_exitcode(os.waitpid(child, 0)[1]) == 0:
        return True
    print("a process can't be traced here, so what needs that isn't run", file=sys.stderr)
    return False


def start_traced(program, top, who, words, err, out=1, given=0):
    child = os.fork()
    if child == 0:
        try:
            os.chdir(top)
            os.dup2(given, 0)
            os.dup2(out, 1)
            os.dup2(err, 2)
            if ptrace(TRACEME, 0, None, None) != 0:
                os._exit(126)
            os.execve(program, [program, *words.split()], environment(who))
        finally:
            os._exit(127)
    return child


def one_call(child):
    """Lets the child go on to its next stop at a call, and answers the status that waitpid gives. A signal is handed on."""
    handed_on = 0
    while True:
        ptrace(SYSCALL, child, None, ctypes.c_void_p(handed_on))
        status = os.waitpid(child, 0)[1]
        if not os.WIFSTOPPED(status) or os.WSTOPSIG(status) & AT_A_CALL:
            return status
        handed_on = os.WSTOPSIG(status) if os.WSTOPSIG(status) != signal.SIGTRAP else 0


def finish_call(child, failure):
    """Lets a call end; where it is to fail, it isn't made."""
    if failure is not None:
        ptrace(POKEUSER, child, NUMBER, ctypes.c_void_p(-1))
    status = one_call(child)
    if failure is not None and os.WIFSTOPPED(status):
        ptrace(POKEUSER, child, ANSWER, ctypes.c_void_p(-failure))
    return status


def call_of(child):
    """The number of the system call at which the child stands."""
    number = ptrace(PEEKUSER, child, NUMBER, None)
    marked = {(READ, 0): INPUT, (WRITE, 2): REPLY}
    return marked.get((number, ptrace(PEEKUSER, child, FIRST_WORD, None)), number)


def follow(child, watch, from_the_start=False):
    """Follows a child to its end. `watch` is asked at each watched call from the first STATX or INPUT on, or from the start."""
    status = os.waitpid(child, 0)[1]
    if os.WIFEXITED(status):
        sys.exit("a process can't be traced here")
    ptrace(SETOPTIONS, child, None, ctypes.c_void_p(SEES_CALLS_ENDS_WITH_TRACER))
    count = 0
    status = one_call(child)
    while os.WIFSTOPPED(status):
        number = call_of(child)
        failure = None
        if number in WATCHED and (count or number in [STATX, INPUT] or from_the_start):
            count += 1
            failure = watch(count, number)
        if failure is STOP:
            os.kill(child, signal.SIGKILL)
            return os.waitpid(child, 0)[1]
        status = finish_call(child, failure)
        if os.WIFSTOPPED(status):
            status = one_call(child)
    return status


class OneCall:
    """A watch of `traced` that lets one call fail, or stops the command before it.

    `number` is that of the call which it met, and None where the command ended before: how many calls a command makes depends on the
    time, as a file that was changed just before is read again where one that is older isn't.
    """

    def __init__(self, at, failure):
        self.at, self.failure, self.number = at, failure, None

    def __call__(self, count, number):
        if count != self.at:
            return None
        self.number = number
        return self.failure


def traced(program, top, who, words, watch, given=0):
    """Runs one command, and answers its exit status (or minus the signal that ended it) and what it said.

    `watch(count, number)` answers None where a call is to be made, an error number where it is to fail with that, and STOP
    where the command is to be stopped before it. Its input is the descriptor that is given.
    """
    with tempfile.TemporaryFile() as err, open(os.devnull, "wb") as out:
        status = follow(start_traced(program, top, who, words, err.fileno(), out.fileno(), given), watch)
        err.seek(0)
        return os.waitstatus_to_exitcode(status), err.read().decode()


def named_path(child):
    """The path that the call of the child names as its second word."""
    place = ptrace(PEEKUSER, child, SECOND_WORD, None)
    with open(f"/proc/{child}/mem", "rb", buffering=0) as memory:
        memory.seek(place)
        return memory.read(4096).split(b"\0")[0].decode()


def looked_at(program, top, who, words):
    """Runs one command, and answers the paths of the files that it opens or asks the system about."""
    paths = set()

    def watch(_, number):
        if number in [OPENAT, STATX]:
            paths.add(named_path(child))

    with tempfile.TemporaryFile() as said:
        child = start_traced(program, top, who, words, said.fileno(), said.fileno())
        follow(child, watch)
    return paths


def opened(program, top, who, words):
    """Runs one command, and answers the files that it opens, each with the flags that it is opened with."""
    files = {}

    def watch(_, number):
        if number == OPENAT:
            files[named_path(child)] = files.get(named_path(child), 0) | ptrace(PEEKUSER, child, THIRD_WORD, None)

    with tempfile.TemporaryFile() as said:
        child = start_traced(program, top, who, words, said.fileno(), said.fileno())
        follow(child, watch)
    return files
