"""What a command costs: processor seconds, memory, and the bytes that it reads and writes."""
import os
import signal
import sys
import tempfile
import threading
import time
from typing import Callable, Mapping, NamedTuple, Sequence

# the fixed work by which it is seen how fast the processor is, as in tests/processor-minutes, and how often it is done
STEPS, PAUSE = 500_000, 6
# what begins a command whose memory is asked for, and writes that to a file
TIME = ["time", "-q", "-f", "%M", "-o"]


class Cost(NamedTuple):
    """Of a command with those that it begins and waits for: seconds of a processor, bytes read and written, and the most memory of one of
    them, where that was asked for."""

    seconds: float
    touched: int
    memory: int = 0

    def __add__(self, other: object) -> "Cost":
        """One after the other."""
        if not isinstance(other, Cost):
            return NotImplemented
        return Cost(self.seconds + other.seconds, self.touched + other.touched, max(self.memory, other.memory))


class Words(NamedTuple):
    """A command: its words, where it is given, what it reads, and the environment that it has besides."""

    words: Sequence[str]
    folder: str
    given: bytes = b""
    env: Mapping[str, str] = {}


def become(command: Words, words: Sequence[str], source: int, out: int) -> None:
    """In the child: the command, with its input, and what it says in a file."""
    try:
        os.chdir(command.folder)
        for old, new in ((source, 0), (out, 1), (out, 2)):
            os.dup2(old, new)
        os.execvpe(words[0], list(words), {**os.environ, **command.env})
    finally:
        os._exit(127)


def bytes_touched(child: int) -> int:
    """What a process that has ended, and isn't yet waited for, had read and written."""
    with open(f"/proc/{child}/io", encoding="ascii") as file:
        counts = dict(line.split(": ") for line in file.read().splitlines())
    return int(counts["rchar"]) + int(counts["wchar"])


def ended(child: int) -> tuple[int, float, int]:
    """How a command ended, its seconds of a processor, and what it touched. It doesn't outlive this script."""
    try:
        os.waitid(os.P_PID, child, os.WEXITED | os.WNOWAIT)
    except BaseException:
        os.kill(child, signal.SIGKILL)
        os.waitpid(child, 0)
        raise
    touched = bytes_touched(child)
    _, status, used = os.wait4(child, 0)
    return os.waitstatus_to_exitcode(status), used.ru_utime + used.ru_stime, touched


def measured(command: Words, memory: bool = False) -> tuple[Cost, str]:
    """What a command costs, and what it says. One that isn't done ends this script. A process counts the memory of the one that began it,
    which is more for this script than for many commands, so where memory is asked for GNU time begins it, and takes a millisecond."""
    with tempfile.TemporaryFile() as source, tempfile.TemporaryFile() as out, tempfile.NamedTemporaryFile() as peak:
        source.write(command.given)
        source.flush()
        source.seek(0)
        words = [*TIME, peak.name, *command.words] if memory else command.words
        child = os.fork()
        if child == 0:
            become(command, words, source.fileno(), out.fileno())
        status, seconds, touched = ended(child)
        out.seek(0)
        said = out.read().decode(errors="replace")
        most = int(peak.read()) * 1024 if memory and status == 0 else 0
    if status != 0:
        sys.exit(f"{' '.join(command.words)[:200]}: {status}, {said[-500:]}")
    return Cost(seconds, touched, most), said


def cost(command: Words, memory: bool = False) -> Cost:
    """What a command costs."""
    return measured(command, memory)[0]


def least(command: Words, times: int = 3, between: Callable[[], object] = lambda: None) -> Cost:
    """The least of some times, with something done after each."""
    costs = []
    for _ in range(times):
        costs.append(cost(command))
        between()
    return min(costs)


def seconds_of_loop() -> float:
    """The processor seconds of this thread that the fixed work takes."""
    began, value = time.thread_time(), 0
    for _ in range(STEPS):
        value = (value * 1103515245 + 12345) & 0xFFFFFFFF
    return time.thread_time() - began


class Speed:
    """How fast the processor was while something was measured, and how much else ran: the fixed work is done again and again beside it."""

    def __init__(self) -> None:
        self.loops, self.done = [seconds_of_loop()], threading.Event()
        self.loads = [os.getloadavg()[0]]
        self.watching = threading.Thread(target=self.watch, daemon=True)
        self.watching.start()

    def watch(self) -> None:
        while not self.done.wait(PAUSE):
            self.loops.append(seconds_of_loop())
            self.loads.append(os.getloadavg()[0])

    def slower(self, since: int = 0) -> float:
        """How many times as long the fixed work took as at its fastest, since so many times of it."""
        loops = self.loops[since:] or self.loops[-1:]
        return sum(loops) / len(loops) / min(self.loops)

    def told(self) -> str:
        """Ends the watching, and says what was seen."""
        self.done.set()
        self.watching.join()
        load = f"the load was {min(self.loads):.1f} to {max(self.loads):.1f}, of {os.cpu_count()} processors"
        return f"{load}; a fixed loop took {1000 * min(self.loops):.0f} ms at its fastest, and {self.slower():.2f} times that on average"
