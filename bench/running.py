"""What bench/run and bench/library have in common: they run commands and time them, in a folder of their own, over lines that
are made of samples."""
import ctypes
import os
import shutil
import signal
import sys
import tempfile
import time
from contextlib import contextmanager
from dataclasses import dataclass
from pathlib import Path

from figures import TOP, amount, memory

BUILT = [TOP / "crates/riegeli_main/out" / name for name in ("riegeli", "riegeli_main")]
# The kernel counts to a process the peak of the one that it comes from, and this one's is above what most commands take.
# So a shell makes each process, which waits for a line before it becomes the command, and is left to this one as an orphan.
HELD = '{ read -r go <&3 && exec "$@" <&4 3<&- 4<&-; } &'
PR_SET_CHILD_SUBREAPER = 36
NAME = f"bench/{Path(sys.argv[0]).name}"


class Wrong(Exception):
    """What keeps from measuring, or from measuring one command."""


@dataclass
class Run:
    """How a command went: seconds of the clock and of processors, and its peak of memory in bytes."""
    seconds: float
    processor: float
    peak: int


def say(words):
    print(f"{NAME}: {words}", file=sys.stderr, flush=True)


class Commands:
    """Runs commands in the current folder, one at a time."""

    def __init__(self, program):
        self.program = str(program)
        if ctypes.CDLL(None).prctl(PR_SET_CHILD_SUBREAPER, 1, 0, 0, 0):
            raise Wrong("no process can be handed over here, and so no peak of memory be told")

    def run(self, words, reads=os.devnull, prints=os.devnull):
        """Runs a command, which has to end with status 0."""
        command = [self.program if word == "riegeli" else word for word in words.split()]
        gate, opener = os.pipe()
        made = os.O_WRONLY | os.O_CREAT | os.O_TRUNC
        shell = os.posix_spawn("/bin/sh", ["sh", "-c", HELD, "sh", *command], os.environ, setpgroup=0, file_actions=[
            (os.POSIX_SPAWN_DUP2, gate, 3),
            (os.POSIX_SPAWN_OPEN, 4, reads, os.O_RDONLY, 0),
            (os.POSIX_SPAWN_OPEN, 1, prints, made, 0o666),
            (os.POSIX_SPAWN_OPEN, 2, "notes", made, 0o666),
        ])
        try:
            os.waitpid(shell, 0)
            begin = time.perf_counter()
            os.write(opener, b"\n")
            _, status, usage = os.wait4(-shell, 0)
            seconds = time.perf_counter() - begin
        except BaseException:
            os.killpg(shell, signal.SIGKILL)
            raise
        finally:
            os.close(gate)
            os.close(opener)
        if status:
            ended = f"signal {os.WTERMSIG(status)}" if os.WIFSIGNALED(status) else f"status {os.WEXITSTATUS(status)}"
            raise Wrong(f"{words}: {ended} {Path('notes').read_text().strip()}".strip())
        return Run(seconds, usage.ru_utime + usage.ru_stime, usage.ru_maxrss * 1024)


def clear(*names):
    """Removes files of the current folder that are there."""
    for name in filter(None, names):
        Path(name).unlink(missing_ok=True)


def make_letters(commands, wanted, seed):
    """Makes `letters` of those that the samples of this seed, the next one and so on have."""
    records = min(10**6, wanted // 100 + 1)
    with open("letters", "wb") as letters:
        while letters.tell() < wanted:
            commands.run(f"riegeli sample --seed={seed} --records={records} G")
            commands.run("riegeli show G", prints="shown")
            with open("shown", "rb") as shown:
                while block := shown.read(2**24):
                    letters.write(block.replace(b"\n", b""))
            seed += 1
        letters.truncate(wanted)
    clear("G", "shown")


def fold(name, length, count):
    """Makes a file of so many lines of so many letters, which begin anew where they end."""
    most = max(1, 2**20 // length)
    with open("letters", "rb") as letters, open(name, "wb") as lines:
        while count:
            block = letters.read(length * min(count, most))
            if not block:
                letters.seek(0)
            lines.write(b"".join(block[at:at + length] + b"\n" for at in range(0, len(block), length)))
            count -= len(block) // length


@contextmanager
def folder(where, room, duration):
    """A new folder with room enough, which is the current one until it is removed at the end."""
    home = os.getcwd()
    if where and not os.path.isdir(where):
        raise Wrong(f"{where} is no folder")
    with tempfile.TemporaryDirectory(prefix="riegeli-bench-", dir=where) as place:
        free = shutil.disk_usage(place).free
        say(f"needs {amount(room)} in {place}, where {amount(free)} are free, and takes {duration}")
        if free < room:
            raise Wrong(f"that is not enough room; {NAME} DIR takes another folder")
        if memory("MemAvailable") < room:
            say("not all of that fits into memory, so the disk is measured too")
        os.chdir(place)
        try:
            yield place
        finally:
            os.chdir(home)


def unwind_on_signals():
    """Has each signal that ends this process unwind it, so that the folder is removed."""
    for number in (signal.SIGINT, signal.SIGTERM, signal.SIGHUP):
        if signal.getsignal(number) != signal.SIG_IGN:
            signal.signal(number, lambda number, _: sys.exit(128 + number))


def find_program(named):
    """The program that is measured."""
    for program in [named] if named else BUILT:
        if os.access(program, os.X_OK):
            return program.resolve()
    raise Wrong("there is no program: ./riegeli builds it, and --program=FILE names one")
