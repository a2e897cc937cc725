"""The one runner of programs: from a file to a file, within limits."""

import contextlib
import ctypes
import os
import pathlib
import resource
import signal
import subprocess
import tempfile
import time
from collections.abc import Iterable, Iterator
from dataclasses import dataclass
from typing import Any, BinaryIO, Callable, Optional

from ._faults import Failed, Gone, OutOfTime, files_told
from ._files import Text, file_of

FIRST_TOLD = 2.0  # seconds after which `tell` is called for the first time
SLOWEST = 10  # times its seconds of processor time a program may take by the clock on the wall
POLL = 0.02  # seconds between two looks at a program, at most
MOST_SAID = 1 << 16  # bytes of what a program says on standard error
GRACE = 2.0  # seconds that programs have to end by themselves
DEATH_SIGNAL = 1  # the number by which Linux knows that a program ends with the one that began it
Tell = Callable[[float], None]


@dataclass(frozen=True)
class Limits:
    """What a program may take: seconds of processor time, seconds by the clock, and MiB of memory. `tell` is called now
    and then with the seconds spent, `note` at the end, and a program that isn't wanted any more is ended.
    """

    seconds: Optional[float] = None
    clock: Optional[float] = None
    memory: Optional[int] = None
    tell: Optional[Tell] = None
    note: Optional[Tell] = None
    is_wanted: Optional[Callable[[], bool]] = None


NONE = Limits()


def run(
    name: str, words: list[str], source: BinaryIO, out: BinaryIO, good: Iterable[int] = (0,), limits: Limits = NONE
) -> int:
    """Runs a program from one file to another, and gives its status, which is one of the good ones."""
    with tempfile.TemporaryFile() as err:
        with files_told(words[0]):
            process = subprocess.Popen(words, stdin=source, stdout=out, stderr=err)
        try:
            if limits.memory:
                with contextlib.suppress(ProcessLookupError):
                    resource.prlimit(process.pid, resource.RLIMIT_AS, (limits.memory << 20, limits.memory << 20))
            spent = wait(process, limits)
        finally:
            if process.poll() is None:
                process.kill()
                process.wait()
        err.seek(0)
        said = err.read(MOST_SAID).decode("ascii", "replace")
    if spent is not None:
        fault = OutOfTime(name, process.returncode, said)
        fault.is_starved = limits.seconds is None or spent < limits.seconds
        raise fault
    if process.returncode not in good:
        raise Failed(name, process.returncode, said)
    return process.returncode


def wait(process: "subprocess.Popen[bytes]", limits: Limits) -> Optional[float]:
    """Waits until the program is over, or until its seconds of processor time are spent or those by the clock, which
    else are some times as many; then it gives what was spent. The times of what is told double.
    """
    most = float("inf") if limits.seconds is None else limits.seconds
    end = time.monotonic() + (SLOWEST * most if limits.clock is None else limits.clock)
    next_told, delay, spent = FIRST_TOLD, 0.0005, 0.0
    while not has_ended(process, limits.note):
        spent = max(spent, processor_seconds(process.pid))
        if limits.is_wanted and not limits.is_wanted():
            raise Gone
        if spent >= most or time.monotonic() >= end:
            if limits.note:
                limits.note(spent)
            return spent
        if limits.tell and spent >= next_told:
            limits.tell(spent)
            next_told *= 2
        time.sleep(delay)
        delay = min(2 * delay, POLL)
    return None


def has_ended(process: "subprocess.Popen[bytes]", note: Optional[Tell]) -> bool:
    """The program is over; then it is noted what it took."""
    pid, status, used = os.wait4(process.pid, os.WNOHANG)
    if not pid:
        return False
    process.returncode = os.waitstatus_to_exitcode(status)
    if note:
        note(used.ru_utime + used.ru_stime)
    return True


def processor_seconds(pid: int) -> float:
    """The processor time that a process has taken, in seconds, without that of its children."""
    try:
        return time.clock_gettime(~pid << 3 | 2)  # the number that Linux gives to this clock
    except OSError:
        return 0.0  # it is over


def answer(
    name: str, words: list[str], text: Text, good: Iterable[int] = (0,), limits: Limits = NONE
) -> tuple[int, str]:
    """Runs a program on a text, and gives its status and what it wrote. So a command can be called for which there is
    no function here: answer("victor NAME", [find_program(), "NAME"], text)."""
    with file_of(text) as source:
        return answer_from(name, words, source, good, limits)


def answer_from(
    name: str, words: list[str], source: BinaryIO, good: Iterable[int] = (0,), limits: Limits = NONE
) -> tuple[int, str]:
    """The same of a program that reads a file."""
    with tempfile.TemporaryFile() as out:

        def written() -> str:
            out.seek(0)
            return out.read().decode("ascii", "replace")

        try:
            return run(name, words, source, out, good, limits), written()  # type: ignore[arg-type]
        except Failed as fault:
            fault.written = written()
            raise


@contextlib.contextmanager
def apart(words: list[str], **more: Any) -> Iterator["subprocess.Popen[bytes]"]:
    """A program in a session of its own, which an interrupt at a terminal doesn't reach, with all that it begins. What
    is left of the session at the end is ended, and it ends with the program that began it.
    """
    control = ctypes.CDLL(None).prctl
    with files_told(words[0]):
        process = subprocess.Popen(
            words,
            stdin=subprocess.DEVNULL,
            start_new_session=True,
            preexec_fn=lambda: control(DEATH_SIGNAL, signal.SIGKILL),
            **more,
        )
    try:
        yield process
    finally:
        with held(signal.SIGINT), held(signal.SIGTERM):
            end_session(process)


@contextlib.contextmanager
def held(number: int) -> Iterator[None]:
    """A signal is ignored for a while."""
    before = signal.signal(number, signal.SIG_IGN)
    try:
        yield
    finally:
        signal.signal(number, before)


def end_session(process: "subprocess.Popen[bytes]") -> None:
    """Ends all programs of a session: first so that they can put away what they have begun."""
    end, number = time.monotonic() + GRACE, signal.SIGTERM
    while left := session_of(process.pid):
        for pid in left:
            with contextlib.suppress(ProcessLookupError):
                os.kill(pid, number)
        process.poll()
        if time.monotonic() > end:
            number = signal.SIGKILL
        time.sleep(5 * POLL)
    process.wait()


def session_of(leader: int) -> list[int]:
    """The processes of a session that haven't ended."""
    found = []
    for path in pathlib.Path("/proc").glob("[0-9]*/stat"):
        with contextlib.suppress(OSError, ValueError, IndexError):
            state, _, _, session = path.read_text().rsplit(")", 1)[1].split()[:4]
            if int(session) == leader and state not in "ZX":
                found.append(int(path.parent.name))
    return found
