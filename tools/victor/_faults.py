"""What can be wrong: each fault is one line."""

import contextlib
import signal
from collections.abc import Iterator


class Fault(Exception):
    """What is wrong, in one line. `code` is the status that a command ends with for it."""

    code = 2

    def __init__(self, message: object) -> None:
        super().__init__(" ".join(str(message).split()))


class Unproved(Fault):
    """A program failed, or what it wrote wasn't accepted."""

    code = 1


class OtherGame(Unproved):
    """A proof is about another game than the one that was asked about."""

    def __init__(self) -> None:
        super().__init__("the proof is about another game than the one that was asked about")


class Failed(Unproved):
    """A program ended without an answer: `text` is what it wrote on standard error, `status` its exit status, which is
    below 0 where a signal ended it, and `written` what it had written on standard output, but for a proof.
    """

    def __init__(self, name: str, status: int, text: str = "", written: str = "") -> None:
        how = f"ended with status {status}"
        if status < 0:
            how = f"was ended by signal {-status} ({signal.strsignal(-status)})"
        super().__init__(f"{name} {how}: {text}" if text.strip() else f"{name} {how} and said nothing")
        self.name, self.status, self.text, self.written = name, status, text, written


class OutOfTime(Failed):
    """A program was ended because its seconds of processor time were spent; or they weren't, and it had too little of a
    processor beside other work."""

    is_starved = False

    def __str__(self) -> str:
        why = "it had too little of a processor" if self.is_starved else "its seconds were spent"
        return f"{self.name} was ended, as {why}"


class Refused(Failed):
    """A program that goes on running says what is wrong with a request."""

    def __str__(self) -> str:
        return f"{self.name}: {self.text}"


class Gone(Fault):
    """Nobody waits for the answer any more."""

    def __init__(self) -> None:
        super().__init__("nobody waits for the answer any more")


@contextlib.contextmanager
def files_told(name: object = "a file") -> Iterator[None]:
    """Makes a fault, with the file's name and the cause, of what the system says of a file."""
    try:
        yield
    except OSError as fault:
        cause = fault.strerror or str(fault) or type(fault).__name__
        raise Fault(f"{fault.filename or name}: {cause}") from fault
