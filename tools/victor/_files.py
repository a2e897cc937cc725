"""Files to read from and to write to."""

import contextlib
import os
import pathlib
import shutil
import sys
import tempfile
from collections.abc import Iterator
from typing import BinaryIO, Optional, Union

from ._faults import Fault, files_told

Path = Union[str, "os.PathLike[str]"]
Text = Union[str, bytes, "os.PathLike[str]"]  # a text, or the path of one


@contextlib.contextmanager
def output(path: Path) -> Iterator[BinaryIO]:
    """A file to write bytes to. It has its name, behind any links, only when it is whole and nothing failed. A pipe or
    a device is written to as it stands."""
    with files_told(path):
        if os.path.exists(path) and not os.path.isfile(path):
            with open(path, "wb") as out:
                yield out
            return
        target = os.path.realpath(path)
        part = f"{target}.{os.getpid()}.part"
        try:
            with open(part, "wb") as out:
                yield out
                out.flush()
                os.fsync(out.fileno())
            if os.path.exists(target):
                shutil.copymode(target, part)
            os.replace(part, target)
        finally:
            with contextlib.suppress(FileNotFoundError):
                os.remove(part)


def write_text(path: Path, text: str) -> None:
    """Writes a file whole: it never has its name before it is."""
    with output(path) as out:
        out.write(text.encode())


@contextlib.contextmanager
def place_for(into: Optional[Path]) -> Iterator[pathlib.Path]:
    """The path to write to, which is one for a while where none is given."""
    if into is not None:
        yield pathlib.Path(into)
        return
    with tempfile.NamedTemporaryFile(prefix="victor-") as made:
        yield pathlib.Path(made.name)


@contextlib.contextmanager
def file_of(text: Text) -> Iterator[BinaryIO]:
    """A file of one's own to read a text from, which may be a path's."""
    if isinstance(text, os.PathLike):
        with files_told(text), open(text, "rb") as source:
            yield source
        return
    if not isinstance(text, (str, bytes)):
        raise Fault(f"a text or the path of one is wanted here, and not a {type(text).__name__}")
    with tempfile.TemporaryFile() as made:
        made.write(text if isinstance(text, bytes) else text.encode())
        made.seek(0)
        yield made  # type: ignore[misc]


def read_input(name: Optional[str]) -> str:
    """All text of a file, or of standard input where no name is given."""
    with files_told("standard input"):
        data = pathlib.Path(name).read_bytes() if name and name != "-" else sys.stdin.buffer.read()
    try:
        return data.decode("ascii")
    except UnicodeDecodeError as fault:
        raise Fault(f"{name or 'the input'} has a byte that is no ASCII, at {fault.start}") from fault
