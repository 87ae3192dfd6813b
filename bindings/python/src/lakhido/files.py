"""Files that are old or new and never half: written aside, brought to disk, then renamed. And the writer's lock."""
from __future__ import annotations

import fcntl
import os
from collections.abc import Iterable, Iterator
from contextlib import contextmanager
from pathlib import Path

ASIDE = '.new'
"""The end of the name of a file that is being written. Nobody reads such a file, and a writer may remove it."""


@contextmanager
def named(path: str | os.PathLike[str]) -> Iterator[None]:
    """Gives the name of a file to an OSError that has none, as those of writing have."""
    try:
        yield
    except OSError as error:
        if error.filename is None:
            error.filename = os.fspath(path)
        raise


def write_aside(path: Path, parts: Iterable[bytes | bytearray | memoryview]) -> None:
    """Puts a file with these bytes in the place of `path`.

    Whenever the process is killed the file is the old one or the new one. That it is the new one is on the disk only
    after `sync_folder`.
    """
    aside = path.with_name(path.name + ASIDE)
    try:
        with named(path):
            with open(aside, 'wb') as file:
                file.writelines(parts)
                file.flush()
                os.fsync(file.fileno())
            os.replace(aside, path)
    except OSError:
        remove_quietly(aside)
        raise


def write_loosely(path: Path, parts: Iterable[bytes | bytearray | memoryview]) -> bool:
    """As `write_aside`, for a file that a crash of the machine may lose or tear, and that several processes may write.

    Says whether the file was written: a failure is no error.
    """
    aside = path.with_name(f'{path.name}.{os.getpid()}{ASIDE}')
    try:
        with open(aside, 'wb') as file:
            file.writelines(parts)
        os.replace(aside, path)
    except OSError:
        remove_quietly(aside)
        return False
    return True


def sync_folder(folder: Path) -> None:
    """Brings the names of a folder's files to the disk."""
    number = os.open(folder, os.O_RDONLY | os.O_DIRECTORY)
    try:
        with named(folder):
            os.fsync(number)
    finally:
        os.close(number)


def remove_quietly(path: Path) -> None:
    """Removes a file that nobody needs; that it is gone already or cannot be removed is no error."""
    try:
        os.unlink(path)
    except OSError:
        pass


class Lock:
    """The exclusive lock on a file, which is held until `release`, or until the process ends in whichever way."""

    def __init__(self, path: Path) -> None:
        """Takes the lock. Raises BlockingIOError where another process has it, OSError where the file fails."""
        self._number = os.open(path, os.O_RDWR | os.O_CREAT | os.O_CLOEXEC, 0o666)
        try:
            with named(path):
                fcntl.flock(self._number, fcntl.LOCK_EX | fcntl.LOCK_NB)
        except OSError:
            os.close(self._number)
            raise

    def release(self) -> None:
        """Gives the lock back. The file stays: were it removed, two processes could lock two files of one name."""
        os.close(self._number)
