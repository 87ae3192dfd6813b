"""Progress on a terminal, for work of more than a second."""
from __future__ import annotations

import sys
import time
from collections.abc import Callable
from types import TracebackType
from typing import TextIO

AFTER = 1.0
"""Seconds of work before the first word."""
EVERY = 0.2
"""Seconds between one word and the next."""


class Progress:
    """One line on standard error, written over and over and gone in the end; nothing where that is no terminal."""

    def __init__(self, what: str, stream: TextIO | None = None,
                 clock: Callable[[], float] = time.monotonic) -> None:
        """Begins to count the seconds of the work."""
        self._what = what
        self._stream = sys.stderr if stream is None else stream
        self._clock = clock
        self._next = clock() + AFTER
        self._width = 0

    def __call__(self, done: int, total: int | None = None) -> None:
        """Says how much is done, and of how much if that is known."""
        if self._clock() < self._next or not self._stream.isatty():
            return
        self._next = self._clock() + EVERY
        self._write(f'{self._what} {done}' if total is None else f'{self._what} {done} of {total}')

    def __enter__(self) -> Progress:
        return self

    def __exit__(self, kind: type[BaseException] | None, error: BaseException | None,
                 trace: TracebackType | None) -> None:
        if self._width:
            self._write('')
            self._stream.write('\r')
            self._stream.flush()

    def _write(self, text: str) -> None:
        self._stream.write('\r' + text.ljust(self._width))
        self._stream.flush()
        self._width = len(text)
