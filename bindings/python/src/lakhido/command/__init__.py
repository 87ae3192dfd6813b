"""The command `lakhido`: stores of folded molecules, filled, searched and listed.

Exit status: 0 found or done, 1 none, 2 wrong use or refused, 3 failed input or output.
"""
from __future__ import annotations

import contextlib
import io
import os
import sys
from collections.abc import Sequence

from ..formats import FormatError
from ..hits import Disagreement
from ..refusals import Refusal
from ..store import NameNotHeld, StoreError, UnsoundBlock
from .actions import WrongUse
from .words import parse

FOUND, NONE, REFUSED, FAILED, INTERRUPTED = 0, 1, 2, 3, 130
"""The exit statuses; the last is that of a program ended from the keyboard."""


def main(words: Sequence[str] | None = None) -> int:
    """Runs the command with these words, else those of the command line, and answers its exit status."""
    try:
        args = parse(words)
        if isinstance(sys.stdout, io.TextIOWrapper):
            sys.stdout.reconfigure(encoding='utf-8', errors='surrogateescape')
        found = args.action(args)
        sys.stdout.flush()
        return FOUND if found else NONE
    except (WrongUse, Refusal, UnsoundBlock, FormatError) as error:
        return _said(REFUSED, str(error))
    except NameNotHeld as error:
        return _said(NONE, f'{error}: no molecule of this name')
    except OSError as error:
        return _said(FAILED, _words_of(error))
    except (StoreError, Disagreement) as error:
        return _said(FAILED, str(error))
    except KeyboardInterrupt:
        return _said(INTERRUPTED, 'interrupted')
    except Exception as error:  # a fault of the program; Python would end with 1, which means that none was found
        return _said(FAILED, ': '.join(filter(None, [type(error).__name__, str(error)])))


def _said(status: int, text: str) -> int:
    """Says on one line what is wrong. Output that cannot be written is dropped, so that Python does not try again."""
    with contextlib.suppress(OSError):
        print('lakhido: ' + ' '.join(text.split()), file=sys.stderr)
    try:
        sys.stdout.flush()
    except OSError:
        os.dup2(os.open(os.devnull, os.O_WRONLY), sys.stdout.fileno())
    return status


def _words_of(error: OSError) -> str:
    """Which file failed, and how. The errors of files that have a name name them; without one it is the output."""
    if error.strerror is None:
        return str(error)
    return f'{"standard output" if error.filename is None else error.filename}: {error.strerror}'
