"""The shared library: its limits, its nine functions, and how buffers are lent to them.

Whatever of the package works with addresses is here. A call is sound for these reasons, which are the rules under
"Buffers" in include/lakhido.h:

- a pointer and its length are those of one Python object, which is neither freed nor resized while the call runs: an
  object of bytes cannot change, and of any other an export is held;
- a buffer that the call may write overlaps no other one of the same call, else `Library.call` raises ValueError;
- 16-bit numbers are an array('H'), whose memory is aligned;
- the functions take every content and length, keep no pointer and have no state.

The library is for x86-64. A call needs up to STACK bytes of stack: a thread with less (threading.stack_size) must make
none.
"""
from __future__ import annotations

import ctypes
import enum
import operator
import os
from array import array
from collections.abc import Mapping
from mmap import mmap
from pathlib import Path
from typing import Any, NamedTuple, TypeAlias

MOST = 4096
"""The most bases of a strand for check, length, show, window and verify."""
MOLECULE_MOST = 160
"""The most bases of a molecule in the catalog."""
MOTIF_MOST = 120
"""The most bases of a motif in a query or a batch."""
BLOCK = 512
"""The bytes of a block. A block of zeros is empty."""
BLOCKS_MOST = 512
"""The most blocks of a catalog; it has at least one."""
SLOTS_MOST = 64
"""The most blocks, or slots, of a cache; it has at least one."""
MOTIFS_MOST = 16
"""The most motifs of a batch; it has at least one."""
STACK = 1048576
"""Bytes of stack that are enough for any call (measured, not proved)."""

VARIABLE = 'LAKHIDO_LIBRARY'
"""The variable of the environment that names the shared library."""
SONAME = 'liblakhido.so.0'
"""The name by which the system's loader knows the library."""

Readable: TypeAlias = bytes | bytearray | memoryview | mmap
"""Bytes that a call reads."""
Writable: TypeAlias = bytearray | memoryview | mmap
"""Bytes that a call may write."""

_SIZE_MOST = 2 ** (8 * ctypes.sizeof(ctypes.c_size_t)) - 1


def work_size(m: int, n: int) -> int:
    """The entries of `work` for length, show and window: a motif of m bases, a molecule of n."""
    return 64 * (m + 1) + 8 * n


def query_work_size(m: int) -> int:
    """The entries of `work` for query, a motif of m bases, and for batch, a longest motif of m bases."""
    return work_size(m, MOLECULE_MOST)


def _fields(*names: str) -> list[tuple[str, Any]]:
    return [(name, ctypes.c_size_t) for name in names]


class Answer(ctypes.Structure):
    """lakhido_answer: what a call answers, but for window and batch; `refusal` 0 means accepted."""

    _fields_ = _fields('refusal', 'side', 'place', 'value', 'searched', 'arcs', 'depth')


class WindowAnswer(ctypes.Structure):
    """lakhido_window_answer: what window answers; `found` 0 means that there is no window."""

    _fields_ = _fields('refusal', 'side', 'place', 'found', 'start', 'length', 'arcs', 'depth')


class BatchAnswer(ctypes.Structure):
    """lakhido_batch_answer: what batch answers."""

    _fields_ = _fields('refusal', 'side', 'place', 'read') + [
        ('counts', ctypes.c_size_t * MOTIFS_MOST),
        ('searched', ctypes.c_size_t * MOTIFS_MOST),
    ]


class Kind(enum.Enum):
    """What a parameter is, as the header writes it. A buffer is a pointer and a length there, and has no `const` where
    the call may write it.
    """

    READ_BYTES = 'const uint8_t *'
    READ_NUMBERS = 'const uint16_t *'
    WRITTEN_BYTES = 'uint8_t *'
    WRITTEN_NUMBERS = 'uint16_t *'
    SIZE = 'size_t'


_MOLECULE = {'bases': Kind.READ_BYTES, 'mates': Kind.READ_NUMBERS}
_MOTIF = {'motif_bases': Kind.READ_BYTES, 'motif_mates': Kind.READ_NUMBERS}
_WORK = {'work': Kind.WRITTEN_NUMBERS}
_HITS = {'hits': Kind.WRITTEN_NUMBERS}
_CHANGED = {'catalog': Kind.WRITTEN_BYTES, 'cache': Kind.WRITTEN_BYTES, 'number': Kind.SIZE}
_QUERIED = {'catalog': Kind.READ_BYTES, 'cache': Kind.WRITTEN_BYTES}

FUNCTIONS: Mapping[str, tuple[type[ctypes.Structure], Mapping[str, Kind]]] = {
    'check': (Answer, _MOLECULE),
    'length': (Answer, _MOTIF | _MOLECULE | _WORK),
    'show': (Answer, _MOTIF | _MOLECULE | {'places': Kind.WRITTEN_NUMBERS} | _WORK),
    'window': (WindowAnswer, _MOTIF | _MOLECULE | _WORK),
    'verify': (Answer, _MOTIF | _MOLECULE | {'places': Kind.READ_NUMBERS}),
    'add': (Answer, _CHANGED | _MOLECULE),
    'remove': (Answer, _CHANGED),
    'query': (Answer, _QUERIED | _MOTIF | _WORK | _HITS),
    'batch': (BatchAnswer, _QUERIED | {'motifs': Kind.READ_BYTES} | _WORK | _HITS),
}
"""Each function without its prefix: what it answers, and its parameters in the order of the header."""


class _Lent(NamedTuple):
    """A buffer as a call gets it."""

    pointer: int | bytes | None  # an object of bytes stands for its own address
    length: int  # in elements
    span: range  # the addresses; none where no writable buffer can overlap it
    export: object  # holds the memory in place for as long as it lives


_NOTHING = _Lent(None, 0, range(0), None)


def _exported(buffer: Any, length: int, size: int) -> _Lent:
    """A writable buffer of at least one byte, lent in place. One that is not contiguous raises TypeError."""
    export = ctypes.c_char.from_buffer(buffer)
    address = ctypes.addressof(export)
    return _Lent(address, length, range(address, address + size), export)


def _numbers(name: str, value: array[int]) -> _Lent:
    """16-bit numbers, lent in place."""
    if not isinstance(value, array) or value.typecode != 'H':
        raise TypeError(f"{name} is an array('H'), and this is {value!r:.60}")
    return _exported(value, len(value), len(value) * value.itemsize) if value else _NOTHING


def _read(value: Readable) -> _Lent:
    """Bytes that the call reads, lent in place. Only a read-only buffer that is no object of bytes is copied, for
    ctypes has no address of it.
    """
    view = memoryview(value)
    if view.readonly:
        held = value if isinstance(value, bytes) else bytes(view)
        return _Lent(held or None, len(held), range(0), held)
    return _exported(value, view.nbytes, view.nbytes) if view.nbytes else _NOTHING


def _written(name: str, value: Writable) -> _Lent:
    """Bytes that the call may write, lent in place."""
    view = memoryview(value)
    if view.readonly:
        raise TypeError(f'{name} may be written, and this {type(value).__name__} is read-only')
    return _exported(value, view.nbytes, view.nbytes) if view.nbytes else _NOTHING


def _lent(name: str, kind: Kind, value: Any) -> _Lent:
    if kind in (Kind.READ_NUMBERS, Kind.WRITTEN_NUMBERS):
        return _numbers(name, value)
    return _read(value) if kind is Kind.READ_BYTES else _written(name, value)


def _size(name: str, value: int) -> int:
    """A number as size_t, which ctypes would cut to its lowest bits without a word."""
    number = operator.index(value)
    if not 0 <= number <= _SIZE_MOST:
        raise ValueError(f'{name} is 0 to {_SIZE_MOST}, and this is {number}')
    return number


def _hold_apart(parameters: Mapping[str, Kind], buffers: Mapping[str, _Lent]) -> None:
    """Raises ValueError where a buffer that the call may write overlaps another."""
    for name, one in buffers.items():
        if not one.span or parameters[name] in (Kind.READ_BYTES, Kind.READ_NUMBERS):
            continue
        for other_name, other in buffers.items():
            if other is not one and one.span.start < other.span.stop and other.span.start < one.span.stop:
                raise ValueError(f'{name} may be written, and it overlaps {other_name}')


def _declared(loaded: ctypes.CDLL, path: str, name: str) -> Any:
    """The function of this name, with the types of the header."""
    function = getattr(loaded, 'lakhido_' + name, None)
    if function is None:
        raise OSError(f'{path}: no library of this version of the package, for it lacks lakhido_{name}')
    answer, parameters = FUNCTIONS[name]
    function.restype = answer
    function.argtypes = [
        part for kind in parameters.values()
        for part in ([] if kind is Kind.SIZE else [ctypes.c_void_p]) + [ctypes.c_size_t]
    ]
    return function


class Library:
    """A loaded shared library. It has no state: calls on buffers that no other thread writes may run at one time."""

    __slots__ = ('path', '_functions')

    def __init__(self, path: str) -> None:
        """Loads the library of this path, or of this name by the system's loader.

        Raises OSError where that fails or the library lacks one of the functions.
        """
        self.path = path
        loaded = ctypes.CDLL(path)
        self._functions = {name: _declared(loaded, path, name) for name in FUNCTIONS}

    def __repr__(self) -> str:
        return f'Library({self.path!r})'

    def call(self, name: str, **values: Any) -> Any:
        """Makes one call, with a value for each parameter of FUNCTIONS, and gives its struct, refused or not.

        Raises TypeError for a value that is no such buffer or number, ValueError for a number that size_t has no room
        for and for a buffer that may be written and overlaps another. Then no call was made.
        """
        parameters = FUNCTIONS[name][1]
        if values.keys() != parameters.keys():
            raise TypeError(f'{name} has the parameters {", ".join(parameters)}, not {", ".join(values)}')
        arguments: list[Any] = []
        buffers: dict[str, _Lent] = {}
        for parameter, kind in parameters.items():
            if kind is Kind.SIZE:
                arguments.append(_size(parameter, values[parameter]))
            else:
                lent = buffers[parameter] = _lent(parameter, kind, values[parameter])
                arguments += lent.pointer, lent.length
        _hold_apart(parameters, buffers)
        return self._functions[name](*arguments)


def load(path: str | os.PathLike[str] | None = None) -> Library:
    """The library of this path; else of the variable LAKHIDO_LIBRARY; else `liblakhido.so` beside the modules; else
    the one that the system's loader finds.

    Raises OSError where the first of these that is there cannot be loaded.
    """
    if path is not None:
        return Library(os.path.abspath(path))
    named = os.environ.get(VARIABLE)
    if named:
        return Library(os.path.abspath(named))
    beside = Path(__file__).with_name('liblakhido.so')
    if beside.exists():
        return Library(str(beside))
    try:
        return Library(SONAME)
    except OSError as error:
        raise OSError(f'{VARIABLE} is not set, {beside} is not there, and of the system: {error}') from error
