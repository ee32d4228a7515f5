"""How a call reaches the shared object: loading it, numbers held to their width, and lists lent by the buffer protocol, without a copy."""

import ctypes
import functools
import inspect
import operator
import os
from contextlib import ExitStack, contextmanager
from ctypes import c_char_p, c_int, c_size_t, c_ssize_t, c_uint32, c_uint64, c_void_p, py_object
from pathlib import Path
from typing import NamedTuple

from .constants import REPLY_WORDS, VERSION, WORDS

NAME = f"libplate_track.so.{VERSION}"
_types = {}  # of the parameters of each call, by its symbol
_outside = {}  # the calls of the shared object, once it is loaded


class Refused(Exception):
    """A call was refused: `number`, its `word`, and the `place` (an index, a line, or 0). Nothing that was lent has changed."""

    def __init__(self, number, place):
        self.number, self.place = number, place
        self.word = WORDS[number] if number < len(WORDS) else "unknown"
        super().__init__(number, place)

    def __str__(self):
        return f"refused {self.number}, {self.word}, at {self.place}"


def load(path=None):
    """Loads the shared object: at `path`, else where the environment's PLATE_TRACK_LIBRARY says, else beside this package, else where the
    system's loader finds it. The first call does this by itself."""
    global _outside
    beside = Path(__file__).with_name(NAME)
    path = path or os.environ.get("PLATE_TRACK_LIBRARY") or (beside if beside.exists() else NAME)
    try:
        found = ctypes.CDLL(os.fspath(path))
        version = found.plate_track_version()
        if version != VERSION:
            raise ImportError(f"plate_track: {path} has version {version}, and this package is for {VERSION}")
        outside = {symbol: getattr(found, symbol) for symbol in _types}
    except (OSError, AttributeError) as error:
        raise ImportError(
            f"plate_track: no shared object of version {VERSION}: {error}. tools/shared of the repository makes it, and the environment's "
            "PLATE_TRACK_LIBRARY may say where it is"
        ) from error
    for symbol, function in outside.items():
        function.argtypes, function.restype = _types[symbol], c_uint32
    _outside = outside  # whole, for other threads


class Number(NamedTuple):
    """An unsigned number of 32 bits."""

    spelling: str = "u32"

    def __repr__(self):
        return self.spelling


class List(NamedTuple):
    """A list of elements, each of so many numbers of so many bytes, with or without a sign; lent as a pointer and a length in elements."""

    width: int
    writes: bool = False
    group: int = 1
    signed: bool = False

    @property
    def spelling(self):
        """As the exported function has it."""
        element = f"{'i' if self.signed else 'u'}{8 * self.width}"
        element = element if self.group == 1 else f"[{element}; {self.group}]"
        return f"&{'mut ' if self.writes else ''}[{element}]"

    def __repr__(self):
        return self.spelling


class _Buffer(ctypes.Structure):
    """Py_buffer of Python's C interface."""

    _fields_ = [
        ("buf", c_void_p), ("obj", c_void_p), ("len", c_ssize_t), ("itemsize", c_ssize_t), ("readonly", c_int), ("ndim", c_int),
        ("format", c_char_p), ("shape", ctypes.POINTER(c_ssize_t)), ("strides", c_void_p), ("suboffsets", c_void_p), ("internal", c_void_p),
    ]  # fmt: skip


_WRITABLE, _FORMAT, _CONTIGUOUS = 0x1, 0x4, 0x38
_get = ctypes.pythonapi.PyObject_GetBuffer
_get.argtypes, _get.restype = [py_object, ctypes.POINTER(_Buffer), c_int], c_int
_release = ctypes.pythonapi.PyBuffer_Release
_release.argtypes, _release.restype = [ctypes.POINTER(_Buffer)], None


@contextmanager
def _lent(name, kind, thing):
    """Address and length in bytes of the memory of `thing`, which can't move or shrink meanwhile."""
    view = _Buffer()
    try:
        _get(thing, view, _FORMAT | _CONTIGUOUS | (_WRITABLE if kind.writes else 0))
    except (TypeError, BufferError, ValueError) as error:
        raise TypeError(f"{name}: {error}") from error
    try:
        form = (view.format or b"B").decode().lstrip("@=<")
        sign, forms = ("signed", "bhilqn") if kind.signed else ("unsigned", "BHILQN")
        if form not in list(forms) or view.itemsize != kind.width:
            raise TypeError(f"{name}: {sign} elements of {8 * kind.width} bits are needed, and these are {form!r} of {8 * view.itemsize}")
        if view.len % (kind.width * kind.group):
            raise ValueError(f"{name}: {view.len // kind.width} words are no whole number of elements of {kind.group}")
        if kind.group > 1 and view.ndim > 1 and view.shape[view.ndim - 1] != kind.group:
            raise ValueError(f"{name}: rows of {kind.group} words are needed, and these have {view.shape[view.ndim - 1]}")
        at = view.buf if view.len else 0  # an empty list is lent by null
        if at % kind.width:
            raise ValueError(f"{name}: not aligned")
        yield at, view.len
    finally:
        _release(view)


def _apart(lists):
    """A list that a call writes overlaps no other: what a caller in C must see to is seen to here."""
    for name, kind, at, size in lists:
        for other, _, where, length in lists:
            if kind.writes and name != other and at < where + length and where < at + size:
                raise ValueError(f"{name} is written and overlaps {other}")


def number_of(name, value):
    """A whole number of 32 bits, whatever its type; no other is cut down to one."""
    try:
        value = operator.index(value)
    except TypeError as error:
        raise TypeError(f"{name}: {error}") from None
    if not 0 <= value < 1 << 32:
        raise OverflowError(f"{name}: {value} is no unsigned number of 32 bits")
    return value


def call(function=None, *, version=None):
    """The call of the shared object with the name of `function`, and with the version in its symbol where one has changed it. Its annotations say what
    each parameter is, and what becomes of the reply."""
    if function is None:
        return functools.partial(call, version=version)
    signature = inspect.signature(function)
    kinds = [(p.name, p.annotation) for p in signature.parameters.values()]
    types = [t for _, k in kinds for t in ((c_uint32,) if isinstance(k, Number) else (c_void_p, c_size_t))]
    symbol = "plate_track_" + function.__name__ + (f"_v{version}" if version else "")
    _types[symbol] = [*types, ctypes.POINTER(c_uint64), c_size_t]

    @functools.wraps(function)
    def calling(*arguments, **named):
        if not _outside:
            load()
        values = signature.bind(*arguments, **named).arguments.values()
        reply, flat, lists = (c_uint64 * REPLY_WORDS)(), [], []
        with ExitStack() as lent:
            for (name, kind), value in zip(kinds, values):
                if isinstance(kind, Number):
                    flat.append(number_of(name, value))
                else:
                    at, size = lent.enter_context(_lent(name, kind, value))
                    flat += [at, size // (kind.width * kind.group)]
                    lists.append((name, kind, at, size))
            _apart(lists)
            number = _outside[symbol](*flat, reply, REPLY_WORDS)
        if number:
            raise Refused(number, reply[0])
        return signature.return_annotation(reply)

    calling.symbol = symbol
    return calling
