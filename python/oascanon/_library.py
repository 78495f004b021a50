"""The shared library, as include/oascanon.h declares it. It is loaded once, and other threads run while it works."""

from __future__ import annotations

import ctypes
import pathlib
from typing import Any, Callable, List, Optional, Sequence, Tuple, Union

from ._files import Contents
from ._limits import Limits
from ._reasons import REASONS
from ._refused import Refused

DONE, NO, TOO_SMALL, NOT_LIMITS = 0, 64, 65, 66


class Outcome(ctypes.Structure):
    """oascanon_outcome"""

    status: int
    file: int
    at: int
    length: int
    _fields_ = [("status", ctypes.c_uint32), ("file", ctypes.c_uint32), ("at", ctypes.c_uint64), ("length", ctypes.c_uint64)]


class LimitNumbers(ctypes.Structure):
    """oascanon_limits"""

    _fields_ = [("elements", ctypes.c_uint64), ("weight", ctypes.c_uint64), ("input", ctypes.c_uint64)]


# The types of parameters: bytes or a room, each a pointer and a number of bytes; limits; and a pointer to 32 bytes.
BYTES = (ctypes.c_void_p, ctypes.c_size_t)
ROOM = BYTES
LIMITS = (ctypes.POINTER(LimitNumbers),)
DIGEST = (ctypes.c_void_p,)


def loaded() -> ctypes.CDLL:
    path = pathlib.Path(__file__).with_name("liboascanon.so")
    try:
        return ctypes.CDLL(str(path))
    except OSError as error:
        raise ImportError(f"the library of oascanon can't be loaded: {error}", name="oascanon", path=str(path)) from error


LIBRARY = loaded()


def function(name: str, *parameters: Any) -> Callable[..., Outcome]:
    """The call of this name, with parameters of these types. It returns an outcome."""
    found = getattr(LIBRARY, f"oascanon_{name}")
    found.argtypes, found.restype = parameters, Outcome
    call: Callable[..., Outcome] = found
    return call


def pointer(data: Union[bytes, bytearray]) -> Any:
    """A pointer to these bytes, for a call. They stay where they are as long as it is there."""
    return data if isinstance(data, bytes) else (ctypes.c_char * len(data)).from_buffer(data)


def numbers(limits: Limits) -> Any:
    """A pointer to the three numbers."""
    return ctypes.byref(LimitNumbers(limits.elements, limits.weight, limits.input))


def buffers(files: Sequence[Contents]) -> List[Any]:
    """A pointer and a number of bytes for each file."""
    return [argument for file in files for argument in (pointer(file.data), len(file.data))]


def accepted(outcome: Outcome, files: Sequence[Contents], within: Optional[int] = None) -> Outcome:
    """The outcome of a call on files that it doesn't refuse. Raises Refused where it refuses one."""
    if outcome.status in REASONS:
        raise Refused(outcome.status, outcome.at, files[outcome.file - 1].name, outcome.file, within)
    if outcome.status == NOT_LIMITS:
        raise ValueError("these numbers are no limits")
    if outcome.status not in (DONE, NO, TOO_SMALL):
        raise RuntimeError(f"the library returned the status {outcome.status}")
    return outcome


def asked(call: Callable[..., Outcome], files: Sequence[Contents], limits: Limits, *rest: Any) -> Outcome:
    """The outcome of a call on these files."""
    return accepted(call(*buffers(files), numbers(limits), *rest), files)


def put(call: Callable[[Any, int], Outcome], size: int) -> Tuple[Outcome, bytes]:
    """The outcome of a call that puts bytes into a room of this size, and these bytes. Where the room is too small it is called
    again, with as much room as it needs."""
    room = bytearray(size)
    outcome = call(pointer(room), size)
    if outcome.status == TOO_SMALL:
        room = bytearray(outcome.length)
        outcome = call(pointer(room), len(room))
    return outcome, bytes(memoryview(room)[: outcome.length])


def written(call: Callable[..., Outcome], files: Sequence[Contents], limits: Limits, size: int) -> Tuple[Outcome, bytes]:
    """The outcome of a call that puts bytes, on these files, and what it put: at first into a room of this size."""
    given = buffers(files)
    outcome, data = put(lambda room, room_size: call(*given, numbers(limits), room, room_size), size)
    return accepted(outcome, files), data
