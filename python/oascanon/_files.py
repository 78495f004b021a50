"""The bytes of a file, wherever they are."""

from __future__ import annotations

import mmap
import os
from dataclasses import dataclass
from typing import Any, BinaryIO, Optional, Union

from ._limits import Limits

File = Union[str, os.PathLike[str], os.PathLike[bytes], bytes, bytearray, memoryview, mmap.mmap, BinaryIO]
"""A path, bytes, or a binary file that is open. Other bytes-like objects, such as arrays, serve too."""

# How many bytes are asked for at once.
PIECE = 1 << 20


@dataclass(frozen=True)
class Contents:
    """A file's bytes, which nobody else can change, and its name where it has one."""

    data: Union[bytes, bytearray]
    name: Optional[str] = None


def contents_of(file: File, limits: Limits) -> Contents:
    """Reads a file, at most one byte more than the limit of the input. Raises TypeError where it is none."""
    if not isinstance(limits, Limits):
        raise TypeError(f"limits must be Limits, not {type(limits).__name__}")
    if isinstance(file, bytes):
        return Contents(file)
    if isinstance(file, (str, os.PathLike)):
        with open(file, "rb", buffering=0) as opened:
            return Contents(gathered(opened, limits.input), os.fsdecode(file))
    try:
        view = memoryview(file)  # type: ignore[arg-type]
    except TypeError:
        return Contents(gathered(file, limits.input), name_of(file))
    # A copy: the library must never see bytes that another thread changes.
    return Contents(view.tobytes())


def gathered(file: Any, most: int) -> bytearray:
    """Reads from an open file to its end, or one byte more than this many."""
    if not callable(getattr(file, "read", None)):
        raise TypeError(f"a file must be a path, bytes-like or a binary file, not {type(file).__name__}")
    data = bytearray()
    while len(data) <= most:
        piece = file.read(min(PIECE, most + 1 - len(data)))
        if piece is None:
            raise BlockingIOError("the file has no bytes yet, and doesn't wait for them")
        if not isinstance(piece, (bytes, bytearray, memoryview)):
            raise TypeError(f"a file must be opened as binary: its read() gives {type(piece).__name__}, not bytes")
        if not piece:
            break
        data += piece
    return data


def name_of(file: Any) -> Optional[str]:
    """The name of an open file. One that was opened by its descriptor has none."""
    name = getattr(file, "name", None)
    return os.fsdecode(name) if isinstance(name, (str, bytes, os.PathLike)) else None
