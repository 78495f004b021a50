"""From a file as a tool wrote it to the canonical file of its layout (docs/PREPARING.md)."""

from __future__ import annotations

import ctypes
import enum
from dataclasses import dataclass

from ._calls import MORE
from ._files import File, contents_of
from ._library import BYTES, LIMITS, ROOM, accepted, buffers, function, numbers, put
from ._limits import Limits


class Preparation(ctypes.Structure):
    """oascanon_preparation"""

    _fields_ = [
        (name, ctypes.c_uint64)
        for name in ("properties", "property_names", "layer_names", "extensions", "extension_names", "in_block", "within")
    ]


_prepare = function("prepare", *BYTES, ctypes.c_uint32, *LIMITS, *ROOM, ctypes.POINTER(Preparation))


class Drop(enum.Flag):
    """What prepare() may leave out. Several are joined by `|`."""

    NOTHING = 0
    PROPERTIES = 1
    """Properties, and the names and strings for them."""
    LAYER_NAMES = 2
    """Names of layers."""
    EXTENSIONS = 4
    """Extensions among the elements, and the names for them."""


@dataclass(frozen=True)
class LeftOut:
    """How many records of each kind were left out."""

    properties: int
    property_names: int
    layer_names: int
    extensions: int
    extension_names: int


@dataclass(frozen=True)
class Prepared:
    """The bytes of the canonical file, and what was left out of the file that it was made of. Whoever uses its key has to know
    the latter: the key is that of the layout without these."""

    canonical: bytes
    left_out: LeftOut


def prepare(file: File, *, drop: Drop = Drop.NOTHING, limits: Limits = Limits.STANDARD) -> Prepared:
    """The canonical file of a file of the standard as a tool writes it, without the kinds of records that `drop` names, and
    nothing else. Compressed blocks are inflated, trapezoids drawn, and signatures compared. A record that has no place in a
    canonical file and isn't to be left out raises Refused."""
    if not isinstance(drop, Drop):
        raise TypeError(f"drop must be Drop, not {type(drop).__name__}")
    read, told = contents_of(file, limits), Preparation()
    given = (*buffers([read]), drop.value, numbers(limits))
    outcome, canonical = put(lambda room, size: _prepare(*given, room, size, ctypes.byref(told)), len(read.data) + MORE)
    accepted(outcome, [read], told.within if told.in_block else None)
    counts = (told.properties, told.property_names, told.layer_names, told.extensions, told.extension_names)
    return Prepared(canonical, LeftOut(*counts))
