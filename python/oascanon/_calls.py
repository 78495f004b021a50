"""Keys, canonical files, and whether two files mean one layout."""

from __future__ import annotations

from ._files import File, contents_of
from ._library import BYTES, DIGEST, DONE, LIMITS, ROOM, asked, function, pointer, written
from ._limits import Limits

# Most canonical files are hardly larger than their source.
MORE = 512

_canonicalize = function("canonicalize", *BYTES, *LIMITS, *ROOM)
_key = function("key", *BYTES, *LIMITS, *DIGEST)
_check = function("check", *BYTES, *LIMITS)
_same = function("same", *BYTES, *BYTES, *LIMITS)


def key(file: File, *, limits: Limits = Limits.STANDARD) -> str:
    """The key of the layout that a file means: the SHA-256 of its canonical file, in 64 lower-case hex digits. Files that mean
    the same layout have the same key."""
    read, digest = contents_of(file, limits), bytearray(32)
    asked(_key, [read], limits, pointer(digest))
    return digest.hex()


def canonicalize(file: File, *, limits: Limits = Limits.STANDARD) -> bytes:
    """The bytes of the canonical file of the layout that a file means (docs/CANONICAL.md)."""
    read = contents_of(file, limits)
    return written(_canonicalize, [read], limits, len(read.data) + MORE)[1]


def check(file: File, *, limits: Limits = Limits.STANDARD) -> bool:
    """Whether a file is canonical: the canonical file of the layout that it means."""
    return asked(_check, [contents_of(file, limits)], limits).status == DONE


def same(first: File, second: File, *, limits: Limits = Limits.STANDARD) -> bool:
    """Whether two files mean the same layout. Both are read, and then the first is judged before the second."""
    return asked(_same, [contents_of(first, limits), contents_of(second, limits)], limits).status == DONE
