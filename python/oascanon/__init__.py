"""The canonical form of OASIS (SEMI P39) layouts: keys, canonical files, comparisons, and layouts as Python objects.

Every call takes files: a path (str or os.PathLike), the bytes themselves (bytes, or anything bytes-like), or a binary file
that is open, which is read from where it stands to its end. A str is always a path.

A file that isn't accepted raises Refused. What the operating system refuses raises OSError, as open() does. Every call answers
by profile two, and takes `limits`: Limits.STANDARD, which are the command's, or Limits.LARGE.

Nothing is kept between calls. Any number of threads may call at once, and other threads run while a call does.
"""

from importlib import metadata

from ._calls import canonicalize, check, key, same
from ._files import File
from ._layout import Cell, Circle, Element, Layout, Path, Placement, Point, Polygon, Rectangle, Text
from ._limits import Limits
from ._listing import read
from ._prepare import Drop, LeftOut, Prepared, prepare
from ._refused import Refused
from ._reports import Info, diff, info, keys

__version__ = metadata.version("oascanon")

__all__ = [
    "Cell",
    "Circle",
    "Drop",
    "Element",
    "File",
    "Info",
    "Layout",
    "LeftOut",
    "Limits",
    "Path",
    "Placement",
    "Point",
    "Polygon",
    "Prepared",
    "Rectangle",
    "Refused",
    "Text",
    "canonicalize",
    "check",
    "diff",
    "info",
    "key",
    "keys",
    "prepare",
    "read",
    "same",
]
