"""Why a file is refused."""

from __future__ import annotations

from typing import Optional

from ._reasons import REASONS


class Refused(Exception):
    """A file isn't accepted.

    number   of the reason: 1 to 34 (docs/REFUSALS.md), and of prepare() also 101 to 113 (docs/PREPARING.md)
    offset   in bytes, from the beginning of the file
    file     the file's name, or None where it has none
    which    1, or for the second of two files 2
    within   where the refused record is in the compressed block at the offset: its own offset in what the block inflates to;
             else None
    """

    def __init__(
        self, number: int, offset: int, file: Optional[str] = None, which: int = 1, within: Optional[int] = None
    ) -> None:
        super().__init__(number, offset, file, which, within)
        self.number = number
        self.offset = offset
        self.file = file
        self.which = which
        self.within = within

    @property
    def name(self) -> str:
        """The name of the reason, such as `CoordinateRange`."""
        return REASONS[self.number].name

    @property
    def meaning(self) -> str:
        """When this reason is given. Numbers in backquotes with two digits are bytes in hex."""
        return REASONS[self.number].meaning

    @property
    def remedy(self) -> str:
        """What to do about it."""
        return REASONS[self.number].remedy

    def __str__(self) -> str:
        """The line of the command, and behind it what the reason means."""
        file = f"file {self.which}" if self.file is None else self.file.replace("\n", "\\n").replace("\r", "\\r")
        place = f"{self.offset}" if self.within is None else f"{self.offset}+{self.within}"
        return f"{file}: refused {self.number} at {place}: {self.name}: {self.meaning}"
