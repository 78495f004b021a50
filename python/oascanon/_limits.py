"""How large a layout may be."""

from __future__ import annotations

from dataclasses import dataclass
from typing import ClassVar


@dataclass(frozen=True)
class Limits:
    """The limits of a call: how many elements a file may have once its repetitions are expanded, at most 2^26; its weight
    (docs/CANONICAL.md), at most 2^30; and its size in bytes, at least 320 + 64 * weight and at most 2^38. Other numbers are a
    ValueError."""

    elements: int
    weight: int
    input: int

    STANDARD: ClassVar[Limits]
    """2^24 elements, a weight of 2^28, 2^36 bytes: those of the command."""
    LARGE: ClassVar[Limits]
    """2^26 elements, a weight of 2^30, 2^38 bytes: those of the command with --large. There are no larger ones."""

    def __post_init__(self) -> None:
        for name, most in (("elements", 2**26), ("weight", 2**30), ("input", 2**38)):
            number = getattr(self, name)
            if not isinstance(number, int):
                raise TypeError(f"{name} must be an int, not {type(number).__name__}")
            if not 0 <= number <= most:
                raise ValueError(f"{name} must be from 0 to {most}, not {number}")
        if self.input < 320 + 64 * self.weight:
            raise ValueError(f"input must be at least 320 + 64 * weight, {320 + 64 * self.weight}, not {self.input}")


Limits.STANDARD = Limits(2**24, 2**28, 2**36)
Limits.LARGE = Limits(2**26, 2**30, 2**38)
