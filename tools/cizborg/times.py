"""Ticks as times, where it is known how long a tick is."""
from __future__ import annotations

from dataclasses import dataclass
from decimal import Decimal
from fractions import Fraction
from typing import Optional, Union

from .pages import Beside
from .tables import UNITS

# from the greatest on; of equal ones the first is taken
SHOWN = ("s", "ms", "us", "ns")


def plain(number: Fraction) -> str:
    """A number as a decimal. The ticks that can be given are decimals, so it is exact."""
    text = format(Decimal(number.numerator) / Decimal(number.denominator), "f")
    return text.rstrip("0").rstrip(".") if "." in text else text


@dataclass(frozen=True)
class Clock:
    """How many seconds a tick is, or None where that isn't known."""

    tick: Optional[Fraction]

    def time(self, ticks: int) -> str:
        """Ticks as a time, or nothing."""
        if self.tick is None:
            return ""
        seconds = ticks * self.tick
        unit = next((unit for unit in SHOWN if seconds >= UNITS[unit]), SHOWN[-1])
        return f"{plain(seconds / UNITS[unit])} {unit}"

    def cell(self, ticks: int) -> Union[int, Beside]:
        """Ticks as a cell of a table, with the time beside them."""
        return ticks if self.tick is None else Beside(ticks, self.time(ticks))

    def said(self, ticks: int) -> str:
        """Ticks in a sentence, with the time behind them."""
        return f"{ticks}" if self.tick is None else f"{ticks} ({self.time(ticks)})"
