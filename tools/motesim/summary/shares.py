"""Shares and averages in tables and results."""
from __future__ import annotations

DIGITS = 12


def share(part: float, whole: int) -> float | None:
    """A part divided by a whole, with DIGITS digits after the point; None if the whole is 0."""
    return round(part / whole, DIGITS) if whole else None
