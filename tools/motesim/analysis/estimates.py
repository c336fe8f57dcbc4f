"""Estimates of the runs of a point: the mean with a confidence interval, or the median with the quartiles.

A mean has the interval of Student's t, or Wilson's score interval if each run is a yes or a no (E. B. Wilson, "Probable
inference, the law of succession, and statistical inference", JASA 22, 1927). Quartiles are of type 7 of R. J. Hyndman
and Y. Fan ("Sample quantiles in statistical packages", The American Statistician 50, 1996).
"""
from __future__ import annotations

import math
import statistics
from collections.abc import Sequence
from functools import lru_cache
from typing import NamedTuple

# The halvings after which an angle is exact.
STEPS = 60


class Estimate(NamedTuple):
    """The number of runs, the middle, and the ends of its interval; a mean of one run or of equal runs has none."""
    runs: int
    middle: float
    low: float | None
    high: float | None
    method: str


def median_with_quartiles(values: Sequence[float]) -> Estimate:
    if len(values) == 1:
        return Estimate(1, values[0], values[0], values[0], 'quartiles')
    first, median, third = statistics.quantiles(values, n=4, method='inclusive')
    return Estimate(len(values), median, first, third, 'quartiles')


def mean_by_t(values: Sequence[float], confidence: float) -> Estimate:
    """The mean with the interval of Student's t; without an interval if the runs don't show how others would differ."""
    mean, runs = statistics.fmean(values), len(values)
    if len(set(values)) == 1:
        return Estimate(runs, mean, None, None, 'none')
    room = student_t(confidence, runs - 1) * statistics.stdev(values) / math.sqrt(runs)
    return Estimate(runs, mean, mean - room, mean + room, 't')


def share_by_wilson(values: Sequence[float], confidence: float) -> Estimate:
    """The share of the runs that are 1, among runs that are 0 or 1, with Wilson's score interval."""
    share, runs = statistics.fmean(values), len(values)
    z = statistics.NormalDist().inv_cdf((1 + confidence) / 2)
    middle = (share + z * z / (2 * runs)) / (1 + z * z / runs)
    room = z / (1 + z * z / runs) * math.sqrt(share * (1 - share) / runs + z * z / (4 * runs * runs))
    # (rounding may move an end that is equal to the share to the share's other side)
    return Estimate(runs, share, min(share, max(0.0, middle - room)), max(share, min(1.0, middle + room)), 'Wilson')


@lru_cache(maxsize=None)
def student_t(confidence: float, freedom: int) -> float:
    """The number of standard errors on each side of a mean with this confidence (0.95), by Student's t."""
    low, high = 0.0, math.pi / 2
    for _ in range(STEPS):
        middle = (low + high) / 2
        low, high = (middle, high) if _within(middle, freedom) < confidence else (low, middle)
    return math.sqrt(freedom) * math.tan(high)


def _within(angle: float, freedom: int) -> float:
    """The chance that a value of Student's t is at most the root of `freedom` times the tangent of an angle away from 0
    (M. Abramowitz and I. A. Stegun, "Handbook of Mathematical Functions", 1964, 26.7.3 and 26.7.4)."""
    sine, square, first = math.sin(angle), math.cos(angle) ** 2, freedom % 2
    term = math.cos(angle) if first else 1.0
    total = 0.0
    for number in range(first + 1, freedom, 2):
        total += term
        term *= square * number / (number + 1)
    return 2 / math.pi * (angle + sine * total) if first else sine * total
