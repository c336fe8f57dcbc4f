"""Pseudo-random numbers that are the same on any machine and by any version of Python.

The generator is SplitMix64 (Steele, Lea and Flood, "Fast splittable pseudorandom number generators", OOPSLA 2014): a
state of 64 bits grows by a constant, and each number is the state with its bits mixed. All arithmetic is with whole
numbers, modulo 2 to the power of 64. Python's own `random` doesn't promise the same numbers from one version to the
next.
"""
from __future__ import annotations

MASK = 2 ** 64 - 1
STEP = 0x9E3779B97F4A7C15


def mixed(state: int) -> int:
    """The number that belongs to a state."""
    state = ((state ^ (state >> 30)) * 0xBF58476D1CE4E5B9) & MASK
    state = ((state ^ (state >> 27)) * 0x94D049BB133111EB) & MASK
    return state ^ (state >> 31)


class Chance:
    """Random numbers from a seed, which is 0 or greater. Streams of one seed with different numbers have nothing in
    common."""

    def __init__(self, seed: int, stream: int = 0) -> None:
        self.state = (seed + mixed(stream)) & MASK

    def word(self) -> int:
        """The next number of 64 bits."""
        self.state = (self.state + STEP) & MASK
        return mixed(self.state)

    def below(self, count: int) -> int:
        """One of the numbers from 0 to `count - 1`, each as likely as the others; `count` is 1 or greater."""
        # (a number above the last whole multiple of `count` is drawn again)
        most = MASK + 1 - (MASK + 1) % count
        while True:
            word = self.word()
            if word < most:
                return word % count
