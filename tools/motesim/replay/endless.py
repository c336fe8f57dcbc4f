"""The loop that used up the work of a run of the kernel, so that the mote halted: found by a replay of the mote."""
from __future__ import annotations

from collections.abc import Sequence
from typing import NamedTuple

from motesim.replay.mote import DetailedReplay, Reached
from motesim.replay.program import Program

# Advice for a loop in which nothing waits.
LETS_WAIT = ('if the loop waits for something, write a `yield_until` in it; if it calculates, write a `pause` in it, '
             'after which it continues at once')
# The waits that don't wait if their conditions are right at once, and the results that are right.
AT_ONCE = {'wait_until': 'true', 'wait_while': 'false'}
MOST_WAITS = 3


class Endless(NamedTuple):
    """A loop, by the number of its `while`; its rounds in the last call; and its waits that never waited in these
    rounds."""
    loop: int
    rounds: int
    waits: tuple[int, ...]


class LastRun(DetailedReplay):
    """A replay that keeps only the statements of the last run of the kernel.

    open  for each call that hasn't ended, the outer ones first: its process, and the number of statements before it
    """

    def begin_life(self, at: int, line: int) -> None:
        super().begin_life(at, line)
        self.open: list[tuple[int, int]] = []

    def kernel_run(self) -> int:
        self.reached.clear()
        return super().kernel_run()

    def call(self, process: int, event: str, word: int, sender: int, how: str, row: int, line: int | None = None
             ) -> None:
        self.open.append((process, len(self.reached)))
        super().call(process, event, word, sender, how, row, line)
        self.open.pop()


def endless(program: Program, mote: int, queue: int, trace: list[str], end: int) -> Endless | None:
    """The loop that used up the work of a mote, by its trace up to a moment; None if the mote didn't halt, or if no
    loop did."""
    replay = LastRun(program, mote, queue, trace)
    replay.to_end(end)
    if not replay.is_halted:
        return None
    for process, begin in replay.open:
        own = [it for it in replay.reached[begin:] if (
            program.statement(it.statement).process == process or
            process < 0 and program.statement(it.statement).part == 'ctimer')]
        found = _loop(program, own)
        if found:
            return found
    return None


def _loop(program: Program, own: Sequence[Reached]) -> Endless | None:
    """The outermost loop that repeated until the last of these statements. If the last round of a loop is longer than
    all its other rounds, a loop inside this round used up the work."""
    rounds: dict[int, list[int]] = {}
    for at, it in enumerate(own):
        if it.holds and program.statement(it.statement).kind == 'while':
            rounds.setdefault(it.statement, []).append(at)
        elif it.holds is False:
            rounds.pop(it.statement, None)
    for number, places in sorted(rounds.items(), key=lambda it: it[1][0]):
        if 2 * (len(own) - places[-1]) <= len(own) - places[0]:
            return Endless(number, len(places), _passed(program, own[places[0]:]))
    return None


def _passed(program: Program, own: Sequence[Reached]) -> tuple[int, ...]:
    """The waits among these statements that never waited."""
    results: dict[int, bool] = {}
    for it in own:
        if it.holds is not None and program.statement(it.statement).kind in AT_ONCE:
            results[it.statement] = results.get(it.statement, True) and it.holds
    return tuple(number for number, is_right in results.items() if is_right)


def instead(program: Program, number: int) -> str:
    """The wait that always waits, instead of one that may not wait."""
    its = program.statement(number)
    if its.kind == 'wait_until':
        return '`yield_until%s`' % its.text.removeprefix(its.kind)
    return '`yield_until` with the opposite condition'
