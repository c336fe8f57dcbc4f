"""Scenarios as immutable values, and the steps that make them smaller."""
from __future__ import annotations

from collections.abc import Iterator
from typing import Any, NamedTuple

from motesim.notation.printer import program_text
from motesim.notation.reader import read_program
from motesim.notation.tree import Program
from motesim.plan.text import Mote, scenario_text
from motesim.plan.text import Net as WrittenNet
from motesim.scenario.scenario import Scenario
from motesim.surveys.smaller import instead, programs, renumbered, smaller_numbers, without


class Loss(NamedTuple):
    sender: int
    receiver: int
    every: int


class Net(NamedTuple):
    """A scenario. `numbers` has those that `self` and `from` are in the programs, if they aren't the numbers of the
    motes."""
    end: int
    range: int
    base: int
    per: int
    collide: bool
    programs: tuple[tuple[str, Program], ...]
    queue: tuple[tuple[str, int], ...]
    motes: tuple[Mote, ...]
    losses: tuple[Loss, ...]
    numbers: tuple[int, ...] = ()

    @property
    def text(self) -> str:
        """The scenario, formatted."""
        programs = {name: program_text(renumbered(program, self.numbers)) for name, program in self.programs}
        return scenario_text([], WrittenNet(
            self.end, self.range, self.base, self.per, self.collide, programs, dict(self.queue), self.motes,
            {(it.sender, it.receiver): it.every for it in self.losses}))


def net_of(scenario: Scenario) -> Net:
    """A scenario as a net."""
    return Net(scenario.end, scenario.range, scenario.base, scenario.per, scenario.collide,
               tuple((name, read_program(text)) for name, text in scenario.programs.items()),
               tuple(scenario.queue.items()), tuple(Mote(*it) for it in scenario.places),
               tuple(Loss(*pair, every) for pair, every in scenario.losses.items()))


def without_motes(net: Net, removed: frozenset[int]) -> Net:
    """A net without some motes. The others get new numbers, in the losses too."""
    kept = [mote for mote in range(len(net.motes)) if mote not in removed]
    new = {mote: number for number, mote in enumerate(kept)}
    losses = tuple(Loss(new[it.sender], new[it.receiver], it.every) for it in net.losses
                   if it.sender in new and it.receiver in new)
    numbers = tuple((net.numbers or range(len(net.motes)))[mote] for mote in kept)
    return net._replace(motes=tuple(net.motes[mote] for mote in kept), losses=losses,
                        numbers=() if numbers == tuple(range(len(kept))) else numbers)


class NetStep(NamedTuple):
    """A step: the net to which it leads, and the motes that it removes."""
    net: Net
    removed: frozenset[int] = frozenset()


def parts(count: int) -> Iterator[tuple[int, int]]:
    """Ranges among this many members: first the range of all members, then its halves, its quarters, .. down to single
    members."""
    size = count
    while size:
        for begin in range(0, count, size):
            yield begin, min(begin + size, count)
        size //= 2


def mote_steps(net: Net) -> Iterator[NetStep]:
    for begin, end in parts(len(net.motes)):
        if end - begin < len(net.motes):
            removed = frozenset(range(begin, end))
            yield NetStep(without_motes(net, removed), removed)


def loss_steps(net: Net) -> Iterator[NetStep]:
    for begin, end in parts(len(net.losses)):
        yield NetStep(net._replace(losses=net.losses[:begin] + net.losses[end:]))


def program_steps(net: Net) -> Iterator[NetStep]:
    """Steps to fewer programs, and to smaller ones."""
    used = {mote.program for mote in net.motes}
    for at, (name, program) in enumerate(net.programs):
        if name in used:
            for smaller in programs(program):
                yield NetStep(net._replace(programs=instead(net.programs, at, (name, smaller))))
        else:
            queue = tuple(it for it in net.queue if it[0] != name)
            yield NetStep(net._replace(programs=without(net.programs, at), queue=queue))


def number_steps(net: Net) -> Iterator[NetStep]:
    """Steps that make the end, the medium, lengths of queues, losses and places smaller."""
    if net.numbers:
        yield NetStep(net._replace(numbers=()))
    for name, least in ('end', 0), ('range', 0), ('base', 1), ('per', 1):
        for less in smaller_numbers(getattr(net, name)):
            if less >= least:
                changed: dict[str, Any] = {name: less}
                yield NetStep(net._replace(**changed))
    if net.collide:
        yield NetStep(net._replace(collide=False))
    for at in range(len(net.queue)):
        yield NetStep(net._replace(queue=without(net.queue, at)))
    for at, loss in enumerate(net.losses):
        if loss.every > 1:
            yield NetStep(net._replace(losses=instead(net.losses, at, loss._replace(every=1))))
    for at, mote in enumerate(net.motes):
        for axis, number in ('x', mote.x), ('y', mote.y):
            for less in smaller_numbers(abs(number)):
                moved: dict[str, Any] = {axis: less if number > 0 else -less}
                yield NetStep(net._replace(motes=instead(net.motes, at, mote._replace(**moved))))
