"""Checks that a report can be of a scenario: it has the same motes with the same programs, and the log of the medium
that follows from the scenario's places, delays and losses."""
from __future__ import annotations

from collections.abc import Callable
from functools import cache

from motesim.report import Copy, Packet, Report
from motesim.scenario import Scenario, ScenarioFault


def copies_of(scenario: Scenario) -> Callable[[int, int, int], tuple[Copy, ...]]:
    """A function from a mote, a packet's number and its moment to the packet's copies in this scenario."""
    @cache
    def links(sender: int) -> list[tuple[int, int, int]]:
        return [(to, scenario.delay(sender, to), scenario.losses.get((sender, to), 0))
                for to in scenario.hearers(sender)]

    def copies(sender: int, number: int, at: int) -> tuple[Copy, ...]:
        return tuple(Copy(to, None if every and (number + 1) % every == 0 else at + delay)
                     for to, delay, every in links(sender))
    return copies


def check_motes(report: Report, scenario: Scenario) -> None:
    """Checks that the motes are the same, and run the same programs, up to the scenario's end."""
    if len(report.motes) != scenario.motes:
        raise ScenarioFault('the scenario has %d motes, the report %d' % (scenario.motes, len(report.motes)))
    for mote, place in zip(report.motes, scenario.places):
        if mote.program != place.program:
            raise ScenarioFault('mote %d runs %s in the scenario, %s in the report' % (
                mote.number, place.program, mote.program))
        if mote.lines and mote.lines[-1].at > scenario.end:
            raise ScenarioFault('the scenario ends at %d, and mote %d of the report has a line at %d' % (
                scenario.end, mote.number, mote.lines[-1].at))


def difference(packet: Packet, wanted: tuple[Copy, ...]) -> str:
    """The first difference between the copies of a packet and those of the scenario."""
    here, there = {it.to for it in packet.copies}, {it.to for it in wanted}
    for to in sorted(here - there):
        return 'in the scenario mote %d does not hear mote %d' % (to, packet.sender)
    for to in sorted(there - here):
        return 'in the scenario mote %d hears mote %d' % (to, packet.sender)
    one, other = next(pair for pair in zip(packet.copies, wanted) if pair[0] != pair[1])
    return 'the scenario has %s instead of %s' % (other, one)


def check_medium(report: Report, scenario: Scenario) -> None:
    """Checks that each packet goes to the motes that hear its sender, after the right delay, or is lost on the right
    links."""
    copies, left = copies_of(scenario), 0
    for row, packet in enumerate(report.medium, report.medium_row + 1):
        wanted = copies(packet.sender, packet.number, packet.at)
        if packet.copies != wanted:
            raise ScenarioFault('line %d of the report is not of this scenario: %s' % (
                row, difference(packet, wanted)))
        left += sum(it.at is not None and it.at > scenario.end for it in wanted)
    if left != report.left:
        raise ScenarioFault('the report is not of this scenario, whose end is %d: %d copies would be left, and it has '
                            '%d' % (scenario.end, left, report.left))


def check_scenario(report: Report, scenario: Scenario) -> None:
    """Checks that a report can be of this scenario. Raises a `ScenarioFault` if it can't."""
    check_motes(report, scenario)
    check_medium(report, scenario)
