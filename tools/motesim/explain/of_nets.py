"""Warnings about a net: programs that no mote runs, packets that reach nobody, and what a run shows."""
from __future__ import annotations

from collections.abc import Iterator, Mapping

from motesim.report.moments import bursts
from motesim.explain.of_structure import asked_in, posted_in
from motesim.explain.warned import Fact, Warned, of_token
from motesim.faults import Fault
from motesim.notation.printer import written
from motesim.notation.tree import Program
from motesim.replay.endless import endless
from motesim.replay.mote import QUEUE
from motesim.replay.program import made_of
from motesim.report import Mote, Report
from motesim.scenario import Scenario

# A mote with more lines than this isn't replayed: the replay would last several seconds.
MOST_LINES = 100_000


def sends(program: Program) -> bool:
    return any(it.kind == 'send' for it in program.statements())


def hears(program: Program) -> bool:
    """Returns whether a program waits for packets."""
    return any(asked_in(code, 'packet') for code in program.codes)


def of_net(scenario: Scenario, programs: Mapping[str, Program]) -> Iterator[Warned]:
    """Yields the warnings about motes and links."""
    used = [programs[it.program] for it in scenario.places]
    for name, program in programs.items():
        if all(place.program != name for place in scenario.places):
            yield of_token('unused-program', name, program.processes[0])
        elif hears(program) and program.receiver and not sends(program):
            yield from of_broadcast(name, program, not any(sends(it) or 'packet' in posted_in(it) for it in used))
    lonely = {number for number, program in enumerate(used) if scenario.motes > 1 and (
        not scenario.hearers(number) and (sends(program) or hears(program)))}
    for number in sorted(lonely):
        yield Warned('out-of-range', mote=number)
    for number, (sender, to) in enumerate(scenario.losses):
        if not scenario.hears(to, sender) and not {sender, to} & lonely:
            yield Warned('loss-without-link', (('sender', sender), ('to', to)), loss=number)
    for number in sorted({to for _, to in scenario.losses}):
        if scenario.loses_all_to(number) and hears(used[number]):
            yield Warned('loses-everything', mote=number)


def of_broadcast(name: str, program: Program, nobody_sends: bool) -> Iterator[Warned]:
    """The first `broadcast` of a program that waits for packets, if no mote sends any, or if no other process waits for
    the event."""
    for code in program.codes:
        for it in code.statements():
            if it.kind == 'broadcast' and it.value:
                others = [one for one in program.codes if one != code]
                is_awaited = any(asked_in(one, it.name) or any(
                    wait.kind == 'yield' for wait in one.statements()) for one in others)
                if nobody_sends or not is_awaited:
                    yield of_token('broadcast-stays', name, it.token, value=written(it.value))
                return


def of_moments(report: Report) -> Iterator[Warned]:
    """Yields the warnings about packets that one mote sent at the same moment, so that they collided."""
    for it in bursts(report):
        yield Warned('same-moment', (('packets', it.packets), ('at', it.at)), mote=it.sender)


def of_halts(scenario: Scenario, report: Report) -> Iterator[Warned]:
    """Yields the warnings about motes that halted: for the first one of each program, with the loop that did it."""
    known: dict[str, tuple[tuple[str, Fact], ...]] = {}
    for mote in report.motes:
        at = mote.halted()
        if at is None:
            continue
        facts = known.get(mote.program)
        if facts is None:
            facts = known[mote.program] = (('at', at), *loop_of(scenario, mote))
        yield Warned('used-up', facts, mote.program, mote=mote.number)


def loop_of(scenario: Scenario, mote: Mote) -> tuple[tuple[str, Fact], ...]:
    """The line and the rounds of the loop that halted a mote, as facts of a warning; nothing if no loop did, or if the
    replay would last too long."""
    if len(mote.lines) > MOST_LINES:
        return ()
    program, queue = made_of(scenario.programs[mote.program]), scenario.queue.get(mote.program, QUEUE)
    try:
        found = endless(program, mote.number, queue, list(map(str, mote.lines)), scenario.end)
    except Fault:
        return ()
    return (('line', program.statement(found.loop).line), ('rounds', found.rounds)) if found else ()
