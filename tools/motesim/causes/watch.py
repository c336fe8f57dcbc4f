"""The values of variables over time, from the replay of a mote: docs/use/DEBUGGING.md."""
from __future__ import annotations

import re
from operator import attrgetter
from typing import NamedTuple

from motesim.text import nearest
from motesim.faults import Fault
from motesim.causes.source import At, Source, Traces
from motesim.replay.program import Program

ASKED = re.compile(r'\s*(?:every\s+mote|motes?\s+(?P<motes>\d+(?:\s*(?:,|and|to)\s*\d+)*))\s+(?P<names>[a-z].*)')


class Watched(NamedTuple):
    """A watched variable of a process of a program."""
    program: str
    process: int
    name: str


class Given(NamedTuple):
    """A variable got a value: after the line `row` of the report, at a moment; `row` is 0 if no line of the mote is
    before it, as for the first value."""
    mote: int
    at: int
    row: int
    process: str
    variable: str
    value: int


def motes_of(words: str | None, traces: Traces) -> list[int]:
    """The motes that are watched."""
    if words is None:
        return list(range(traces.motes))
    found: list[int] = []
    for part in re.split(r',|and', words):
        ends = [int(it) for it in part.split('to')]
        found += range(ends[0], ends[-1] + 1)
    traces.checked(max(found))
    return sorted(set(found))


def variables_of(program: Program, name: str, words: str) -> list[Watched]:
    """The variables of a program with a name such as newest or flood.newest; an empty list if the program has none of
    this name."""
    found = []
    process, _, variable = words.rpartition('.')
    for it in program.processes:
        if variable in it.variables and process in ('', it.name):
            found.append(Watched(name, it.number, variable))
    return found


def read_watch(source: Source, text: str) -> tuple[list[int], list[Watched]]:
    """The motes and the variables to watch, from a text such as `mote 3 newest, distance`."""
    asked = ASKED.fullmatch(text)
    if not asked:
        raise Fault("'%s' is not known; write it as: mote 3 newest, distance" % text)
    motes = motes_of(asked['motes'], source.traces)
    found: list[Watched] = []
    programs = {source.traces.programs[mote]: source.program(mote) for mote in motes}
    for words in re.split(r'[\s,]+', asked['names'].strip()):
        its = [it for name, program in programs.items() for it in variables_of(program, name, words)]
        if not its:
            known = sorted({one for program in programs.values() for it in program.processes for one in it.variables})
            like = nearest(words.rpartition('.')[2], known)
            raise Fault("there is no variable '%s'%s" % (words, "; did you mean '%s'?" % like if like else
                                                             '; the variables are ' + ', '.join(known)))
        found += its
    return motes, found


def first_values(source: Source, motes: list[int], watched: list[Watched]) -> list[Given]:
    """The values with which variables are declared."""
    found = []
    for mote in motes:
        for it in watched:
            if it.program == source.traces.programs[mote]:
                process = source.program(mote).processes[it.process]
                found.append(Given(mote, 0, 0, process.name, it.name, process.variables[it.name]))
    return found


def replayed(source: Source, motes: list[int], watched: list[Watched]) -> list[Given]:
    """The values of variables on some motes, in chronological order."""
    found = first_values(source, motes, watched)
    for mote in motes:
        program = source.traces.programs[mote]
        for it in source.replay(mote).changes:
            if Watched(program, it.process, it.variable) in watched:
                row = source.traces.row(At(mote, it.lines - 1)) if it.lines else 0
                found.append(Given(mote, it.at, row, source.program(mote).processes[it.process].name, it.variable,
                                   it.value))
    return sorted(found, key=attrgetter('at', 'mote', 'row'))
