"""The source for questions about a run: the report, and the scenario."""
from __future__ import annotations

from bisect import bisect_right
from collections.abc import Iterator
from itertools import compress, count
from pathlib import Path
from typing import NamedTuple

from motesim.faults import Fault
from motesim.judge.expectations import fields_beside
from motesim.replay.endless import Endless, endless
from motesim.replay.mote import ARRIVALS, QUEUE, DetailedReplay, Replay
from motesim.replay.program import Program, made_of
from motesim.report import Line, Packet, Report
from motesim.report.run import Run, read_run
from motesim.scenario import Scenario
from motesim.scenario.fault_text import OFF, NetFault, read_faults
from motesim.scenario.in_programs import ScenarioFile


class At(NamedTuple):
    """A line of a trace: the mote, and the place in its trace from 0. The place -1 is the head, `mote N PROGRAM`."""
    mote: int
    place: int


class Traces:
    """The lines of a report's traces, by their places."""

    def __init__(self, report: Report):
        self.report = report
        self.programs = [it.program for it in report.motes]
        self.kept: dict[int, list[Line]] = {}
        self.sends: dict[int, list[int]] = {}
        self.came: dict[int, dict[tuple[int, int] | None, int]] = {}
        self.collided: dict[int, dict[int, list[int]]] = {}

    @property
    def motes(self) -> int:
        return len(self.programs)

    def checked(self, mote: int) -> int:
        """A mote that a question names. Raises a `Fault` if the report has no such mote."""
        if mote >= self.motes:
            raise Fault('there is no mote %d: the motes are 0 to %d' % (mote, self.motes - 1))
        return mote

    def lines(self, mote: int) -> list[Line]:
        """The lines of a mote's trace."""
        if mote not in self.kept:
            self.kept[mote] = list(self.report.motes[mote].lines)
        return self.kept[mote]

    def texts(self, mote: int) -> list[str]:
        """The texts of a mote's lines."""
        return list(map(str, self.lines(mote)))

    def line(self, where: At) -> Line:
        """A line that isn't a head."""
        return self.lines(where.mote)[where.place]

    def row(self, where: At) -> int:
        """The line of the report, counted from 1."""
        return self.report.motes[where.mote].row + 1 + where.place

    def text(self, where: At) -> str:
        return str(self.report.motes[where.mote] if where.place < 0 else self.line(where))

    def moment(self, where: At) -> int:
        return 0 if where.place < 0 else self.line(where).at

    def medium_line(self, row: int) -> Packet | None:
        """A line of the log of the medium, by its line of the report."""
        place = row - self.report.medium_row - 1
        return self.report.log[place] if 0 <= place < len(self.report.log) else None

    def at_row(self, row: int) -> At | None:
        """The place of a line of the report; None for a line of the medium, or if there is no such line."""
        if not 0 < row < self.report.medium_row:
            return None
        mote = bisect_right(self.report.motes, row, key=lambda it: it.row) - 1
        return At(mote, row - self.report.motes[mote].row - 1)

    def send_of(self, sender: int, number: int) -> At | None:
        """The line by which a mote sent a packet."""
        if sender >= self.motes:
            return None
        if sender not in self.sends:
            self.sends[sender] = [place for place, line in enumerate(self.lines(sender)) if line.kind == 'send']
        sends = self.sends[sender]
        return At(sender, sends[number]) if number < len(sends) else None

    def sent(self, line: Line) -> At | None:
        """The line by which the packet of a line was sent."""
        return self.send_of(*line.packet) if line.packet else None

    def arrivals(self, mote: int) -> dict[tuple[int, int] | None, int]:
        """The places of the lines about packets that arrived, by the packets' senders and numbers."""
        if mote not in self.came:
            self.came[mote] = {line.packet: place for place, line in enumerate(self.lines(mote))
                               if line.kind in ARRIVALS}
        return self.came[mote]

    def collisions(self, mote: int, at: int) -> list[int]:
        """The places of the packets that collide at a mote at a moment. (A million packets are looked up one after
        another.)"""
        if mote not in self.collided:
            found = self.collided[mote] = {}
            for place, line in enumerate(self.lines(mote)):
                if line.kind == 'collide':
                    found.setdefault(line.at, []).append(place)
        return self.collided[mote].get(at, [])

    def packets_to(self, mote: int, sender: int | None) -> Iterator[int]:
        """The places in the log of the packets with a copy for a mote; if a sender is named, only of its own."""
        log = self.report.log
        for copy in compress(count(), map(mote.__eq__, log.to)):
            packet = bisect_right(log.first, copy) - 1
            if sender in (None, log.sender[packet]):
                yield packet


class Source:
    """A run: its traces, its scenario, and the replay of each mote that was asked about."""

    def __init__(self, name: str, report: Report, scenario: Scenario, file: ScenarioFile | None = None):
        self.name, self.scenario, self.file = name, scenario, file
        self.traces = Traces(report)
        self.replays: dict[int, Replay] = {}
        self.programs: dict[str, Program] = {}
        self.loops: dict[int, Endless | None] = {}

    def program(self, mote: int) -> Program:
        """The program of a mote, with the place of its text in the scenario's file."""
        name = self.traces.programs[mote]
        if name not in self.programs:
            self.programs[name] = program = made_of(self.scenario.programs[name])
            program.place = self.file.place(name, program.text) if self.file else None
            program.other = name if self.file and program.place is None else ''
        return self.programs[name]

    def of_replay(self, mote: int) -> tuple[Program, int, int, list[str]]:
        """What a replay of a mote begins with."""
        return self.program(mote), mote, self.room(mote), self.traces.texts(mote)

    def replay(self, mote: int) -> Replay:
        """The replay of a mote."""
        if mote not in self.replays:
            self.replays[mote] = Replay(*self.of_replay(mote))
            self.replays[mote].to_end(self.end(mote))
        return self.replays[mote]

    def detailed_replay(self, mote: int) -> DetailedReplay:
        """The replay of a mote, with each statement that it reached."""
        made = DetailedReplay(*self.of_replay(mote))
        made.to_end(self.end(mote))
        return made

    def end(self, mote: int) -> int:
        """The last moment at which a mote may have a turn."""
        end = self.scenario.end
        while off := self.off(mote, end):
            end = off.numbers['BEGIN'] - 1
        return end

    def offs(self, mote: int) -> list[NetFault]:
        """The faults by which a mote is off, or boots again."""
        return [it for it in read_faults(self.scenario.faults) if it.kind in OFF and it.numbers['FROM'] == mote]

    def off(self, mote: int, at: int) -> NetFault | None:
        """A fault by which a mote is off at a moment."""
        return next((it for it in self.offs(mote)
                     if it.numbers.get('BEGIN', at + 1) <= at < it.numbers.get('END', at + 1)), None)

    def room(self, mote: int) -> int:
        """The length of a mote's event queue."""
        return self.scenario.queue.get(self.traces.programs[mote], QUEUE)

    def loop(self, mote: int) -> Endless | None:
        """The loop that used up the work of a mote that halted; None if the mote didn't halt, or if no loop did."""
        if mote not in self.loops:
            self.loops[mote] = endless(*self.of_replay(mote), self.end(mote))
        return self.loops[mote]


def read_with_fields(path: str | Path, scenario: str | Path | None = None, faults: tuple[str, ...] = ()) -> Run:
    """The run in a file, which has a scenario, with these faults, or a report, for which `scenario` names the scenario;
    with the format of packets that the expectations next to the scenario declare."""
    run = read_run(path, scenario, faults=faults)
    if run.scenario:
        run.scenario.fields = fields_beside(path if scenario is None else scenario)
    return run


def source_of(run: Run) -> Source:
    """The source for questions about a run."""
    if run.scenario is None:
        raise Fault("%s: a report doesn't have the programs, which its causes follow from: name its scenario, by "
                    "--scenario FILE" % run.name)
    return Source(run.name, run.report, run.scenario, run.file)
