"""A second judge of claims, which looks at all lines for each question. It also stands in for motecheck: as a program,
it decides claims about the report that the stand-in for motesim writes."""
from __future__ import annotations

import os
import re
import subprocess
import sys
from collections import Counter
from collections.abc import Iterator
from functools import lru_cache
from pathlib import Path
from typing import Any, NamedTuple
from unittest import mock

sys.path.insert(0, str(Path(__file__).resolve().parents[1]))
from motesim.judge.claims import EVENTS, FIRST_DECLARED  # noqa: E402
from motesim.judge.names import processes_of  # noqa: E402
from motesim.notation.reader import read_program  # noqa: E402
from motesim.report import FIELDS  # noqa: E402
from motesim.scenario import Scenario  # noqa: E402

LAST = 1 << 62
PARTS = {'number': 'packet', 'word': 'value'}
PART = re.compile(r'(process|serial|event|sender|packet|value) (.+?)(?= (?:serial|event|sender|packet|value) |$)')
NUMBERS = r'((?:none|\d+(?: to \d+)?)(?:(?:, | or )(?:none|\d+(?: to \d+)?))*)'
VALUE = r'(?:none|\d+|any of \d+(?: to \d+)?(?: or \d+(?: to \d+)?)*)'
VALUES = '(%s(?:, %s)*)' % (VALUE, VALUE)
LIMITS = r'at least (\d+)(?: and at most (\d+))?|at most (\d+)|exactly (\d+)'


class Line(NamedTuple):
    """A line of a trace; its parts as claims name them."""
    at: int
    mote: int
    place: int
    kind: str
    parts: dict[str, str]

    @property
    def value(self) -> int | None:
        return int(self.parts['value']) if 'value' in self.parts else None

    def is_after(self, other: Line) -> bool:
        """Two lines of the same moment are ordered only if they belong to the same mote."""
        if self.at == other.at:
            return self.mote == other.mote and self.place > other.place
        return self.at > other.at


Lines = list[Line]


class Within(NamedTuple):
    """The order `within N moments after (or before) some line`."""
    moments: int
    is_after: bool

    def admits(self, line: Line, event: Line) -> bool:
        first, last = (event, line) if self.is_after else (line, event)
        return first.at <= last.at <= first.at + self.moments and (
            (first.at, first.mote) != (last.at, last.mote) or last.is_after(first))


def numbers_in(text: str) -> list[int]:
    """The numbers of a list such as `1, 3 to 5`, or of a set such as `1 or 3 to 5`."""
    runs = [it.split(' to ') for it in re.split(', | or ', text) if it != 'none']
    return [number for run in runs for number in range(int(run[0]), int(run[-1]) + 1)]


class ClaimJudge:
    """The report of a scenario."""

    def __init__(self, scenario: Scenario, report: str) -> None:
        self.rows, traces = report.splitlines(), list[list[list[str]]]()
        self.medium = self.rows.index('medium')
        for row in self.rows[:self.medium]:
            words = row.split(' ')
            if words[0] == 'mote':
                traces.append([])
            else:
                traces[-1].append(words)
        texts = [scenario.programs[it.program] for it in scenario.places]
        self.processes = [processes_of(it) for it in texts]
        self.events = [EVENTS | {it.text: FIRST_DECLARED + at for at, it in enumerate(read_program(text).events)}
                       for text in texts]
        self.traces = [[Line(int(words[0]), mote, place, words[1], self.parts(mote, words[1:]))
                        for place, words in enumerate(trace)] for mote, trace in enumerate(traces)]

    def parts(self, mote: int, words: list[str]) -> dict[str, str]:
        found = {PARTS.get(field, field): word for field, word in zip(FIELDS[words[0]].split(), words[1:])}
        if 'event' in found:
            found['event'] = str(self.events[mote].get(found['event'], found['event']))
        return found

    def broken(self, claim: str) -> str:
        """What breaks a claim, in the words of motecheck; empty if it holds."""
        return Reader(self, claim).claim()

    def holds(self, claim: str) -> bool:
        return not self.broken(claim)

    def packets(self) -> Iterator[tuple[int, int, list[tuple[int, int | None]]]]:
        """The moment and the sender of each packet, and the receivers of its copies with the moments of arrival."""
        for row in self.rows[self.medium + 1:-1]:
            at, sender, _, _, *copies = row.split(' ')
            its = [it.split('@') for it in copies]
            yield int(at), int(sender), [(int(to), None if when == 'lost' else int(when)) for to, when in its]


class Tried(NamedTuple):
    """A test, or a case, by its text: whether it holds; the line too many, if it doesn't; the line by which it does;
    and the missing and the superfluous values."""
    text: str
    holds: bool
    spare: Line | None = None
    shown: Line | None = None
    missing: tuple[int, ...] = ()
    superfluous: tuple[int, ...] = ()


class Reader:
    """Reads a claim from its first word to its last, and decides it."""

    def __init__(self, judge: ClaimJudge, text: str) -> None:
        self.judge, self.text, self.at, self.own = judge, text, 0, list[int]()
        # The lines that a test counts, if it counts lines, and its limits; and the values that it names.
        self.lines, self.least, self.most = Lines(), 0, LAST
        self.missing, self.superfluous = list[int](), list[int]()

    def take(self, form: str) -> re.Match[str] | None:
        found = re.compile(form).match(self.text, self.at)
        self.at = found.end() if found else self.at
        return found

    def need(self, form: str) -> re.Match[str]:
        found = self.take(form)
        assert found, '%s: %s' % (form, self.text[self.at:])
        return found

    def limits(self) -> tuple[int, int]:
        low, high, most, exact = (None if it is None else int(it) for it in self.need(LIMITS).groups())
        if exact is not None:
            return exact, exact
        return low or 0, next((it for it in (high, most) if it is not None), LAST)

    def claim(self) -> str:
        is_each = self.take('each of ')
        quantity = None if is_each or not re.match(LIMITS, self.text) else self.limits()
        self.take(' of ')
        self.take('these: ')
        cases = [] if self.take('no cases') else self.group()
        while self.take('; '):
            cases += self.group()
        assert self.at == len(self.text), self.text[self.at:]
        least, most = quantity or (len(cases),) * 2
        holding = [subject + case.text + place_of(case.shown) for subject, case, _ in cases if case.holds]
        missing = [subject + test.text + place_of(test.spare, ', is one too many') + listed('missing', test.missing)
                   + listed('superfluous', test.superfluous) for subject, _, test in cases if test]
        if len(holding) < least:
            return 'not for ' + missing[0] if missing else 'it wants more cases than it has'
        return 'also for ' + holding[most] if len(holding) > most else ''

    def group(self) -> list[tuple[str, Tried, Tried | None]]:
        """The cases of some motes, or the one of the net: whose each is, the case, and the first test that doesn't
        hold."""
        motes = self.need('the net: |motes? %s: ' % NUMBERS)[1]
        begin, found = self.at, list[tuple[str, Tried, Tried | None]]()
        for mote in numbers_in(motes) if motes else [-1]:
            self.at, self.own = begin, [mote]
            tests = [] if self.take('always') else [self.tried()]
            while self.take(' and '):
                tests.append(self.tried())
            missing = next((it for it in tests if not it.holds), None)
            case = Tried(self.text[begin:self.at], not missing, None, tests[0].shown if tests else None)
            found.append(('mote %d: ' % mote if motes else 'the net: ', case, missing))
        return found

    def tried(self) -> Tried:
        """A test. Lines are counted mote by mote."""
        begin, self.lines, self.most, self.least = self.at, Lines(), LAST, 0
        self.missing, self.superfluous = [], []
        holds = self.test()
        spare, shown = self.lines[self.most:][:1], self.lines[self.least - 1:][:1] if self.least else []
        return Tried(self.text[begin:self.at], holds, spare[0] if spare else None, shown[0] if shown else None,
                     tuple(self.missing), tuple(self.superfluous))

    def test(self) -> bool:
        if self.take('every line '):
            lines = self.deed()
            self.need(' is')
            fit = self.in_order(lines)
            self.lines, self.most = [it for it in lines if it not in fit], 0
            return not self.lines
        if self.take('the last line '):
            last = in_time(self.deed())[-1:]
            if self.take(' has the value of the last line '):
                return self.same_values(last, in_time(self.deed())[-1:]) and bool(last)
            wanted = numbers_in(self.need(' has the value ' + NUMBERS)[1])
            return bool(last) and last[0].value in wanted
        if self.take('the lines '):
            return self.values(self.deed())
        if self.take('each value of the lines '):
            return self.each_value(self.deed())
        if ratio := self.take(r'(\d+) times the number of '):
            low = int(ratio[1]) * self.number()
            is_less, times = self.need(r' is (at most|less than) (\d+) times the number of ').groups()
            high = int(times) * self.number()
            self.lines = []
            return low < high if is_less == 'less than' else low <= high
        self.least, self.most = self.limits()
        self.need(' ')
        return self.least <= self.number() <= self.most

    def values(self, lines: Lines) -> bool:
        order = self.need(' have in (any order|order of time) exactly ')[1]
        if self.take('the values of the lines '):
            others = self.deed()
            is_same = self.same_values(lines, others)
            return is_same if order == 'any order' else [it.value for it in in_time(lines)] == [
                it.value for it in in_time(others)]
        found = [it.value for it in in_time(lines)]
        if self.take('no values'):
            sets = []
        else:
            sets = [numbers_in(it.removeprefix('any of ')) for it in self.need('the values ' + VALUES)[1].split(', ')]
        if order == 'any order':
            wanted = [it for its in sets for it in its]
            self.differ(values_in(lines), wanted)
            return Counter(found) == Counter(wanted)
        return len(found) == len(sets) and all(value in its for value, its in zip(found, sets))

    def same_values(self, lines: Lines, others: Lines) -> bool:
        """Whether two lists of lines have the same values, each as often."""
        self.differ(values_in(lines), values_in(others))
        return Counter(it.value for it in lines) == Counter(it.value for it in others)

    def differ(self, found: list[int], wanted: list[int]) -> None:
        self.missing, self.superfluous = beyond(wanted, found), beyond(found, wanted)

    def each_value(self, lines: Lines) -> bool:
        self.need(' is the value of ')
        least, most = self.limits()
        self.need(' lines? ')
        others = Counter(it.value for it in self.deed())
        its = list(dict.fromkeys(reversed(values_in(lines))))[::-1]
        self.missing = [it for it in its if others[it] < least]
        self.superfluous = [it for it in its if others[it] > most]
        return all(least <= others[it.value] <= most for it in lines)

    def number(self) -> int:
        if self.take('lines? in the report'):
            return len(self.judge.rows)
        if self.take('cop(y|ies) left at the end'):
            return int(self.judge.rows[-1].split(' ')[1])
        if self.take('packets? sent'):
            when = self.when()
            return sum(at in when for at, _, _ in self.judge.packets())
        if copies := self.take('cop(?:y|ies)(?: to motes? %s)?' % NUMBERS):
            return self.copies(copies[1])
        self.need('lines? ')
        lines = self.deed()
        self.lines = self.in_order(lines) if self.take('(?= after| before| within)') else lines
        return len(self.lines)

    def copies(self, motes: str | None) -> int:
        to = range(len(self.judge.traces)) if motes is None else numbers_in(motes)
        if due := self.take(r' lost by the medium or due by (\d+)'):
            return sum(it in to and (at is None or at <= int(due[1])) for *_, its in self.judge.packets()
                       for it, at in its)
        self.need(' sent')
        when = self.when()
        self.need(' and lost by the medium')
        return sum(it in to and at is None for sent, _, its in self.judge.packets() if sent in when for it, at in its)

    def when(self) -> range:
        found = self.take(r' at (\d+)| from (\d+) to (\d+)| from (\d+) on')
        at, begin, end, later = found.groups() if found else (None, None, None, 0)
        return range(int(at or begin or later or 0), int(at or end or LAST) + 1)

    def deed(self) -> Lines:
        """The lines of a deed, mote by mote."""
        patterns = [] if self.take('of no kind') else [self.need('"([^"]*)"')[1]]
        while self.take(' or (?=")'):
            patterns.append(self.need('"([^"]*)"')[1])
        if self.take(' of no mote'):
            return []
        if not self.take('(?= of motes? )'):
            return self.fitting(patterns, self.own, self.when())
        found = Lines()
        while motes := self.take('(?: and)? of motes? %s(?: together)?' % NUMBERS):
            found += self.fitting(patterns, numbers_in(motes[1]), self.when())
        return found

    def fitting(self, patterns: list[str], motes: list[int], when: range) -> Lines:
        return [line for mote in motes for line in self.judge.traces[mote]
                if line.at in when and any(self.fits(it, line) for it in patterns)]

    def fits(self, pattern: str, line: Line) -> bool:
        kind, _, parts = pattern.partition(' ')
        return kind == line.kind and all(self.has(line, *it) for it in PART.findall(parts))

    def has(self, line: Line, part: str, wanted: str) -> bool:
        found = line.parts.get(part)
        if part == 'process':
            names = self.judge.processes[line.mote]
            return found == (names[int(wanted)] if wanted.isdecimal() else wanted)
        return found is not None and found.isdecimal() and int(found) in numbers_in(wanted)

    def in_order(self, lines: Lines) -> Lines:
        """Those of the lines that have the order which is next."""
        if self.take(' before every line '):
            events = self.deed()
            return [line for line in lines if all(event.is_after(line) for event in events)]
        if self.take(' after some line '):
            events = self.deed()
            return [line for line in lines if any(line.is_after(event) for event in events)]
        moments, where = self.need(r' within (\d+) moments? (after|before) some line ').groups()
        order, events = Within(int(moments), where == 'after'), self.deed()
        return [line for line in lines if any(order.admits(line, event) for event in events)]


def in_time(lines: Lines) -> Lines:
    return sorted(lines, key=lambda it: (it.at, it.mote, it.place))


def values_in(lines: Lines) -> list[int]:
    return [it.value for it in lines if it.value is not None]


def beyond(numbers: list[int], others: list[int]) -> list[int]:
    """The first of the numbers that are more of a kind than the others have."""
    left, found = Counter(numbers) - Counter(others), list[int]()
    for it in numbers:
        if left[it] > 0:
            left[it] -= 1
            found.append(it)
    return found


def listed(label: str, values: tuple[int, ...]) -> str:
    return '; %s: %s' % (label, ', '.join(map(str, values))) if values else ''


def place_of(line: Line | None, more: str = '') -> str:
    """The place of a line in the words of motecheck."""
    return '; line %d of mote %d, at %d%s' % (line.place + 1, line.mote, line.at, more) if line else ''


@lru_cache(maxsize=1)
def judge_of(scenario: bytes, report: str) -> ClaimJudge:
    return ClaimJudge(Scenario.parse(scenario), report)


def answers_to(claims: list[str], scenario: bytes, report: str) -> list[str]:
    """The answers to claims about a report, whatever the run of the scenario is."""
    judge = judge_of(scenario, report)
    return ['broken: %s -- %s' % (it, why) if (why := judge.broken(it)) else 'holds: ' + it for it in claims]


def deciding_by(report: str) -> Any:
    """Lets this process have verdicts about a report."""
    return mock.patch('motesim.judge.verdicts.answers',
                      lambda scenario, claims, **_: answers_to(claims, scenario, report))


def main() -> int:
    """Stands in for motecheck."""
    scenario, claims = (Path(it).read_bytes() for it in sys.argv[1:])
    ran = subprocess.run([os.environ['MOTESIM']], input=scenario, capture_output=True)
    if ran.returncode:
        sys.stderr.buffer.write(ran.stderr.replace(b'motesim', b'motecheck'))
        return 1
    answers = answers_to(claims.decode().splitlines(), scenario, ran.stdout.decode())
    print('\n'.join(answers))
    return 0 if all(it.startswith('holds') for it in answers) else 1


if __name__ == '__main__':
    sys.exit(main())
