"""Measures of a run: a number, a text or nothing. docs/use/EXPERIMENTS.md has all forms.

    measure = read_measure('delay = moment: every mote prints flood 1', names)
    measure.of(Bench(run))
"""
from __future__ import annotations

import math
import re
from bisect import bisect_right
from collections import Counter, defaultdict
from collections.abc import Callable, Mapping, Sequence
from contextlib import suppress
from dataclasses import dataclass
from functools import cached_property

from motesim.experiments.doubts import OWN_LINE, OWN_MESSAGE, SAME_VALUE
from motesim.cells import Cell
from motesim.text import nearest
from motesim.summary import counts
from motesim.faults import Fault
from motesim.summary.flows import same_value
from motesim.summary.shares import share
from motesim.judge.breaks import Break
from motesim.judge.finder import Finder
from motesim.judge.links import Apart
from motesim.notation.grammar import PARAMETER
from motesim.own_code import function_of, named, needed_by
from motesim.plan.tables import Value
from motesim.report import OUTCOMES, Line
from motesim.report.run import Run
from motesim.scenario import Scenario
from motesim.scenario.scenario import hops_over
from motesim.judge.meaning import Copies, Does, Motes, Packets, Refused, Sentence
from motesim.judge.names import Names
from motesim.judge.sentences import read_sentence
from motesim.judge.verdicts import is_broken

SUMMARY = ('sent', 'copies', *OUTCOMES, 'ratio', *counts.COUNTED.values(), 'halt')
REACHABLE, LOSS = 'reachable', 'loss'
# Measures of one sentence, and those of two, `A -> B`.
OF_TWO = ('delay', 'delivery')
# Measures of single lines, in which a number of lines, such as `twice`, has no meaning.
OF_LINES = ('last', 'count', 'delivery')
KINDS = ('holds', 'moment', 'last', 'count', 'motes', *OF_TWO)
NAMED = re.compile(r'\s*([A-Za-z][A-Za-z0-9_ -]{0,39}?)\s*=(?!=)\s*(.*)', re.S)
OF_SUMMARY = re.compile(r'([a-z]+)(?:\s+of\s+mote\s+([0-9]{1,4}))?')
OF_SENTENCE = re.compile(r'(%s)\s*:(.*)' % '|'.join(KINDS), re.S)
OF_PYTHON = re.compile(r'python\s*:(.*)', re.S)

NO_PARAMETERS = (
    '%r: a measure has no parameters, so `%s` isn\'t replaced by a value: write the value itself, or write a measure '
    'with `python:`, whose function may have the values of the parameters as its second argument')
NO_DELAY = (
    '%s: both expectations are the same, so they are fulfilled at the same moment, and the delay is always 0: name the '
    'line that begins the message first, and then the line that ends it')


class MeasureFault(Fault):
    """A text that isn't a measure, or a measure that can't be taken."""


class Bench:
    """A run on which measures are taken, and the values of the plan's parameters in this run. `decide` has `motecheck`
    decide the sentences `asked`, all at once."""

    def __init__(self, run: Run, parameters: Mapping[str, Value] = {}, asked: Sequence[Sentence] = (),
                 decide: Callable[[Sequence[Sentence]], list[Break | None]] = lambda its: []) -> None:
        self.run, self.parameters, self.asked, self.decide = run, parameters, asked, decide

    @cached_property
    def finder(self) -> Finder:
        if self.run.scenario is None:
            raise MeasureFault('the scenario of the report is not known')
        return Finder(self.run.report, self.run.scenario)

    @cached_property
    def verdicts(self) -> dict[Sentence, Break | None]:
        return dict(zip(self.asked, self.decide(self.asked)))

    def holds(self, it: Sentence) -> bool:
        return not is_broken(self.verdicts[it], it, self.finder)

    @cached_property
    def net(self) -> counts.Row:
        """The row of the net in the table of tools/summary."""
        return counts.of_net(self.run.report)

    @cached_property
    def motes(self) -> list[counts.Row]:
        """The rows of the motes in this table."""
        return counts.of_motes(self.run.report)


def _no_warning(bench: Bench) -> str:
    return ''


@dataclass(frozen=True)
class Measure:
    """A measure: the name of its column, its text, and whether it is about packets or messages that arrive.

    warning  the code of a reason to doubt the measure of a run, or an empty text
    """
    name: str
    words: str
    of: Callable[[Bench], Cell]
    warning: Callable[[Bench], str] = _no_warning
    is_of_arrivals: bool = False


def _of_summary(name: str, mote: str | None) -> Callable[[Bench], Cell]:
    def of(bench: Bench) -> Cell:
        if mote is not None and int(mote) >= len(bench.run.report.motes):
            raise MeasureFault('there is no mote %s' % mote)
        found: Cell = (bench.net if mote is None else bench.motes[int(mote)])[name]
        return found

    return of


def reachable(scenario: Scenario | None) -> float | None:
    """The share of the motes that packets of mote 0 can reach, forwarded by others, if none is lost; mote 0 counts as
    reached."""
    if scenario is None:
        return None
    return len(hops_over(scenario.hearers, 0)) / scenario.motes


def loss(bench: Bench) -> float | None:
    """The share of the copies that the medium lost by the scenario's losses; copies on the way at the end don't
    count."""
    return share(bench.net['lost'], bench.net['copies'] - bench.net['left'])


def _groups(finder: Finder, motes: Motes) -> list[tuple[int, ...]]:
    """The motes of a sentence in groups that each have to do what it says: motes together are one group, otherwise each
    mote is a group."""
    chosen = finder.chosen(motes)
    return [chosen] if motes.kind == 'together' else [(mote,) for mote in chosen]


def _moment(finder: Finder, it: Does, since: int = 0) -> int | None:
    """The first moment at which a sentence is fulfilled by lines from a moment on, or None if it never is."""
    wanted, groups = max(1, it.count.least), _groups(finder, it.motes)
    moments = ([event.at for event in finder.lines_of(it, group) if event.at >= since] for group in groups)
    found = [its[wanted - 1] for its in moments if len(its) >= wanted]
    if it.motes.kind == 'some':
        return min(found, default=None)
    return max(found) if found and len(found) == len(groups) else None


def _delay(finder: Finder, begin: Does, end: Does) -> int | None:
    """The time from the moment at which one sentence is fulfilled to the moment at which another one is. Earlier lines
    of the other sentence don't count."""
    since = _moment(finder, begin)
    until = None if since is None else _moment(finder, end, since)
    return None if since is None or until is None else until - since


def _last(finder: Finder, it: Does) -> int | None:
    return max((event.at for mote in finder.chosen(it.motes) for event in finder.lines_of(it, (mote,))),
               default=None)


def _count(finder: Finder, it: Does) -> int:
    return sum(len(finder.lines_of(it, (mote,))) for mote in finder.chosen(it.motes))


def _motes(finder: Finder, it: Does) -> int:
    wanted = max(1, it.count.least)
    return sum(len(finder.lines_of(it, (mote,))) >= wanted for mote in finder.chosen(it.motes))


def _lines(finder: Finder, it: Does, motes: tuple[int, ...]) -> list[Line]:
    """The lines of these motes that a sentence is about, each in the window of its mote, in the order of their
    moments."""
    found = [event.line for mote in motes for event in finder.lines_of(it, (mote,))]
    return sorted(found, key=lambda line: line.at)


def _receivers(finder: Finder, motes: Motes) -> list[tuple[int, ...]]:
    """The groups of motes that each message of a `delivery` has to reach, as in `_groups`. It reaches `some mote` if it
    reaches any of them, so these are one group."""
    return [finder.chosen(motes)] if motes.kind == 'some' else _groups(finder, motes)


def _reached(sent: Mapping[int | None, Sequence[int]], lines: Sequence[Line]) -> int:
    """The number of messages, given by their values and moments, that are followed by one of these lines with the same
    value. Each line counts for one message."""
    found = Counter[int | None]()
    for line in lines:
        found[line.value] += found[line.value] < bisect_right(sent.get(line.value, ()), line.at)
    return found.total()


def _delivery(finder: Finder, begin: Does, end: Does) -> float | None:
    """The share of the pairs of a message (a line of one sentence) and a receiver (a mote of the other sentence) in
    which the receiver has a line with the value of the message."""
    sent: defaultdict[int | None, list[int]] = defaultdict(list)
    messages = _lines(finder, begin, finder.chosen(begin.motes))
    for line in messages:
        sent[line.value].append(line.at)
    receivers = _receivers(finder, end.motes)
    return share(sum(_reached(sent, _lines(finder, end, group)) for group in receivers), len(messages) * len(receivers))


def _count_rows(finder: Finder, it: Copies | Packets) -> int:
    """The number of copies or packets of a sentence."""
    if isinstance(it, Copies) and it.outcome == 'left':
        return finder.report.left
    return len(finder.rows_of(it))


def _no_moment(kind: str, sentence: Sentence, words: str) -> MeasureFault:
    """The refusal of a sentence that isn't about single lines, with the sentences that the measure can have."""
    is_last = isinstance(sentence, Does) and sentence.deed.way == 'finally' and not sentence.relation
    other = ' Write `%s`, which is about each such line, also if it isn\'t the last line.' % re.sub(
        r'\bfinally\s+', '', words, count=1) if is_last else ''
    return MeasureFault('%r has no moment: a measure `%s:` has an expectation on lines, such as `mote 3 prints flood '
                        '1` and `every mote sends`, without `finally`, `just`, an order or a comparison.%s A measure '
                        '`holds: %s` is 1 if the expectation holds, otherwise 0' % (words, kind, other, words))


def _plain(kind: str, sentence: Sentence, words: str) -> Does:
    """Reads a sentence that has a moment: it says that motes have lines of a form."""
    if not isinstance(sentence, Does) or sentence.deed.way != 'any' or sentence.than or sentence.relation:
        raise _no_moment(kind, sentence, words)
    if sentence.motes.kind == 'count':
        raise MeasureFault('%r is about a number of motes, and has no moment: write `every mote`, `some mote` or the '
                           'numbers of motes; a measure `motes: every mote ..` counts motes' % words)
    if sentence.motes.kind == 'no' or sentence.count.compare in ('at most', 'fewer than'):
        raise MeasureFault('%r has no moment: it says what must not happen' % words)
    return sentence


def _check_use(kind: str, it: Does) -> None:
    """Refuses parts of a sentence that a measure doesn't use, because their meaning would be unclear."""
    if kind in OF_LINES and it.is_counted:
        raise MeasureFault('`%s:` is about single lines, and %r is about a number of lines: leave out the number' % (
            kind, str(it.count)))
    if kind == 'motes' and it.motes.kind == 'together':
        raise MeasureFault('`motes:` counts the motes one by one: leave out `together`')


def _guarded(work: Callable[[Finder], Cell]) -> Callable[[Bench], Cell]:
    """The measure, made to return None if its sentence needs the hops to a mote that can't be reached."""
    def of(bench: Bench) -> Cell:
        try:
            return work(bench.finder)
        except Apart:
            return None

    return of


def _of_sentence(kind: str, words: str, names: Names) -> Callable[[Bench], Cell]:
    parts = [part.strip() for part in words.split('->')]
    if len(parts) != (2 if kind in OF_TWO else 1):
        raise MeasureFault('%s need two expectations, `A -> B`%s' % (
            ' and '.join(OF_TWO), '; other measures need one' if '->' in words else ''))
    sentences = [read_sentence(part, names) for part in parts]
    first = sentences[0]
    if isinstance(first, Refused):
        raise MeasureFault('nothing can be measured in a run that has no report')
    if kind == 'holds':
        return lambda bench: int(bench.holds(first))
    if kind == 'count' and isinstance(first, Copies | Packets):
        rows = first
        return _guarded(lambda finder: _count_rows(finder, rows))
    its = [_plain(kind, sentence, part) for sentence, part in zip(sentences, parts)]
    for it in its:
        _check_use(kind, it)
    if kind == 'delay' and its[0] == its[1]:
        raise MeasureFault(NO_DELAY % ('`delay: %s`' % words.strip()))
    if kind in OF_TWO:
        of_two: dict[str, Callable[[Finder, Does, Does], Cell]] = {'delay': _delay, 'delivery': _delivery}
        return _guarded(lambda finder: of_two[kind](finder, *its))
    work: dict[str, Callable[[Finder, Does], Cell]] = {
        'moment': _moment, 'last': _last, 'count': _count, 'motes': _motes}
    return _guarded(lambda finder: work[kind](finder, its[0]))


def _warning_of_delivery(words: str, names: Names) -> Callable[[Bench], str]:
    """The warning of a `delivery`: messages have the same value, a mote has to receive its own messages, or a line is
    the delivery of its own message."""
    begin, end = (_plain('delivery', read_sentence(it.strip(), names), it.strip()) for it in words.split('->'))

    def found(finder: Finder) -> str:
        messages, receivers = _lines(finder, begin, finder.chosen(begin.motes)), _receivers(finder, end.motes)
        if same_value(messages):
            return SAME_VALUE
        if len(receivers) > 1 and any((it.mote,) in receivers for it in messages):
            return OWN_MESSAGE
        ends = {line for group in receivers for line in _lines(finder, end, group)}
        return OWN_LINE if ends.intersection(messages) else ''

    of = _guarded(found)
    return lambda bench: str(of(bench) or '')


def _checked(value: object, name: str) -> Cell:
    """Checks the result of a user's function, and returns it."""
    if type(value) is float and not math.isfinite(value):
        raise MeasureFault('%s returns %r, which a cell can\'t have: return None if there is no value' % (name, value))
    if value is None or type(value) in (int, float):
        return value  # type: ignore[return-value]
    if type(value) is bool:
        return int(value)
    if type(value) is str:
        return ' '.join(value.split())
    item = getattr(value, 'item', None)
    if callable(item):
        # (a number of numpy)
        return _checked(item(), name)
    raise MeasureFault('%s must return a number, a text or None, but returns %s' % (name, type(value).__name__))


def _of_python(file: str, function: str, sources: Mapping[str, str]) -> Callable[[Bench], Cell]:
    work = function_of(file, function, sources)
    has_parameters = needed_by(work) > 1
    # (each call has a copy, so that no function changes the values for another one)
    return lambda bench: _checked(work(bench.run, *[dict(bench.parameters)] * has_parameters), function)


def name_of(words: str) -> str:
    """The name of a measure's column."""
    name, text = _parts(words)
    python = python_of(text)
    return name or (python[1] if python else ' '.join(text.split()))


def python_of(text: str) -> tuple[str, str] | None:
    """The user's file and its function that a measure without a name calls."""
    found = OF_PYTHON.fullmatch(text)
    return named(found[1]) if found else None


def _parts(words: str) -> tuple[str, str]:
    """The name that the author gave to a measure, or an empty text; and the measure itself."""
    found = NAMED.fullmatch(words)
    return (found[1], found[2].strip()) if found else ('', words.strip())


def file_of(words: str) -> str:
    """The user's file that a measure needs, or an empty text."""
    found = python_of(_parts(words)[1])
    return found[0] if found else ''


def sentence_of(words: str, names: Names) -> Sentence | None:
    """The sentence of a measure such as `holds: no mote halts`, if it can be read."""
    found = OF_SENTENCE.fullmatch(_parts(words)[1])
    with suppress(Fault):
        return read_sentence(found[2].strip(), names) if found and found[1] == 'holds' else None
    return None


def mote_of(words: str) -> int | None:
    """The mote of a measure such as `sent of mote 3`."""
    found = OF_SUMMARY.fullmatch(_parts(words)[1])
    return int(found[2]) if found and found[2] else None


def read_measure(words: str, names: Names = Names(), sources: Mapping[str, str] = {}) -> Measure:
    """A measure from its text, with the sources of users' files."""
    name, text = name_of(words), _parts(words)[1]
    python, sentence = python_of(text), OF_SENTENCE.fullmatch(text)
    parameter = PARAMETER.search(words)
    if parameter and not python:
        raise MeasureFault(NO_PARAMETERS % (words, parameter[0]))
    if python:
        return Measure(name, text, _of_python(*python, sources))
    if sentence and sentence[1] == 'delivery':
        return Measure(name, text, _of_sentence(sentence[1], sentence[2], names),
                       _warning_of_delivery(sentence[2], names), True)
    if sentence:
        return Measure(name, text, _of_sentence(sentence[1], sentence[2], names))
    if text == REACHABLE:
        return Measure(name, text, lambda bench: reachable(bench.run.scenario))
    if text == LOSS:
        return Measure(name, text, loss)
    plain = OF_SUMMARY.fullmatch(text)
    if plain and plain[1] in SUMMARY:
        return Measure(name, text, _of_summary(plain[1], plain[2]), is_of_arrivals=plain[1] in ('ratio', 'received'))
    near = nearest(plain[1] if plain else text, [*SUMMARY, REACHABLE, LOSS])
    raise MeasureFault('%r is not a measure%s A measure is one of %s, or begins with %s or python:' % (
        text, '; did you mean %s?' % near if near else '.', ', '.join((*SUMMARY, REACHABLE, LOSS)),
        ', '.join(kind + ':' for kind in KINDS)))
