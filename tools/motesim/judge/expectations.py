"""Files of expectations: their sentences, and which of them hold for a scenario. tools/expect is the command.

`expect(Path('a.toml'), Path('a.expect.toml'))` runs the scenario, prints which sentences hold, and counts them.
"""
from __future__ import annotations

import dataclasses
import itertools
from collections.abc import Callable, Iterable, Iterator, Sequence
from dataclasses import dataclass
from pathlib import Path
from typing import Any, NamedTuple

from motesim.faults import Fault, tried
from motesim.text import nearest
from motesim.judge.claim_words import motes_text
from motesim.judge.claims import Claims, NoClaim
from motesim.judge.finder import Finder
from motesim.judge.reasons import Broken
from motesim.judge.remarks import NOT_PROVED, remark_of
from motesim.notation.reader import find_fault
from motesim.report import Report
from motesim.runner import LimitMet, Limits, NoReport, ProgramFault
from motesim.report.run import Answer, answer, refuse_others
from motesim.scenario import Scenario, ScenarioFault
from motesim.scenario.encodings import decoded, read_file
from motesim.scenario.faults import TOP
from motesim.scenario.fields import Field, of_line, read_fields
from motesim.scenario.refused import check
from motesim.judge.meaning import Refused, Sentence
from motesim.judge.names import Names, names_of
from motesim.judge.predicates import EXAMPLE as PREDICATE
from motesim.judge.predicates import NOT_PROVED as BY_PYTHON
from motesim.judge.predicates import Predicate, predicates_of
from motesim.judge.several import read_all
from motesim.judge.verdicts import breaks
from motesim.toml import NoToml, read_toml

LONGEST_SHOWN = 150
REFUSED = 'the scenario is refused'
WHOLE = 'the report is the expected one'
KEYS: dict[str, type | tuple[type, ...]] = {
    'expect': list, 'required': list, 'report': str, 'python': (str, list), 'change': list, 'about': str,
    'replace': dict, 'fields': dict}
EXAMPLE = '`expect = ["mote 0 sends twice", "no mote halts"]`'
# For each key, the kind of its value, and its form.
WRITTEN = {
    'expect': 'an array of expectations, such as %s' % EXAMPLE, 'report': 'a text',
    'python': 'a file and its function, such as %s, or an array of these' % PREDICATE,
    'required': 'an array of expectations, such as `required = ["every mote prints"]`',
    'change': 'an array of tables: each begins with a line `[[change]]`',
    'about': 'a text, such as `about = "a late end"`',
    'replace': 'a table, such as `replace = { "end = 9" = "end = 99" }`',
    'fields': 'a table, such as `fields = { origin = "value / 1024", seq = "value % 1024" }`',
}
# The remark after a required sentence.
REQUIRED = ' (required)'


def beside(scenario: Path) -> Path:
    """The file of expectations next to a scenario."""
    return scenario.with_suffix('.expect.toml')


def text_of(path: Path) -> str:
    """The text of a file."""
    return decoded(str(path), read_file(path))


@dataclass(frozen=True)
class Part:
    """The expectations for the scenario, or for a changed scenario, in which some text is replaced.

    required  how many of the sentences, from the first one on, a solution must meet to earn anything
    fields    the declared format of packets
    about     the description of a change, if it has one; it is also the name then
    python    the functions in Python that must find the report right, each as `FILE:FUNCTION`; and the file that names
    them
    """
    name: str
    sentences: list[str]
    report: str | None
    replace: dict[str, str]
    required: int = 0
    fields: tuple[Field, ...] = ()
    about: str = ''
    python: tuple[str, ...] = ()
    file: str = ''

    def predicates(self) -> list[Predicate]:
        """The functions in Python, loaded from their files."""
        return predicates_of(self.python, Path(self.file).parent)


class Verdict(NamedTuple):
    """A sentence, whether it holds, the lines to show if it doesn't, whether the scenario has no report, and a remark;
    what breaks the sentence, and the row of the report that shows it."""
    sentence: str
    holds: bool
    more: list[str]
    is_refused: bool = False
    remark: str = ''
    row: int | None = None
    broken: Broken | None = None


def part_of(table: dict[str, Any], name: str, keys: set[str], file: str) -> Part:
    """The expectations of a table of the file."""
    for key, value in table.items():
        if key not in keys:
            like = nearest(key, keys)
            more = ', as a scenario has' if key in TOP else '; did you mean %s?' % like if like else ''
            raise Fault('%s has a key %s%s; allowed are: %s' % (name, key, more, ', '.join(sorted(keys))))
        if not isinstance(value, KEYS[key]):
            raise Fault('%s of %s is not %s' % (key, name, WRITTEN[key]))
    required, replace, python = table.get('required', []), table.get('replace', {}), table.get('python', [])
    sentences, functions = required + table.get('expect', []), [python] if isinstance(python, str) else python
    other = next((it for it in [*sentences, *replace.values(), *functions] if type(it) is not str), None)
    if other is not None:
        raise Fault('%s must contain only texts, which are in quotes, but has %s' % (name, other))
    if not sentences and not functions and 'report' not in table:
        raise Fault('%s expects nothing: write expectations, such as %s' % (name, EXAMPLE))
    return Part(table.get('about', name), sentences, table.get('report'), replace, len(required),
                read_fields(table.get('fields', {})), table.get('about', ''), tuple(functions), file)


def parts_of(text: str, name: str) -> list[Part]:
    """The expectations of a file: first those for the unchanged scenario, then those for each change."""
    try:
        tables = read_toml(text)
    except NoToml as fault:
        raise Fault('%s is not TOML: %s; each expectation is in quotes, with commas between them: %s' % (
            name, fault, EXAMPLE)) from None
    parts = [part_of(tables, name, {'expect', 'required', 'report', 'python', 'change', 'fields'}, name)]
    for number, table in enumerate(tables.get('change', []), 1):
        if type(table) is not dict or not table.get('replace'):
            raise Fault('change %d of %s has no table replace' % (number, name))
        keys = {'expect', 'report', 'python', 'about', 'replace'}
        part = part_of(table, 'change %d of %s' % (number, name), keys, name)
        parts.append(dataclasses.replace(part, fields=parts[0].fields))
    return parts


def fields_beside(scenario: str | Path) -> tuple[Field, ...]:
    """The format of packets that the file of expectations next to a scenario declares, if there is one."""
    path = beside(Path(scenario))
    return parts_of(text_of(path), str(path))[0].fields if path.is_file() else ()


def parts_given(scenario: Path, expectations: Path, given: Sequence[str]) -> list[Part]:
    """The expectations of a file, or those that are given instead."""
    if not given:
        return parts_of(text_of(expectations), str(expectations))
    return [Part('--expect', [*given], None, {}, fields=fields_beside(scenario))]


def place_of_part(number: int, part: Part, name: str) -> str:
    """The place of a part in its file, in a message: the file, or the number of the change with its description; empty
    if the expectations are in no file."""
    if not number:
        return name if part.file else ''
    place = 'change %d of %s' % (number, name)
    return '%s (%s)' % (place, part.about) if part.about else place


def changed(scenario: str, replace: dict[str, str]) -> str:
    for old, new in replace.items():
        if old not in scenario:
            raise Fault('the scenario has no text %r to replace' % old)
        scenario = scenario.replace(old, new)
    return scenario


def more_of(broken: Broken, report: Report, fields: Sequence[Field] = ()) -> list[str]:
    """The lines that are shown for a broken sentence, with the fields of their values."""
    if broken.row is None:
        return [broken.words]
    row = report.row(broken.row)
    shown = row if len(row) <= LONGEST_SHOWN else row[:LONGEST_SHOWN] + '..'
    return [broken.words, 'line %d: %s%s' % (broken.row, shown, of_line(fields, row.partition(' ')[2]))]


def same_report(rows: Iterable[str], wanted: str) -> Verdict:
    """The verdict on a report that must be the same as another report."""
    for number, (row, line) in enumerate(itertools.zip_longest(rows, wanted.splitlines(), fillvalue='the end'), 1):
        if row != line:
            difference = ['line %d: %s' % (number, row), 'expected: %s' % line]
            return Verdict(WHOLE, False, difference, False, NOT_PROVED, number)
    return Verdict(WHOLE, True, [], False, NOT_PROVED)


def python_in(words: str) -> str:
    """A function in Python, as an expectation."""
    return 'python: ' + words


def refused(part: Part, sentences: list[Sentence], got: Answer) -> list[Verdict]:
    """The verdicts on a scenario that has no report."""
    line = got.why
    more, found = ['%s: %s' % (REFUSED, line)], []
    for text, sentence in zip(part.sentences, sentences):
        holds = isinstance(sentence, Refused) and got == Answer(1, b'', ('motesim: %s\n' % sentence.fault).encode())
        found.append(Verdict(text, holds, more, True, NOT_PROVED if isinstance(sentence, Refused) else ''))
    found += [Verdict(python_in(it), False, more, True, BY_PYTHON) for it in part.python]
    return found if part.report is None else found + [Verdict(WHOLE, False, more, True, NOT_PROVED)]


def of_report(part: Part, sentences: list[Sentence], finder: Finder, limits: Limits = Limits()) -> list[Verdict]:
    """The verdicts on the report of a scenario. They don't depend on remarks: an error in a remark leaves it out."""
    found = []
    for text, it, its in zip(part.sentences, sentences, breaks(sentences, finder, limits)):
        remark = tried(lambda: remark_of(it, finder, its is None), lambda words: '')
        found.append(Verdict(text, its is None, more_of(its, finder.report, part.fields) if its else [], False, remark,
                             its.row if its else None, its))
    return found + ([same_report(finder.report.rows(), part.report)] if part.report is not None else [])


def by_python(predicates: Sequence[Predicate], report: Report) -> list[Verdict]:
    """The verdicts of functions in Python."""
    reasons = [(it, it.why(report)) for it in predicates]
    return [Verdict(python_in(it.words), not why, [why] * bool(why), False, BY_PYTHON) for it, why in reasons]


def known_of(text: str, fields: tuple[Field, ...] = (), faults: tuple[str, ...] = ()) -> tuple[Scenario | None, Names]:
    """A scenario, if the text is one, and the names that sentences may use: any processes, if a program has an error.
    It is run with these faults."""
    try:
        known = Scenario.parse(text)
        known.fields, known.faults = fields, faults
        is_right = not any(find_fault(it) for it in known.programs.values())
        return known, names_of(known) if is_right else Names(None, known.motes, (), fields)
    except ScenarioFault:
        return None, Names(fields=fields)


def judged(scenario: str, part: Part, run: Callable[[bytes], Answer] | None = None, limits: Limits = Limits(),
           faults: tuple[str, ...] = ()) -> list[Verdict]:
    """The verdicts of a part on the run with these faults. `run` makes this run; `limits` are those of `motecheck`.
    Raises a `NoReport` if the scenario is refused, and no sentence is about this."""
    text = changed(scenario, part.replace)
    known, names = known_of(text, part.fields, faults)
    sentences = read_all(part.sentences, names)
    # (an error in a function is told before the run)
    predicates = part.predicates()
    got = (run or answer)(text.encode())
    if got.status and not any(isinstance(it, Refused) for it in sentences):
        raise NoReport('%s: %s' % (REFUSED, got.why))
    if got.status:
        return refused(part, sentences, got)
    report = Report.parse(got.report)
    found = of_report(part, sentences, Finder(report, known or Scenario.parse(text)), limits)
    return found + by_python(predicates, report)


def expect(scenario: Path, expectations: Path, is_quiet: bool = False,
           run: Callable[[bytes], Answer] | None = None, limits: Limits = Limits(), given: Sequence[str] = (),
           faults: tuple[str, ...] = ()) -> tuple[int, int]:
    """Prints which sentences hold, or, if `is_quiet`, those that don't; returns how many hold and how many don't.
    `run` runs the scenario with these faults; `limits` are those of `motecheck`; `given` are the sentences, if no file
    has them."""
    text = text_of(scenario)
    refuse_others(scenario)
    passed = failed = 0
    name = str(expectations)
    for count, part in enumerate(parts_given(scenario, expectations, given)):
        try:
            verdicts = judged(text, part, run, limits, faults)
        except LimitMet as fault:
            raise Fault('%s: the run was ended: %s' % (scenario, fault)) from None
        except NoReport as fault:
            if not part.replace:
                check(str(scenario), text.encode())
            raise Fault(': '.join(filter(None, [place_of_part(count, part, name), str(fault)]))) from None
        except ProgramFault:
            # (this error isn't in the expectations, so the message doesn't name their file)
            raise
        except Fault as fault:
            raise Fault(': '.join(filter(None, [place_of_part(count, part, name), str(fault)]))) from None
        if part.replace and not (is_quiet and all(it.holds for it in verdicts)):
            print('with %s:' % (part.name if part.name != name else 'a change'))
        for number, it in enumerate(verdicts):
            passed, failed = passed + it.holds, failed + (not it.holds)
            words = it.sentence + REQUIRED * (number < part.required)
            if it.holds and not is_quiet:
                print('\n          '.join(['holds   %s' % words, *filter(None, [it.remark])]))
            elif not it.holds:
                print('\n          '.join(['broken  %s' % words, *it.more, *filter(None, [it.remark])]))
    return passed, failed


def claims_shown(scenario: Path, expectations: Path, given: Sequence[str] = ()) -> Iterator[str]:
    """The lines of a text of claims: each expectation as a comment, and the claims that it means. Expectations that
    claims can't say, and those about a changed scenario, have only a comment."""
    name = str(expectations)
    part, *others = parts_given(scenario, expectations, given)
    known, names = known_of(text_of(scenario), part.fields)
    sentences = read_all(part.sentences, names)
    if known is None:
        raise Fault('%s is no scenario, so no claims can be about it' % scenario)
    claims = Claims(known)
    for text, sentence in zip(part.sentences, sentences):
        yield '# ' + ' '.join(text.split())
        try:
            yield from (it.text for it in claims.of(sentence))
        except NoClaim as why:
            yield '# %s' % why
        if claims.apart:
            yield '# without a distance, so without a case: ' + motes_text(sorted(set(claims.apart)))
    for words in part.python:
        yield '# %s' % python_in(words)
        yield '# %s' % NoClaim('a function in Python decides it')
    if part.report is not None:
        yield '# %s' % NoClaim('the whole report')
    for number, it in enumerate(others, 1):
        yield '# %s' % NoClaim('the expectations of %s are about another scenario' % place_of_part(number, it, name))
