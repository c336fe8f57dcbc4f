"""What the page asks about a text: its error, its warnings, and what it must show."""
from __future__ import annotations

import re
from collections.abc import Sequence
from dataclasses import dataclass
from functools import cached_property
from typing import Any

from motesim.causes.source import Source, source_of
from motesim.explain.explanation import TEXT, correction_of, explanation, place_of_fault
from motesim.explain.say import in_words
from motesim.explain.warnings import warnings
from motesim.faults import Fault
from motesim.judge import expectations
from motesim.judge.claims import Claims, NoClaim
from motesim.judge.several import read_all
from motesim.report import Report
from motesim.report.run import Run
from motesim.scenario import Scenario
from motesim.scenario.fields import Field
from motesim.scenario.places import Place, place_of
from motesim.scenario.in_programs import ScenarioFile, place_of_token

MOST_WARNINGS = 20
# The comments and blank lines at the head of a text, and its comments with faults of the run, as the page writes them.
HEAD, FAULT = re.compile(r'(?:[ \t]*(?:#.*)?\n)*'), re.compile(r'^# fault: (.*)', re.M)


def with_faults(text: str, faults: Sequence[str]) -> str:
    """A text whose run has these faults only."""
    head = HEAD.match(text)
    assert head
    return ''.join('# fault: %s\n' % it for it in faults) + re.sub('# fault: .*\n', '', head[0]) + text[head.end():]


@dataclass
class Finished:
    """A run that has a report."""
    text: str
    run: Run
    scenario: Scenario

    @cached_property
    def source(self) -> Source:
        """The source for questions about the run."""
        return source_of(self.run)


def faults_of(text: str) -> tuple[str, ...]:
    """The faults of the run of a text."""
    found = HEAD.match(text)
    return tuple(it.strip() for it in FAULT.findall(found[0] if found else ''))


def finished(text: str, data: bytes, name: str, fields: tuple[Field, ...] = ()) -> Finished:
    """A run from its report, with the format of its packets."""
    scenario = Scenario.parse(text)
    scenario.fields, scenario.faults = fields, faults_of(text)
    return Finished(text, Run(name, Report.parse(data), scenario, ScenarioFile(name or 'text', text)), scenario)


def column16(text: str, column: int) -> int:
    """A column of a line, or an offset in a text, counted in the units of a browser."""
    return len(text[:column].encode('utf-16-le')) // 2


def fault(text: str, line: str) -> dict[str, Any]:
    """An error in the words of tools/explain, with its place in the text and the corrected text if they are known."""
    data = text.encode('utf-8')
    place, found = place_of_fault(data, line), correction_of(text)
    return {'line': line, 'words': explanation(TEXT, data, line),
            'corrected': found.applied(text) if found and found.edits else None,
            'place': stretch16(text, place) if place else None}


def stretch16(text: str, place: Place) -> list[int]:
    """The line of a place, and the columns at which it begins and ends, in the units of the page's editor."""
    row = text.split('\n')[place.line - 1]
    return [place.line - 1, column16(row, place.column), column16(row, place.column + place.length)]


def warned(done: Finished) -> list[dict[str, Any]]:
    """The warnings of tools/explain, about code that is legal, but probably not meant."""
    found = []
    for it in warnings(done.scenario, done.run.report, done.text)[:MOST_WARNINGS]:
        place = None
        if it.program is not None and it.token is not None:
            place = place_of_token(done.text, it.program, it.token)
        elif it.path is not None:
            place = place_of(done.text, it.path)
        found.append({'name': it.name, 'text': in_words(it), 'place': stretch16(done.text, place) if place else None})
    return found


def part_for(text: str, saved: str, parts: list[expectations.Part]) -> expectations.Part:
    """The part of a file of expectations for this text: the part of a change, if the text has this change."""
    for part in parts[1:]:
        try:
            if expectations.changed(saved, part.replace) == text:
                return part
        except Fault:
            continue
    return parts[0]


def expected_of(text: str, saved: str, expected: tuple[str, str] | None) -> dict[str, Any]:
    """The expectations of a text, each with the claims that it means. One that claims can't say, or a file with an
    error, has a remark instead."""
    if expected is None:
        return {'items': [], 'about': ''}
    name, source = expected
    try:
        part = part_for(text, saved, expectations.parts_of(source, name))
        return {'items': items_of(text, part), 'about': '(%s)' % part.name if part.replace else ''}
    except Fault as error:
        return {'items': [{'words': name, 'claims': [], 'remark': str(error)}], 'about': ''}


def items_of(text: str, part: expectations.Part) -> list[dict[str, Any]]:
    """The sentences of a part with their claims."""
    known, names = expectations.known_of(text, part.fields)
    if known is None:
        raise Fault('the text is no scenario, so no claims can be about it')
    claims, items = Claims(known), list[dict[str, Any]]()
    for number, (words, sentence) in enumerate(zip(part.sentences, read_all(part.sentences, names))):
        remark = '(required)' if number < part.required else ''
        try:
            its = [it.text for it in claims.of(sentence)]
        except NoClaim as why:
            its, remark = [], 'tools/expect decides this: %s' % why
        items.append({'words': ' '.join(words.split()), 'claims': its, 'remark': remark})
    items += [{'words': expectations.python_in(words), 'claims': [], 'remark': 'tools/expect decides this with Python'}
              for words in part.python]
    if part.report is not None:
        items.append({'words': 'the whole report', 'claims': [], 'remark': 'tools/expect compares it'})
    return items


def fields_of(expected: tuple[str, str] | None) -> tuple[Field, ...]:
    """The format of packets that a file of expectations declares; none if the file has an error."""
    try:
        return expectations.parts_of(expected[1], expected[0])[0].fields if expected else ()
    except Fault:
        return ()


def change_of(expected: tuple[str, str] | None) -> dict[str, Any] | None:
    """The first change of a file of expectations, with the words of its button."""
    if expected is None:
        return None
    name, source = expected
    try:
        first = expectations.parts_of(source, name)[1]
    except (Fault, IndexError):
        return None
    return {'try': 'Try: ' + (first.about or 'the first change'), 'replace': first.replace}
