"""Fault studies: files of searches with their expected results.

    scenario = "../flooding.toml"

    [[study]]
    about = "no single link is needed"
    replace = { "every = 2" = "every = 1000" }
    kinds = ["links"]
    at_most = 1
    expect = ["every mote but 0 prints flood 1"]
    breaks = []

`breaks` has all smallest sets of faults that break any of the expectations, each in the words of tools/search. If there
are many sets, `counts` has the number of sets of each size instead.
"""
from __future__ import annotations

from collections import Counter
from pathlib import Path
from typing import Any

from motesim.faults import Fault
from motesim.judge.expectations import changed, text_of
from motesim.scenario import Scenario
from motesim.scenario.refused import check
from motesim.surveys.kinds import KINDS, Kinds, kinds_given
from motesim.surveys.searching import Asked, search_of
from motesim.surveys.survey import Bounds
from motesim.text import known
from motesim.toml import NoToml, read_toml

TEXTS = 'an array of texts, as in '
VALUES = [kind for kind, (values, _) in KINDS.items() if values]
# The form of the value of each key.
FORMS: dict[str, str] = {
    'about': 'a text in quotes', 'replace': 'a table, as in { "every = 2" = "every = 1000" }',
    'kinds': TEXTS + '["links", "silent"]', 'at_most': 'a whole number from 1 on, as in 2',
    **dict.fromkeys(VALUES, 'an array of whole numbers, as in [1, 4]'),
    'expect': TEXTS + '["mote 0 prints 7"]', 'breaks': TEXTS + '["mote 1 is silent"]',
    'counts': 'an array of whole numbers, as in [0, 4]'}


def studies_of(path: Path) -> tuple[Path, list[dict[str, Any]]]:
    """The scenario and the studies of a file."""
    try:
        tables = read_toml(text_of(path))
    except NoToml as fault:
        raise Fault('%s is not TOML: %s' % (path, fault)) from None
    scenario, studies = tables.get('scenario'), tables.get('study')
    if type(scenario) is not str or type(studies) is not list or not studies:
        raise Fault('%s has no `scenario = "FILE"`, or no tables [[study]]' % path)
    for number, study in enumerate(studies, 1):
        wrong = _wrong_keys(study)
        if wrong:
            raise Fault('study %d of %s: %s' % (number, path, wrong))
    return path.parent / scenario, studies


def _wrong_keys(study: object) -> str:
    """The error in the keys of a study, or an empty text."""
    if type(study) is not dict:
        return 'it has to be a table'
    for key, value in study.items():
        if key not in FORMS:
            return '`%s` is not allowed there; allowed are: %s' % (key, ', '.join(FORMS))
        if not _has_form(key, value):
            return 'the value of `%s` has to be %s' % (key, FORMS[key])
    other = next((it for it in study.get('kinds', []) if it not in KINDS or it in VALUES), None)
    if other is not None:
        return 'there is no kind of fault %s%s' % (
            other, ' without values: `%s = [1, 4]`' % other if other in VALUES else '; ' + known(other, [*KINDS]))
    return '' if 'expect' in study and ('breaks' in study) != ('counts' in study) else (
        'it needs `expect`, and exactly one of `breaks` and `counts`')


def _has_form(key: str, value: object) -> bool:
    """Returns whether the value of a key has the form that the key needs."""
    if key in ('about', 'replace'):
        return isinstance(value, str if key == 'about' else dict)
    if key == 'at_most':
        return type(value) is int and value > 0
    member = str if key in ('kinds', 'expect', 'breaks') else int
    return isinstance(value, list) and all(type(it) is member for it in value)


def kinds_of(study: dict[str, Any]) -> Kinds:
    """The kinds of faults of a study."""
    return kinds_given(dict.fromkeys(study.get('kinds', []), True) | {it: study[it] for it in VALUES if it in study})


def asked_in(study: dict[str, Any], path: Path) -> Asked:
    """The search of a study."""
    text = changed(text_of(path), study.get('replace', {}))
    check(str(path), text.encode())
    return Asked(Scenario.parse(text), study['expect'], kinds_of(study), Bounds(study.get('at_most', 1)))


def wrong_with(study: dict[str, Any], asked: Asked, jobs: int) -> list[str]:
    """The differences from the expected results, one in each line; an empty list if there are none."""
    result = search_of(asked, jobs)
    rows = ['broken without a fault: ' + it for it in result.broken] + ['%s: %s' % it for it in result.unsaid.items()]
    if 'counts' in study:
        counts = Counter(len(it.faults) for it in result.found)
        sizes = [counts[size] for size in range(1, asked.bounds.at_most + 1)]
        return rows if sizes == study['counts'] else [*rows, 'counts = %r, and not %r' % (sizes, study['counts'])]
    sets, wanted = dict.fromkeys(it.words for it in result.found), study['breaks']
    rows += ['no expectation is broken any more by: ' + it for it in wanted if it not in sets]
    return rows + ['an expectation is broken unexpectedly by: ' + it for it in sets if it not in wanted]


def check_studies(path: Path, jobs: int) -> tuple[int, int]:
    """Checks the studies of a file, prints their results, and counts the studies with the expected results, and the
    others."""
    scenario, studies = studies_of(path)
    passed = failed = 0
    for number, study in enumerate(studies, 1):
        try:
            wrong = wrong_with(study, asked_in(study, scenario), jobs)
        except Fault as fault:
            about = ' (%s)' % study['about'] if 'about' in study else ''
            raise Fault('study %d of %s%s: %s' % (number, path, about, fault)) from None
        passed, failed = passed + (not wrong), failed + bool(wrong)
        print('%s %s: %s' % ('wrong  ' if wrong else 'holds  ', path.name, study.get('about', 'a study')))
        for row in wrong:
            print('          ' + row)
    return passed, failed
