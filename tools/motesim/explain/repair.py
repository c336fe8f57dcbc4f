"""Corrections of a scenario outside its programs: the nearest key, value or name that may stand there.

A correction has edits only if the scenario has no fault with them, or another one.
"""
from __future__ import annotations

import re
from collections.abc import Iterator
from typing import Any

from motesim.explain.edits import Correction, Edit, hint, replaced
from motesim.scenario.faults import LOSS, MEDIUM, MOTE, TOP, Rule, ScenarioError, find_fault
from motesim.scenario.places import Path, Place, place_of, value_of
from motesim.text import nearest
from motesim.toml import NoToml, read_toml

NO_TOML = 'scenario fault 1'
TABLES = {'medium': {**MEDIUM, 'collide': Rule(bool)}, 'loss': LOSS, 'mote': MOTE}
# Examples of the values of keys that a table needs, and of the tables that a scenario needs.
VALUES: dict[str, object] = {'version': 2, 'end': 100, 'range': 10, 'base': 1, 'per': 100, 'collide': 'false', 'x': 0,
                             'y': 0, 'from': 0, 'to': 1, 'every': 2}
AT_TOP = {
    'medium': ('[medium]', 'range = 10', 'base = 1', 'per = 100'),
    'programs': ('[programs]', "p = '''", 'process a;', 'autostart a;', 'code a { body { print 1; } }', "'''"),
    'mote': ('[[mote]]', 'x = 0', 'y = 0', 'program = "%s"'),
}
# What lines that aren't TOML have, what they become, and the code of the reason.
LINES = [
    (r'(\s*[\w.]+)\s*:\s*(.+)', r'\1 = \2', 'no-equals'),
    (r'(\s*[\w.]+)\s+([\d"\'].*)', r'\1 = \2', 'no-equals'),
    (r'(\s*[\w.]+\s*=\s*-?[\d_.]+)\s*[a-zA-Z%]+\s*', r'\1', 'unit'),
    (r'(\s*[\w.]+\s*=\s*.*[^;,])[;,]\s*', r'\1', 'end-of-line'),
    (r'(\s*[\w.]+\s*=\s*)(?:[Tt]rue|[Yy]es)\s*', r'\1true', 'truth-values'),
    (r'(\s*[\w.]+\s*=\s*)(?:[Ff]alse|[Nn]o)\s*', r'\1false', 'truth-values'),
    (r'(\s*[\w.]+\s*=\s*)([A-Za-z_][\w.-]*)\s*', r'\1"\2"', 'no-quotes'),
    (r'(\s*[\w.]+\s*=\s*")([^"]*)', r'\1\2"', 'open-quotes'),
    (r'(\s*)//(.*)', r'\1#\2', 'comment'),
    (r'(\s*\[\[?\s*\w+)\s*', r'\1]', 'open-bracket'),
]
# Words in keys that ask for random losses or delays, which the medium doesn't have.
OF_CHANCE = frozenset(('p', 'rate', 'probability', 'prob', 'random', 'seed', 'noise', 'chance', 'loss', 'drop', 'prr'))


def repair(text: str, fault: ScenarioError) -> Correction | None:
    """The most likely correction of a fault outside the programs of a scenario, or advice."""
    found = list(_attempts(text, fault))
    right = next((it for it in found if it.edits and is_better(text, fault, it)), None)
    return right or next((it for it in found if not it.edits), None)


def is_better(text: str, fault: ScenarioError, it: Correction) -> bool:
    """Returns whether the fault is gone with a correction, or further on."""
    changed = it.applied(text)
    other = find_fault(changed.encode('utf-8', 'replace'))
    if other is None or other.message != fault.message:
        return other is None or other.message != NO_TOML
    if other.message == NO_TOML and other.line and fault.line:
        return other.line[0] > fault.line[0]
    return (other.path, other.missing) != (fault.path, fault.missing)


def _attempts(text: str, fault: ScenarioError) -> Iterator[Correction]:
    if fault.message == NO_TOML and fault.line:
        yield from _of_toml(text, fault.line[0])
        return
    try:
        tables = read_toml(text)
    except NoToml:
        return
    if not fault.path:
        yield from _of_missing(text, tables, fault)
        return
    yield from _of_header(text, fault)
    kinds = {'scenario fault 2': _of_missing, 'scenario fault 3': _of_key, 'scenario fault 6': _of_program}
    yield from kinds.get(fault.message, _of_value)(text, tables, fault)


def _of_toml(text: str, number: int) -> Iterator[Correction]:
    """A line that isn't TOML; or the one above it, at whose end Python may find the error."""
    rows = text.split('\n')
    for line in (number, number - 1):
        row = rows[line - 1].partition(' #')[0] if line else ''
        for form, new, code in LINES:
            if found := re.fullmatch(form, row):
                yield hint(code, Edit(line, line, (found.expand(new),)))
    yield from _of_header(text, None)


def _of_header(text: str, fault: ScenarioError | None) -> Iterator[Correction]:
    """The names of tables with one bracket too few or too many."""
    for name in TABLES:
        wrong, right = ('[%s]', '[[%s]]') if name != 'medium' else ('[[%s]]', '[%s]')
        rows = [number for number, row in enumerate(text.split('\n'), 1) if row.strip() == wrong % name]
        if rows and (fault is None or fault.path[0] == name):
            yield hint('brackets', *(Edit(number, number, (right % name,)) for number in rows))


def is_about_chance(key: str) -> bool:
    """Returns whether a key asks for random losses or delays, such as `loss_probability`."""
    return not OF_CHANCE.isdisjoint(key.lower().split('_'))


def at(tables: object, path: Path) -> object:
    """The value of a scenario at a path, or None."""
    for name in path:
        try:
            tables = tables[name]  # type: ignore[index]
        except (KeyError, IndexError, TypeError):
            return None
    return tables


def like_of_missing(tables: object, fault: ScenarioError) -> str | None:
    """The unknown key that most likely means the key that is missing in the same table: the most similar one, or the
    only one. A table or an array is meant only for a key that has one, and no other value then."""
    table, is_table = at(tables, fault.path), not fault.path and TOP[fault.missing].kind in (dict, list)
    if not isinstance(table, dict):
        return None
    known = TABLES[str(fault.path[0])] if fault.path else {**TOP, 'queue': TOP['end']}
    others = [name for name, value in table.items() if name not in known and (
        isinstance(value, (dict, list)) if is_table else not isinstance(value, dict))]
    return nearest(fault.missing, others) or (others[0] if len(others) == 1 else None)


def _of_missing(text: str, tables: dict[str, Any], fault: ScenarioError) -> Iterator[Correction]:
    """Another key that most likely means the missing one; or an example of the missing one, below the name of its
    table."""
    wanted, like = fault.missing, like_of_missing(tables, fault)
    if like and is_about_chance(like):
        yield hint('no-chance')
    elif like and isinstance(at(tables, (*fault.path, like)), list) <= (wanted in ('mote', 'loss')):
        place = place_of(text, (*fault.path, like))
        begin = _row(text, place).find(like, place.column, place.column + place.length)
        if begin >= 0:
            yield hint('other-key', replaced(text, place.line, begin, begin + len(like), wanted), name=like,
                       wanted=wanted)
    programs = tables.get('programs')
    program = next(iter(programs), 'p') if isinstance(programs, dict) else 'p'
    if not fault.path:
        yield hint('scenario-needs', _at_top(text, tables, wanted, program), wanted=wanted)
        return
    value = VALUES.get(wanted, '"%s"' % program)
    place = place_of(text, fault.path)
    if _row(text, place).strip().startswith('['):
        yield hint('needs', Edit(place.line + 1, place.line, ('%s = %s' % (wanted, value),)), wanted=wanted,
                   value=value)
    yield hint('needs', wanted=wanted, value=value)


def _at_top(text: str, tables: dict[str, Any], wanted: str, program: str) -> Edit:
    """The lines of a key that a scenario needs, at its beginning, or of a table, at its end."""
    if wanted not in AT_TOP:
        medium = tables.get('medium')
        is_older = isinstance(medium, dict) and 'collide' not in medium and 'queue' not in tables
        return Edit(1, 0, ('%s = %s' % (wanted, 1 if wanted == 'version' and is_older else VALUES[wanted]),))
    lines = tuple(line % program if '%s' in line else line for line in AT_TOP[wanted])
    more = ('collide = false',) * (wanted == 'medium' and tables.get('version') == 2)
    end = len(text.removesuffix('\n').split('\n'))
    return Edit(end + 1, end, lines + more)


def _of_key(text: str, tables: dict[str, Any], fault: ScenarioError) -> Iterator[Correction]:
    """An unknown key: another key is meant, or it is to be left out."""
    name, place = str(fault.path[-1]), fault.place(text)
    if fault.path[0] == 'programs':
        return
    known = TABLES.get(str(fault.path[0]), {}) if len(fault.path) > 1 else {**TOP, 'queue': TOP['end']}
    if name in ('collide', 'queue') and tables.get('version') == 1:
        its = value_of(text, ('version',))
        yield hint('version-2', replaced(text, its.line, its.column, its.column + its.length, '2'), name=name)
    like = None if is_about_chance(name) else nearest(name, known)
    if like and name in _row(text, place)[place.column:place.column + place.length]:
        begin = _row(text, place).index(name, place.column)
        yield hint('similar', replaced(text, place.line, begin, begin + len(name), like), name=like)
    if is_about_chance(name):
        yield hint('no-chance')
    if re.match(r'\s*%s\s*=' % re.escape(name), _row(text, place)):
        yield hint('no-key', Edit(place.line, place.line, ()), name=name)
    yield hint('no-key', name=name)


def _of_program(text: str, tables: dict[str, Any], fault: ScenarioError) -> Iterator[Correction]:
    """The name of a program that doesn't exist."""
    names, value = list(tables['programs']), at(tables, fault.path)
    named = value if isinstance(value, str) else str(fault.path[-1])
    like = nearest(named, names) or (names[0] if len(names) == 1 else None)
    if like:
        place = fault.place(text)
        new = '"%s"' % like if isinstance(value, str) else like
        yield hint('similar', replaced(text, place.line, place.column, place.column + place.length, new), name=like)


def _of_value(text: str, tables: dict[str, Any], fault: ScenarioError) -> Iterator[Correction]:
    """A value of another kind, or out of range: the same number or text in the right kind, or the nearest number."""
    name, value, place = str(fault.path[-1]), at(tables, fault.path), fault.place(text)
    rule = {**TOP, **MEDIUM, **LOSS, **MOTE, 'collide': Rule(bool)}.get(name)
    # (a share of lost packets is no period)
    is_share = name == 'every' and not (type(value) is float and value.is_integer() or str(value).isdecimal())
    new = _as_kind(value, rule) if rule and not is_share else None
    code, bound = 'value', 0
    if new is None and type(value) is int and rule and rule.kind is int:
        least = 1 if name in ('base', 'per') else rule.least
        # (the nearest period of a loss, 1, would lose every packet)
        new = None if name == 'every' else str(min(max(value, least), rule.most))
        code, bound = ('at-least', least) if value < least else ('at-most', rule.most)
    if new is not None:
        yield hint(code, replaced(text, place.line, place.column, place.column + place.length, new), name=name,
                   value=new, bound=bound)


def _as_kind(value: object, rule: Rule) -> str | None:
    """A value in the kind that a key needs."""
    word = str(value).strip()
    if rule.kind is int and type(value) in (str, float, bool) and (found := re.match(r'-?\d+', word)):
        return found[0]
    if rule.kind is bool:
        return 'true' if word.lower() in ('1', 'true', 'yes', 'on') else 'false'
    return None


def _row(text: str, place: Place) -> str:
    return text.split('\n')[place.line - 1]
