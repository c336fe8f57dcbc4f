"""What the page without a server takes from tools/explain, as JSON: the rules of rows, with patterns as JavaScript has
them, the order of the parts of a program, the keys of a scenario, and the words of hints."""
from __future__ import annotations

import re
from collections.abc import Mapping

from motesim.explain.habits import habits
from motesim.explain.repair import LINES, TABLES
from motesim.explain.say import HINTS
from motesim.explain.structure import ORDERS
from motesim.scenario.faults import TOP, Rule

# The hints that the page gives by itself.
OF_PAGE = ('equals', 'late-part', 'missing', 'one-value', 'similar', 'too-many', 'two-values')


def in_script(pattern: str) -> str:
    """A pattern in the syntax of JavaScript."""
    return re.sub(r'\(\?P=(\w+)\)', r'\\k<\1>', pattern).replace('(?P<', '(?<')


def keys(table: Mapping[str, Rule]) -> dict[str, object]:
    """The keys of a table: all, those that are needed, and those with numbers, with the least and the greatest."""
    return {'may': [*table], 'must': [key for key, rule in table.items() if rule.is_needed],
            'numbers': {key: [rule.least, rule.most] for key, rule in table.items() if rule.kind is int}}


def rules() -> dict[str, object]:
    """The rules: of the rows of programs, and of all others."""
    top = {**TOP, 'queue': Rule(dict, is_needed=False)}
    medium = {**TABLES['medium'], 'collide': Rule(bool, is_needed=False)}
    brackets = [(r'\s*\[%s\]\s*' % it if it != 'medium' else r'\s*\[\[%s\]\]\s*' % it,
                 '[[%s]]' % it if it != 'medium' else '[%s]' % it, 'brackets') for it in TABLES]
    return {
        'programs': [[in_script(it.written.pattern), re.sub(r'<(\w+)>', r'$<\1>', it.becomes), it.why]
                     for it in habits() if it.becomes is not None],
        'tables': [['^%s$' % form, re.sub(r'\\(\d)', r'$\1', new), HINTS[code]]
                   for form, new, code in [*LINES, *brackets]],
        'orders': ORDERS, 'hints': {name: HINTS[name] for name in OF_PAGE},
        'keys': {'': keys(top), 'medium': keys(medium), 'mote': keys(TABLES['mote']), 'loss': keys(TABLES['loss'])}}
