"""The coverage of random scenarios: statements, expressions, limits, and the forms of the report's lines."""
from __future__ import annotations

import re
from collections import Counter
from collections.abc import Iterator

from project.differential.random_program import forms

OF_PROGRAM = ('autostart', 'receiver', 'var', 'etimer', 'ctimer', 'thread', 'onpoll', 'onexit', 'else', 'into',
              'odd number')
LIMITS = ('events', 'semaphores', 'processes', 'variables', 'timers', 'threads', 'statements', 'levels')
OF_SCENARIO = ('version 1', 'version 2', 'collide true', 'collide false', 'loss', 'queue of 1', 'queue of 128')
# The forms of a report's lines; the form of a line of a trace begins with a moment.
FORMS = {
    'start': r'\d+ start \w+$', 'leave': r'\d+ leave \w+$', 'post': r'\d+ post \d+ (?!all )\w+ \w+ \d+$',
    'post all': r'\d+ post \d+ all \w+ \d+$', 'full': r'\d+ full (?!all )\w+ \w+ \d+$',
    'full all': r'\d+ full all \w+ \d+$', 'take': r'\d+ take \d+ \w+$', 'drop': r'\d+ drop \d+ \w+$',
    'print': r'\d+ print \w+ \d+$', 'busy': r'\d+ busy \w+$', 'send': r'\d+ send \d+ \d+$',
    'recv': r'\d+ recv \d+ \d+ \d+$', 'lost': r'\d+ lost \d+ \d+$', 'collide': r'\d+ collide \d+ \d+$',
    'deaf': r'\d+ deaf \d+ \d+$', 'halt': r'\d+ halt$', 'packet that nobody hears': r'\d+ \d+ \d+ \d+$',
    'copy that arrives': r'\d+ \d+ \d+ \d+ .*\d+@\d+', 'copy that the medium loses': r'\d+ \d+ \d+ \d+ .*@lost',
    'copies past the end': r'left [1-9]', 'timer refused by a full queue': r'\d+ full \w+ timer \d+$',
    'packet refused by a full queue': r'\d+ full \w+ packet \d+$'}
EXPRESSIONS = {name: re.compile(form.encode(), re.M) for name, form in
               ((name, '^' + form) for name, form in FORMS.items())}


class Coverage:
    """The features that were reached, and how often."""

    def __init__(self) -> None:
        self.reached: Counter[str] = Counter()

    def add(self, reached: Counter[str]) -> None:
        self.reached.update(reached)

    @staticmethod
    def of_report(report: bytes) -> Counter[str]:
        """The forms of lines that a report has."""
        return Counter({'line %s' % name: 1 for name, form in EXPRESSIONS.items() if form.search(report)})

    def wanted(self) -> dict[str, list[str]]:
        """All features that can be reached, by their sort."""
        alternatives = {symbol: ['%s %s' % (symbol, it.name) for it in forms(symbol)]
                        for symbol in ('statement', 'expression', 'operator', 'cast', 'sent', 'any')}
        return {'statements': alternatives['statement'], 'expressions': alternatives['expression'],
                'operators': alternatives['operator'],
                'events': alternatives['cast'] + alternatives['sent'] + alternatives['any'],
                'parts of programs': list(OF_PROGRAM), 'limits': ['limit %s' % it for it in LIMITS],
                'parts of scenarios': list(OF_SCENARIO), 'forms of lines': ['line %s' % it for it in FORMS]}

    def lines(self) -> Iterator[str]:
        """Lists, for each sort, the features that were reached and those that weren't."""
        for sort, names in self.wanted().items():
            missing = [it.split(' ', 1)[-1] if sort != 'parts of programs' else it for it in names
                       if not self.reached[it]]
            least = min(self.reached[it] for it in names)
            yield '%s: %d of %d reached%s' % (sort, len(names) - len(missing), len(names),
                                             ', each at least %d times' % least if not missing else
                                             '; not reached: ' + ', '.join(missing))
