"""Writes the parts of the pages that are made from the code: tools/dev/pages

The pages have tables of limits, keys and errors, and HEADLINE a list of definitions, between two
marks:

    <!-- written by tools/dev/pages: limits -->
    <!-- end -->

`./test` checks that the pages are up to date. The words of the syntax file for editors are written, too.
"""
from __future__ import annotations

import json
import re
import textwrap
from collections.abc import Callable, Iterable, Iterator

from motesim.command import command
from motesim.notation import faults
from motesim.notation import grammar as program
from motesim.plan import keys as plan
from motesim.plan.tables import Key
from motesim.runner.programs import TOP
from motesim.scenario import faults as scenario
from motesim.words import words_of
from project.spec_lists import further, headline

SYNTAX = TOP / 'tools/editor/syntaxes/mote.tmLanguage.json'
WIDTH = 120
# The width of the grammar, and of the names of its rules; a part of a rule: a group in brackets or braces, or a word.
GRAMMAR_WIDTH, NAME_WIDTH = 116, 10
PART_OF_RULE = re.compile(r'\{ [^{}]*(?:\{ [^{}]* \})?[^{}]* \}|\[ [^\[\]]* \]|\S+')
PART = re.compile(r'(?<=<!-- written by tools/dev/pages: )(?P<name>[\w ]+)(?P<head> -->\n).*?(?=<!-- end -->)', re.S)


def cell(text: str) -> str:
    return text.replace('|', '\\|')


def table(head: tuple[str, ...], rows: Iterator[tuple[str, ...]]) -> Iterator[str]:
    yield '| %s |' % ' | '.join(head)
    yield '|%s' % ('---|' * len(head))
    for row in rows:
        yield '| %s |' % ' | '.join(map(cell, row))





def span(least: int, most: int) -> str:
    return '{:,} to {:,}'.format(least, most)


def limits() -> Iterator[str]:
    """The limits for which motesim refuses a scenario."""
    def rows() -> Iterator[tuple[str, ...]]:
        yield 'length of a scenario', '{:,} bytes of UTF-8'.format(scenario.LONGEST_TEXT), '`scenario too long`'
        yield 'number or count of a key', '[the table of keys](#tables-and-keys)', '`scenario fault 5`'
        yield 'name of a program', '1 to 32 characters from `A-Z a-z 0-9 _ -`', '`scenario fault 3`'
        yield 'name in a program', 'at most %d characters' % program.LONGEST_NAME, 'program fault 1'
        yield 'number in a program', span(0, program.MOST_NUMBER), 'program fault 5'
        for kind, most in program.MOST.items():
            least = '1 to ' if kind == 'process' else 'at most '
            yield program.COUNTED[kind], least + str(most), 'program fault 8' + '; without one, 9' * (kind == 'process')
        yield 'statements of a program', 'at most {:,}'.format(program.MOST_STATEMENTS), 'program fault 8'
        yield 'levels of nested blocks and expressions', 'at most %d' % program.MOST_LEVELS, 'program fault 7'

    return table(('Item', 'Limit', 'Error'), rows())


def scenario_keys() -> Iterator[str]:
    """The keys of a scenario, table by table."""
    def value(name: str, rule: scenario.Rule) -> str:
        second = '; only in version 2' if rule in (scenario.COLLIDE, scenario.QUEUES) else ''
        kind = scenario.may_of(name, rule).partition(': ')[2].replace('a whole number, ', '')
        return '%s, %s%s%s' % (rule.means, kind, second, '' if rule.is_needed else '; optional')

    def rows() -> Iterator[tuple[str, ...]]:
        tables = {'top level': {**scenario.TOP, 'queue': scenario.QUEUES},
                  '`medium`': {**scenario.MEDIUM, 'collide': scenario.COLLIDE},
                  'each `mote`': scenario.MOTE, 'each `loss`': scenario.LOSS}
        for place, keys in tables.items():
            for number, (name, rule) in enumerate(keys.items()):
                yield '' if number else place, '`%s`' % name, value(name, rule)
        yield '`programs`', 'a name of 1 to 32 of `A-Z a-z 0-9 _ -`', 'the text of a program'
        yield '`queue`', 'the name of a program', value('', scenario.QUEUE)

    return table(('Table', 'Key', 'Value'), rows())


def scenario_errors() -> Iterator[str]:
    """The lines with which motesim refuses a scenario, or ends without a report."""
    forms = {'program': 'program NAME fault K line L'}
    return table(('Line', 'When'), (('`motesim: %s`' % forms.get(it, it), said) for it, said in scenario.RULES.items()))


def program_errors() -> Iterator[str]:
    """The kinds of errors in a program."""
    return table(('Kind', 'Name', 'Rule'), ((str(it), *said) for it, said in faults.RULES.items()))


def said(name: str, key: Key) -> str:
    """A key of a plan, with its default value if it may be left out."""
    default = 'optional' if key.default in ({}, None) else str(key.default).lower()
    return '`%s`' % name if key.is_needed else '`%s` (%s)' % (name, default)


def plan_keys() -> Iterator[str]:
    """The keys of a plan, except those of its study."""
    def rows() -> Iterator[tuple[str, ...]]:
        tables = {'top level': {name: it for name, it in plan.TOP.items() if name not in ('sweep', 'plot')},
                  '`medium`': plan.MEDIUM, 'each `places`': plan.CORNER, 'each `other`': plan.OTHER}
        tables |= {'`places`, rule `%s`' % rule: keys for rule, keys in plan.PLACES.items()}
        tables |= {'`loss`, rule `%s`' % rule: keys for rule, keys in plan.LOSSES.items()}
        for place, keys in tables.items():
            yield place, ', '.join(said(name, key) for name, key in keys.items())

    return table(('Table', 'Keys, with default values in parentheses'), rows())



def filled(name: str, parts: Iterable[str], between: str) -> list[str]:
    """A rule on as many lines as it needs: each further line begins with the separator of the parts."""
    lines, line = [], '%-*s = ' % (NAME_WIDTH, name)
    begin = len(line)
    for place, part in enumerate(parts):
        more = between + part if place else part
        if len(line) + len(more) > GRAMMAR_WIDTH:
            lines.append(line)
            line = ' ' * (begin if between == ' ' else begin - 2) + more.lstrip()
        else:
            line += more
    return [*lines, line]


def grammar() -> Iterator[str]:
    """The grammar of programs."""
    named = program.alternatives()
    yield '```'
    for name in 'program', 'code', 'block', 'statement', 'into', 'cast', 'sent', 'any', 'expression', 'operator':
        yield from filled(name, named[name], ' | ') if name in named else filled(
            name, PART_OF_RULE.findall(program.RULES[name]), ' ')
    yield '```'


def grammar_of_claims() -> Iterator[str]:
    """The grammar of claims, which the crate that reads them has in its head comment."""
    text = (TOP / 'crates/claim_text/src/lib.rt').read_text('utf-8')
    found = re.search(r'^//! ```text\n(?P<rules>//! claim .*?^//! ```$)', text, re.M | re.S)
    assert found, 'claim_text has no grammar'
    yield '```'
    yield from (it[4:] for it in found['rules'].splitlines())


def reserved() -> Iterator[str]:
    """The reserved words."""
    words = dict.fromkeys([*program.DECLARING, *program.STATEMENTS, *program.OTHERS, *program.TESTS,
                           *program.OF_REPORTS])
    text = ('These words are reserved, so no name may be one of them: `%s`. The words `radio` and `all` are used in '
            'reports only.' % ' '.join(words))
    yield from textwrap.wrap(text, WIDTH - 2, break_on_hyphens=False)


def syntax_of(text: str) -> str:
    """The syntax file with the words of the grammar, the longest ones first."""
    def of_words(words: Iterable[str]) -> str:
        return '(%s)' % '|'.join(sorted(words, key=lambda word: (-len(word), word)))

    syntax = json.loads(text)
    for rule in syntax['repository']['all']['patterns']:
        if rule.get('name') in program.SCOPES:
            rule['match'] = '(?<![a-z0-9_])%s(?![a-z0-9_])' % of_words(program.SCOPES[rule['name']])
        elif 'captures' in rule:
            rule['match'] = r'(?<![a-z0-9_])%s(\s+)([a-z][a-z0-9_]{0,15})(?![a-z0-9_])' % of_words(program.NAMING)
    return json.dumps(syntax, indent=2, ensure_ascii=False) + '\n'


PARTS: dict[str, Callable[[], Iterator[str]]] = {
    'definitions': lambda: iter(headline(TOP).splitlines()),
    'definitions of answers': lambda: iter(further(TOP).splitlines()), 'grammar': grammar,
    'grammar of claims': grammar_of_claims, 'limits': limits, 'plan keys': plan_keys,
    'program errors': program_errors, 'reserved words': reserved, 'scenario errors': scenario_errors,
    'scenario keys': scenario_keys}


def page_of(text: str) -> str:
    """A page with its parts."""
    return PART.sub(lambda it: it['name'] + it['head'] + ''.join(line + '\n' for line in PARTS[it['name']]()), text)


@command('pages')
def main() -> int:
    words_of(__doc__).parse_args()
    for path in (*sorted(TOP.glob('docs/*/*.md')), SYNTAX):
        text = path.read_text('utf-8')
        made = syntax_of(text) if path == SYNTAX else page_of(text)
        if made != text:
            path.write_text(made, 'utf-8')
            print(path.relative_to(TOP))
    return 0
