"""The grammar of the notation as data: docs/use/LANGUAGE.md describes the language.

The reader of programs, the colours of the studio's page, the syntax files for editors and the grammar in
LANGUAGE.md are all made from this data. `STATEMENTS` has each statement with its form, and whether it may wait;
`RULES` has the other rules; `COLOURS` has each word's class on the studio's page, and `SCOPES` each word's class in
the syntax files. tools/dev/pages writes the grammar into the page, and the words into the syntax files.
"""
from __future__ import annotations

import re
from collections.abc import Iterable
from typing import NamedTuple

# A parameter in a plan, and in the programs next to it.
PARAMETER = re.compile(r'\$\{([^}\n]*)\}')


class Form(NamedTuple):
    """The form of a statement, and whether it may wait. In the form E is an expression, B a block, SENT and CAST an
    event, INTO an optional variable for the result, and another word in capitals a name of that kind."""
    form: str
    waits: bool = False

    @property
    def parts(self) -> tuple[str, ...]:
        """The parts behind the first word."""
        return tuple(self.form.rstrip(';').split()[1:])


STATEMENTS = {
    'print': Form('print E;'),
    'send': Form('send E;'),
    'if': Form('if E B else B'),
    'while': Form('while E B'),
    'yield': Form('yield;', True),
    'yield_until': Form('yield_until E;', True),
    'wait_until': Form('wait_until E;', True),
    'wait_while': Form('wait_while E;', True),
    'spawn': Form('spawn THREAD;', True),
    'restart': Form('restart;', True),
    'exit': Form('exit;', True),
    'pause': Form('pause;', True),
    'acquire': Form('acquire SEMAPHORE;', True),
    'signal': Form('signal SEMAPHORE;'),
    'post': Form('post PROCESS SENT E INTO;'),
    'broadcast': Form('broadcast CAST E INTO;'),
    'synch': Form('synch PROCESS SENT E;'),
    'poll': Form('poll PROCESS;'),
    'start': Form('start PROCESS;'),
    'kill': Form('kill PROCESS;'),
    'set': Form('set TIMER E;'),
    'reset': Form('reset TIMER;'),
    'restart_timer': Form('restart_timer TIMER;'),
    'stop': Form('stop TIMER;'),
}
# The tests that an expression applies to a name, with the kind of that name.
TESTS = {'fired': 'timer', 'expired': 'timer', 'gone': 'process', 'running': 'process', 'count': 'semaphore'}
OPERATORS = ('+', '-', '*', '/', '%', '==', '!=', '<', '<=', '>', '>=', '&&', '||')
# Other values; and the events that may be broadcast, that may be posted, and for which a test may ask.
VALUES = ('data', 'from', 'now', 'self')
CAST = ('continue', 'msg', 'com', 'packet')
SENT = (*CAST, 'exit')
ANY = (*SENT, 'init', 'poll', 'exited', 'timer')
SIGNS = frozenset((*OPERATORS, *'{}();,=!'))
# All rules except those of statements, events and expressions, in the order of the page.
RULES = {
    'program': '{ "event" NAME ";" } { "semaphore" NAME "=" NUMBER ";" } "process" NAME { "," NAME } ";" '
               '[ "autostart" PROCESS { "," PROCESS } ";" ] [ "receiver" PROCESS ";" ] { code }',
    'code': '"code" PROCESS "{" { "var" NAME "=" NUMBER ";" } { "etimer" NAME ";" } { "ctimer" NAME block } '
            '{ "thread" NAME block } [ "onpoll" block ] [ "onexit" block ] "body" block "}"',
    'block': '"{" { statement } "}"',
    'into': '[ "into" VARIABLE ]',
}
SYSTEM = ('etimer', 'ctimer', 'radio')
EVENTS = ('continue', 'msg', 'com', 'packet', 'exit', 'timer')
# The words that declare something, and those that are followed by a name.
DECLARING = ('event', 'semaphore', 'process', 'autostart', 'receiver', 'code', 'var', 'etimer', 'ctimer', 'thread',
             'onpoll', 'onexit', 'body')
NAMING = ('event', 'semaphore', 'process', 'code', 'var', 'etimer', 'ctimer', 'thread')
OTHERS = ('else', 'into', 'continue', 'msg', 'com', 'packet', 'init', 'exited', 'timer', 'data', 'from', 'now', 'self',
          'is')
# The longest name, the greatest number, and how many of each kind a program, or a code, may declare.
LONGEST_NAME, MOST_NUMBER, MOST_LEVELS, MOST_STATEMENTS = 16, 65_535, 32, 4_096
MOST = {'event': 117, 'semaphore': 64, 'process': 64, 'timer': 64, 'variable': 64, 'thread': 7}
COUNTED = {
    'event': 'declared events of a program', 'semaphore': 'semaphores of a program', 'thread': 'threads of a process',
    'process': 'processes of a program', 'timer': 'timers of a program, of both kinds',
    'variable': 'variables of a process',
}
# Words that only reports have.
OF_REPORTS = ('radio', 'all')
RESERVED = frozenset((*DECLARING, *STATEMENTS, *TESTS, *OTHERS, *OF_REPORTS))

# The classes of words on the page: a statement has the colour that its effect has on the lanes.
_PACKETS = ('packet', 'receiver', 'from', 'data', 'radio')
_TIMERS = ('etimer', 'ctimer', 'set', 'reset', 'restart_timer', 'stop', 'fired', 'expired', 'timer')
COLOURS: dict[str, tuple[str, ...]] = {
    'send': ('send',), 'print': ('print',), 'recv': _PACKETS, 'timer': _TIMERS,
    'keyword': tuple(sorted(RESERVED.difference(('send', 'print'), _PACKETS, _TIMERS))),
    'operator': tuple(sorted({*''.join(SIGNS)})),
}
# The classes of words in the grammars for editors.
_CONTROL = ('if', 'else', 'while', *(word for word, it in STATEMENTS.items() if it.waits), 'signal')
_ACTING = (*(word for word in STATEMENTS if word not in _CONTROL), 'into')
SCOPES: dict[str, frozenset[str]] = {
    'storage.type.mote': frozenset(DECLARING), 'keyword.control.mote': frozenset(_CONTROL),
    'support.function.mote': frozenset(_ACTING),
    'support.constant.mote': RESERVED.difference(DECLARING, _CONTROL, _ACTING),
}
# The names of the parts of a form in the grammar.
_PARTS = {'E': 'expression', 'B': 'block', 'SENT': 'sent', 'CAST': 'cast', 'INTO': 'into'}


def _quoted(words: Iterable[str]) -> list[str]:
    return ['"%s"' % word for word in words]


def _statement(form: str) -> str:
    """A form of a statement as an alternative of the grammar."""
    parts = [_PARTS.get(it) or (it if it.isupper() else '"%s"' % it) for it in form.rstrip(';').split()]
    found = ' '.join(parts + _quoted([';'] if form.endswith(';') else []))
    return found.replace('"else" block', '[ "else" block ]')


def alternatives() -> dict[str, list[str]]:
    """The rules that are lists of alternatives."""
    tests = ['"is" "(" any ")"', *('"%s" "(" %s ")"' % (word, kind.upper()) for word, kind in TESTS.items())]
    return {
        'statement': ['VARIABLE "=" expression ";"', *(_statement(it.form) for it in STATEMENTS.values())],
        'cast': ['EVENT', *_quoted(CAST)],
        'sent': ['cast', *_quoted(it for it in SENT if it not in CAST)],
        'any': ['sent', *_quoted(it for it in ANY if it not in SENT)],
        'expression': ['NUMBER', 'VARIABLE', *_quoted(VALUES), *tests, '"!" expression',
                       '"(" expression operator expression ")"'],
        'operator': _quoted(OPERATORS),
    }
