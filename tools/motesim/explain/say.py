"""The texts of all warnings and hints, by their names. docs/use/DEBUGGING.md lists the warnings."""
from __future__ import annotations

from collections.abc import Sequence

from motesim.explain.edits import Correction, Edit
from motesim.explain.warned import Warned
from motesim.text import Shown

HALTS = 'repeats until the mote\'s work is used up, and then the mote halts'
TEXTS = {
    'no-autostart': 'no process starts at boot: an `autostart` with its names is missing',
    'never-started': 'the process `{process}` is never started',
    'no-receiver': 'the program waits for packets, but no process is the `receiver`, so they are dropped; write '
                   '`receiver {process};` above the first `code`',
    'not-the-receiver': '`is(packet)` is never true in `{process}`: packets go only to the `receiver`, which is '
                        '`{receiver}`',
    'ignores-packets': 'packets go to the process `{receiver}`, which never looks at one; wait by `yield_until '
                       'is(packet);`, or leave the `receiver` out',
    'misses-packets': 'a packet that arrives during this wait is lost, although the same loop waits for packets on '
                      'line {line} of the program; wait for both, `yield_until (is(packet) || {test});`',
    'never-waits': 'nothing in this loop waits, or changes its test `{test}`. The loop ' + HALTS,
    'waits-at-once': '`{wait}` doesn\'t wait here: its test is about the event of this call, and stays the same until '
                     'the next call. The loop ' + HALTS + '; `yield_until` waits for the next call first',
    'only-pauses': 'this loop only pauses: it repeats many times in each moment, and other events are missed. Wait by '
                   '`yield_until` instead',
    'timer-never-set': 'no `set` gives the timer `{timer}` an interval: write `set {timer} 10;` before its first use',
    'timer-set-late': 'the timer `{timer}` is set only after this wait for it, so the wait never ends',
    'timer-set-once': 'the timer `{timer}` is set only above this loop. It is due once; write `reset {timer};` behind '
                      'this wait',
    'fired-of-ctimer': '`fired({timer})` is never true here: a `ctimer` runs its own block, and only an `etimer` posts '
                       'an event to its process',
    'event-never-posted': 'no process posts the event `{event}`, so `is({event})` is never true; for packets there is '
                          '`is(packet)`',
    'other-event': '`{part}` is about the event that ended the wait `{wait}` above it. Keep the value of another event '
                   'in a variable before this wait, or wait for both events by `||`',
    'two-events': '`{one}` and `{other}` are tests of two events, and a process is called with one event at a time, so '
                  'this test is {result} true',
    'never-negative': 'no number is below 0 (0 - 1 is 65,535), so `{test}` is {result} true',
    'difference-above-0': 'no number is below 0, so `{test}` doesn\'t compare `{left}` with `{right}`; `({left} {sign} '
                          '{right})` does',
    'compared-twice': '`{inner}` is 0 or 1, so `{test}` compares only this result; join two tests by `&&`',
    'too-large': '`{sum}` would be {value}, but the greatest value is 65,535: the result is {result}',
    'never-assigned': '`{variable}` is always {value} here: no statement assigns to it',
    'no-time': '`{value}` is {result}, so the timer is due {due}',
    'broadcast-stays': 'the program waits for packets, but this `broadcast` posts an event only to the processes of '
                       'its own mote; `send {value};` sends a packet by radio',
    'unused-program': 'no mote runs the program `{program}`',
    'out-of-range': 'mote {mote} has no other mote within `range`, so it neither reaches nor hears one',
    'loses-everything': 'mote {mote} waits for packets, but each link to it has a loss with `every = 1`, which loses '
                        'all of them',
    'loss-without-link': 'this loss loses nothing: mote {to} doesn\'t hear mote {sender}',
    'same-moment': 'mote {mote} sent {packets} packets at moment {at}, so they collided with each other at every '
                   'receiver; let the second one wait, `set t 1; yield_until fired(t);`',
    'used-up': 'mote {mote} halts at {at}: a kernel run used up its 10,000 units of work',
}
# Hints on errors of programs, and of scenarios.
HINTS = {
    'habit': '{why}',
    'small-letters': 'Names have small letters: `{name}`.',
    'two-values': 'Two values with `{sign}` between them are in parentheses: `{whole}`.',
    'one-value': 'Only an operation on two values has parentheses, `(a + b)`.',
    'missing': '`{sign}` is missing behind `{word}`.',
    'equals': '`=` assigns, and `==` compares.',
    'one-each': 'Each `{word}` has one {what}.',
    'late-part': '`{word}` is too late here. The parts of {whole} are in this order: {order}.',
    'open-block': 'The block of `{head}` has no `}}`.',
    'word-operators': 'The operators on tests are `&&`, `||` and `!`.',
    'question': '`{name}` is no value; `{whole}` asks about it.',
    'too-many': '`{sign}` is one too many.',
    'similar': 'Did you mean `{name}`?',
    'declare-above': 'No {kind} has this name. Declare it above the processes.',
    'declare-in-code': 'No {kind} has this name. Declare it at the head of `code {process}`.',
    'example': '`{word}` is written so: `{form}`',
    'no-equals': 'A key has `=` before its value.',
    'unit': 'A number has no unit: times are in moments.',
    'end-of-line': 'A line of a key ends behind its value.',
    'truth-values': 'The truth values are `true` and `false`.',
    'no-quotes': 'A text is in quotes.',
    'open-quotes': 'A text ends with the quotes with which it begins.',
    'comment': 'A comment of TOML begins with `#`.',
    'open-bracket': 'The name of a table is in brackets.',
    'brackets': 'Each mote and each loss is a table `[[mote]]` or `[[loss]]`; `[medium]` is one table.',
    'no-chance': 'Nothing happens by chance here: a loss `[[loss]]` from one mote to another loses every k-th packet '
                 '(`every = k`). docs/use/EXPERIMENTS.md has a tested pattern for losses by chance.',
    'other-key': 'The table has `{name}`: write `{wanted}`.',
    'scenario-needs': 'A scenario needs `{wanted}`.',
    'needs': 'The table needs `{wanted}`, such as `{wanted} = {value}`.',
    'version-2': '`{name}` belongs to version 2.',
    'no-key': 'There is no key `{name}` in this table.',
    'value': 'Write `{name} = {value}`.',
    'at-least': '`{name}` is at least {bound:,}.',
    'at-most': '`{name}` is at most {bound:,}.',
    'byte': '{why}',
    'report': 'This is a report, not a scenario: tools/summary, tools/compare and tools/timeline read it.',
    'program': 'In a scenario this text is under `[programs]`, between three quotes: `p = """ .. """`. Or a plan names '
               'the file of the program, and tools/scenario makes a scenario from the plan.',
}
# What a run does most, and what is said about it.
DOES = {
    'print': 'process {process} of mote {mote} prints {times:,} times: does a loop repeat without end?',
    'send': 'mote {mote} sends {times:,} packets: does a loop repeat without end?',
    'pause': 'process {process} of mote {mote} pauses {times:,} times: a `pause` lets no time pass, so a loop that '
             'only pauses repeats many times in each moment; let the process wait by `yield_until`.',
    'post': 'mote {mote} posts {times:,} events to process {process}: does a loop repeat without end?',
    'storm': 'the motes send {packets:,} packets, {times:,} of them mote {mote}: does each packet that arrives lead to '
             'another one?',
}
# What is known about the loop that used up the work of a mote.
OF_LOOP = '. The loop on line {line} of program {program} repeated {rounds} times in one call'
NAMES = tuple(TEXTS)
# Warnings about a 0 in a program: it may be the value of a parameter of a plan.
ABOUT_ZERO = frozenset(('never-negative', 'difference-above-0', 'never-assigned', 'no-time'))
MOST_PLACES = 8


def in_words(it: Warned) -> str:
    """The text of a warning, without its place."""
    facts = {'mote': it.mote, 'program': it.program, **dict(it.facts)}
    form = TEXTS[it.name] + (OF_LOOP if 'rounds' in facts else '')
    if not it.others:
        return form.format_map(facts)
    kind = 'loss' if it.mote is None else 'mote'
    kinds = kind if len(it.others) == 1 else kind + ('es' if kind == 'loss' else 's')
    shown = ', '.join(map(str, it.others[:MOST_PLACES])) + (', ..' if len(it.others) > MOST_PLACES else '')
    return '%s; the same is true of %d more %s: %s' % (form.format_map(facts), len(it.others), kinds, shown)


def with_name(it: Warned) -> str:
    """The text of a warning, with the name by which it is silenced."""
    return 'Warning (%s): %s' % (it.name, in_words(it))


def hint_in_words(it: Correction) -> str:
    return HINTS[it.code].format_map(it.facts)


def edits_in_words(edits: Sequence[Edit]) -> list[Shown]:
    """The lines of some edits. The last ones come first, because their numbers are still those of the text."""
    found = []
    for first, last, lines in reversed(edits):
        which = 'line %d' % first if first == last else 'lines %d to %d' % (first, last)
        head = ('Write, as %s:' if lines else 'Leave out %s.') % which
        head = 'Insert above line %d:' % first if last < first else head
        found += [Shown(head), *(Shown('  ' + line) for line in lines)]
    return found


def does_in_words(kind: str, mote: int, process: str, times: int, end: int, packets: int) -> str:
    """A sentence about what a run does most, up to a moment: so many times, or so many of all packets."""
    return ' Up to moment %d, %s' % (end, DOES[kind].format(mote=mote, process=process, times=times, packets=packets))
