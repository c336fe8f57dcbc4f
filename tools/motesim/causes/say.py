"""What is said about causes, fates, near misses and two runs: text, and JSON for other programs."""
from __future__ import annotations

from collections.abc import Iterator, Sequence
from typing import Any, NamedTuple

from motesim.cells import aligned
from motesim.judge.claim_words import period_text
from motesim.judge.hearing import unheard
from motesim.replay.endless import AT_ONCE, LETS_WAIT, MOST_WAITS, Endless, instead
from motesim.replay.mote import CTIMER, RING, SYSTEM, Frame, Link
from motesim.replay.program import Around, Program
from motesim.report import Line
from motesim.scenario.fault_text import read_faults
from motesim.scenario.fields import Field, in_words as in_fields, of_line
from motesim.causes.cause import Cause
from motesim.causes.chain import Hop, Path, path_of, received_before
from motesim.causes.fate import Fate
from motesim.causes.miss import Absent, Away, Miss, Moved, Passed, Unheard, Untaken, Waiting
from motesim.causes.question import Asked, Missing
from motesim.causes.source import At, Source
from motesim.causes.spread import Onward, Spread
from motesim.causes.state import State, Wait, call_now, wait_of
from motesim.causes.watch import Given

WIDEST = 60
# The reason for a collision with more packets names only their number.
MOST_MET = 3
# The calls that have their own line; and the most calls without a line that a reason names.
HAVE_LINES, MOST_CALLS = ('take', 'init', 'boot'), 8
OUTCOME_WORDS = {'received': 'arrived', 'lost': 'was lost', 'overflowed': 'found the radio full',
                 'collided': 'collided', 'halted': 'came to a halted mote', 'left': 'was left at the end'}
WAITS = {'left': 'has left', 'unstarted': 'is not started', 'called': 'is being called',
         'begins': 'begins at its next call'}
FATES = {
    'taken': '%(process)s took it at %(at)d',
    'dropped': 'its event was dropped at %(at)d, because %(process)s was not on the process list',
    'waiting': 'its event is still in the queue at the end',
    'forgotten': 'mote %(mote)d booted again at %(at)d, before its event was taken',
    'untaken': 'mote %(mote)d halted at %(at)d, before its event was taken',
    'full': 'it was received, but the event queue was full',
    'deaf': 'it was received, but the program has no receiver',
    'unhandled': 'it was received, but mote %(mote)d halted before its radio process ran',
    'halted': 'it arrived at %(at)d, and mote %(mote)d had halted at %(last)d',
    'overflowed': 'it arrived at %(at)d, when %(ring)d packets were waiting',
    'collided': 'it collided at %(at)d with %(others)s',
    'left': 'it would arrive at %(at)d, after the end',
    'lost': 'the medium lost it, because %(rule)s',
    'unheard': 'mote %(to)d does not hear mote %(sender)d',
}


def count(number: int, one: str) -> str:
    return '%d %s' % (number, one if number == 1 else one + 's')


# Statements

def in_words(program: Program, number: int) -> str:
    """A statement of a program, with its line."""
    it = program.statement(number)
    text = it.text if len(it.text) <= WIDEST else it.text[:WIDEST - 3] + '...'
    return '%s: `%s`' % (program.line(it.line), text)


def places_as_json(source: Source) -> dict[str, int]:
    """The places of statements in the programs' file, as texts name them, each with its line of the file."""
    return {program.line(it.line): program.place.above + it.line for program in source.programs.values()
            if program.place for it in program.statements}


def used_up(source: Source, mote: int) -> list[str]:
    """The loop that used up the work of a mote that halted; an empty list if no loop did."""
    program, found = source.program(mote), source.loop(mote)
    if found and found.waits:
        return [in_rounds(program, found) + ', and '.join(
            '%s never waited, because its condition was %s each time' % (
                in_words(program, it), AT_ONCE[program.statement(it).kind]) for it in found.waits[:MOST_WAITS]
        ) + ': %s waits for the next call first' % instead(program, found.waits[0])]
    return [in_rounds(program, found) + 'nothing in its block waited: ' + LETS_WAIT] if found else []


def in_rounds(program: Program, found: Endless) -> str:
    return '%s repeated %s in this call, and ' % (in_words(program, found.loop), count(found.rounds, 'time'))


def led_by(program: Program, number: int) -> str:
    """The `if` that led to a statement: the innermost one around it, with its line."""
    for around in reversed(program.statement(number).around):
        if program.statement(around.number).kind == 'if':
            return ', in %s%s' % ('the `else` of ' if around.is_else else '', in_words(program, around.number))
    return ''


# Causes

class Reasons:
    """The reasons for the lines of one mote."""

    def __init__(self, source: Source, mote: int):
        self.source, self.mote = source, mote
        self.lines, self.program = source.traces.lines(mote), source.program(mote)

    def name(self, process: int) -> str:
        return SYSTEM[process] if process < 0 else self.program.processes[process].name

    def event(self, frame: Frame) -> str:
        if frame.event == 'timer':
            return 'timer %s' % self.program.timers[frame.word].name if frame.word < len(
                self.program.timers) else 'timer %d' % frame.word
        if frame.event == 'exited':
            return 'exited %s' % self.name(frame.word)
        if frame.event in ('init', 'poll'):
            return frame.event
        return '%s %d' % (frame.event, frame.word)

    def calls(self, frame: Frame | None) -> Iterator[str]:
        """The calls that have no line, beginning with the innermost one; only the last few calls, because a process
        that polls itself has very many."""
        for _ in range(MOST_CALLS):
            if not frame or frame.how in HAVE_LINES:
                return
            by = self.name(frame.made_by.process) if frame.made_by else 'the kernel'
            place = ' in %s' % in_words(self.program, frame.row) if frame.row else ''
            if frame.how == 'callback':
                yield 'the callback of timer %s' % self.program.timers[frame.word].name
            elif frame.how == 'poll':
                yield '%s was polled by %s%s' % (self.name(frame.process), by, place)
            elif frame.how == 'exited':
                yield '%s is called, because %s exits%s' % (self.name(frame.process), self.name(frame.word), place)
            elif frame.how == 'exit':
                yield '%s was killed by %s%s' % (self.name(frame.process), by, place)
            else:
                yield '%s was called by %s with %s%s' % (self.name(frame.process), by, self.event(frame), place)
            frame = frame.made_by
        if frame and frame.how not in HAVE_LINES:
            yield 'and so on, by more such calls'

    def of_call(self, kind: str, link: Link) -> str:
        """The reason for a line that was written in a call."""
        frame = link.frame
        if kind == 'leave' and not link.row and frame:
            own = '%s %s' % (self.name(frame.process),
                             'was called with exit' if frame.event == 'exit' else 'ended')
        elif kind == 'halt':
            own = '; '.join(['the work of this run of the kernel was used up', *used_up(self.source, self.mote)])
        elif link.row and frame:
            own = '%s, %s%s' % (self.name(frame.process), in_words(self.program, link.row),
                                led_by(self.program, link.row))
        else:
            own = 'the mote boots'
        return '; '.join([own, *self.calls(frame)])

    def of_timer(self, line: Line, link: Link) -> str:
        due = max(link.since + link.interval, link.since)
        reason = 'timer %s was due' % self.program.timers[line.word or 0].name
        if line.at > due:
            reason += ' at %d, and its event is offered until the queue has room; it was due' % due
        if due > link.since:
            reason += ' %s after' % count(due - link.since, 'moment')
        else:
            reason += ' as soon as'
        reason += ' %s set it in %s' % (self.name(link.frame.process) if link.frame else 'the mote',
                                        in_words(self.program, link.row) if link.row else '')
        return '; '.join([reason, *self.calls(link.frame)])

    def because(self, place: int, link: Link) -> str:
        """The reason for a line, or for the head, in a sentence without a full stop."""
        if link.how == 'start':
            return 'the start'
        line = self.lines[place]
        if link.how == 'boots':
            its = [it.text for it in self.source.offs(self.mote) if it.numbers.get('END') == line.at]
            return its[0] if its else 'the mote boots again'
        if link.how == 'boot':
            return 'a process of the system' if line.process in SYSTEM.values() else 'in the list of autostart'
        if link.how == 'timer':
            return self.of_timer(line, link)
        if link.how == 'packet':
            return 'the radio process hands on ' + of_packet(self.lines[link.line])
        if link.how == 'posted':
            if line.kind == 'drop':
                return 'event %d was dropped: %s was not on the process list' % (line.serial or 0, line.process)
            later = line.at - self.lines[link.line].at
            return 'event %d was next in the queue%s' % (
                line.serial or 0, ', %s after it was posted' % count(later, 'moment') if later else '')
        return self.of_copy(place) if link.how == 'medium' else self.of_call(line.kind, link)

    def of_copy(self, place: int) -> str:
        """The reason why a packet arrived, and its fate."""
        line, traces = self.lines[place], self.source.traces
        sent = traces.sent(line)
        reason = '%s arrived after %s on the way' % (
            of_packet(line), count(line.at - (traces.moment(sent) if sent else 0), 'moment'))
        if line.kind == 'lost':
            return reason + ', but eight packets were waiting already'
        if line.kind == 'collide':
            return reason + ', together with ' + others(self.source, At(self.mote, place))
        return reason


def of_packet(line: Line) -> str:
    return 'packet %s of mote %s' % (line.number, line.sender)


def others(source: Source, where: At) -> str:
    """The packets with which the packet of a line collides."""
    met = source.traces.collisions(where.mote, source.traces.moment(where))
    if len(met) > MOST_MET + 1:
        return count(len(met) - 1, 'other packet')
    lines = source.traces.lines(where.mote)
    return ' and '.join(of_packet(lines[place]) for place in met if place != where.place) or 'another packet'


def because(source: Source, hop: Hop) -> str:
    """The reason for a line of a chain."""
    return Reasons(source, hop.where.mote).because(hop.where.place, hop.link)


def words_of(source: Source, where: At) -> str:
    """The text of a line after its moment, or of a head."""
    text = source.traces.text(where)
    return text if where.place < 0 else text.partition(' ')[2]


def of_path(it: Path) -> str:
    names = {'timer': ('waiting for %s', 'timer'), 'medium': ('on the way, over %s', 'hop'),
             'queue': ('in queues', ''), 'full': ('for timers that found the queue full', '')}
    parts = []
    for kind, (reason, what) in names.items():
        moments, times = it.waits[kind]
        if times or kind in ('timer', 'medium'):
            parts.append('%d %s' % (moments, reason % count(times, what) if what else reason))
    return '%s: %s' % (count(it.moments, 'moment'), ', '.join(parts))


def on_values(source: Source, hops: list[Hop]) -> str:
    """The remark on a packet by which a mote of the chain may have learned the value; empty if there is none."""
    found = received_before(source, hops)
    if found is None:
        return ''
    line = source.traces.line(found)
    return ('Mote %d had received the value %s before, in %s at %d. The chain follows events, not values: to follow '
            'that packet, ask about line %d.' % (found.mote, line.value, of_packet(line), line.at,
                                                 source.traces.row(found)))


def rows_of_chain(source: Source, hops: list[Hop], fields: Sequence[Field] = ()) -> list[str]:
    """A chain as text, a line for each hop, with the fields of its value."""
    table = [('moment', 'mote', 'line', ' ', '')]
    for hop in hops:
        words = words_of(source, hop.where)
        table.append((str(hop.at), str(hop.where.mote), str(hop.row), ' %s%s' % (words, of_line(fields, words)),
                      ' ' + because(source, hop)))
    return list(aligned(table, [3, 4]))


def chain_as_json(source: Source, hops: list[Hop]) -> dict[str, Any]:
    """A chain for programs."""
    path = path_of(hops)
    places = [source.program(hop.where.mote).place if hop.program_row else None for hop in hops]
    return {
        'line': hops[0].row, 'mote': hops[0].where.mote, 'at': hops[0].at, 'words': words_of(source, hops[0].where),
        'chain': [{
            'mote': hop.where.mote, 'line': hop.row, 'at': hop.at, 'words': words_of(source, hop.where),
            'how': hop.link.how, 'because': because(source, hop), 'waited': hop.waited, 'for': hop.wait or None,
            'program': hop.program or None, 'program_line': hop.program_row or None,
            'file': place.file if place else None, 'file_line': place.above + hop.program_row if place else None,
        } for hop, place in zip(hops, places)],
        'path': {'moments': path.moments, **{kind: {'moments': its[0], 'times': its[1]}
                                             for kind, its in path.waits.items()}},
    }


# Fates

def of_fate(source: Source, it: Fate) -> str:
    """The fate of a copy, or of an event."""
    where, (sender, number, to) = it.where, it.copy
    off = source.off(where.mote, it.at) if where and it.what == 'halted' else None
    if off:
        return 'it arrived at %d, and %s' % (it.at, off.text)
    return FATES[it.what] % {
        'process': it.process, 'at': it.at, 'mote': where.mote if where else to, 'ring': RING, 'sender': sender,
        'to': to, 'last': source.traces.moment(where) if where else 0, 'rule': rule_of(source, sender, number, to),
        'others': others(source, where) if where and it.what == 'collided' else ''}


def rule_of(source: Source, sender: int, packet: int, to: int) -> str:
    """The reason why the medium lost a packet of a mote on its way to another one: a fault, or a loss of the
    scenario."""
    fault = next((it for it in read_faults(source.scenario.faults) if it.loses(sender, packet, to)), None)
    if fault:
        return fault.text
    every = source.scenario.losses.get((sender, to), 0)
    return 'it loses %s from %d to %d' % ('all packets' if every == 1 else 'one packet in %d' % every, sender, to)


# Lines that aren't there

def times(number: int) -> str:
    return {1: 'once', 2: 'twice'}.get(number, '%d times' % number)


def of_miss(source: Source, miss: Miss) -> str:
    """A near miss."""
    program = source.program(miss.mote)
    if isinstance(miss.facts, Passed):
        return of_passed(program, miss.facts)
    match miss.facts:
        case Moved() as it:
            return '`%s`, at %d: %s too %s' % (
                str(it.line).partition(' ')[2], it.line.at, count(abs(it.line.at - it.limit), 'moment'),
                'early' if miss.kind == 'early' else 'late, because the expectation allows up to %d' % it.limit)
        case Unheard() as it:
            return 'it cannot hear mote %d: %s' % (it.sender, unheard(source.scenario, miss.mote, it.sender))
        case Spread():
            return of_spread(source, miss.mote, miss.facts)
        case Untaken(packet, fate):
            return 'packet %d of mote %d, with the value %d%s, was sent at %d: %s' % (
                packet.number, packet.sender, packet.value, in_fields(source.scenario.fields, packet.value), packet.at,
                of_fate(source, fate))
        case Absent() as it:
            whose = 'process %s' % it.process if it.process else 'program %s' % source.traces.programs[miss.mote]
            rest = ' that could have this value' if it.has_others else ''
            return 'its %s has no `%s`%s' % (whose, it.statement, rest)
        case Away() as it:
            if it.line and it.line.kind == 'leave':
                return '%s had left at %d' % (it.process, it.line.at)
            return 'its process %s was not there %s' % (
                it.process, 'up to %d: it started at %d' % (it.until, it.line.at) if it.line else 'at any moment')
        case Waiting() as it:
            words = '%s %s at %s from %d%s' % (
                it.process, 'has waited' if it.until is None else 'waited', in_words(program, it.statement), it.since,
                '' if it.until is None else ' until %d' % it.until)
            return words + ('; its condition was tested %s in this time, and was never true' % times(it.tests)
                            if it.tests else ', and nothing called it in this time')
    return '; '.join(['it halted at %d' % source.traces.lines(miss.mote)[-1].at, *used_up(source, miss.mote)])


def of_spread(source: Source, mote: int, it: Spread) -> str:
    """How far a value came: the nearest mote that sent it, and what became of its copies for nearer motes."""
    said = 'the value %d%s came as far as mote %d, which sent it %s%s' % (
        it.value, in_fields(source.scenario.fields, it.value), it.sender, times(it.times),
        ', at %d' % it.last if it.times == 1 else ', the last time at %d' % it.last)
    if not it.copies:
        return '%s; no packet of mote %d can reach mote %d, also not through others' % (said, it.sender, mote)
    return '; '.join([said, *(of_onward(source, copies) for copies in it.copies)])


def of_onward(source: Source, it: Onward) -> str:
    """What became of the copies for a mote."""
    total, last = sum(number for _, number in it.outcomes), of_fate(source, it.last)
    if it.last.is_received or it.last.what in ('taken', 'waiting'):
        return 'mote %d received it, and sent it no further' % it.to
    if total == 1:
        return 'the copy for mote %d: %s' % (it.to, last)
    if len(it.outcomes) == 1:
        return 'each copy for mote %d %s; the last: %s' % (it.to, OUTCOME_WORDS[it.outcomes[0][0]], last)
    return 'of %d copies for mote %d, %s; the last: %s' % (
        total, it.to, ', '.join('%d %s' % (number, OUTCOME_WORDS[what]) for what, number in it.outcomes), last)


def of_passed(program: Program, it: Passed) -> str:
    """How often a statement was reached, and the condition that led around it."""
    reached = it.reached
    number = 'reached %s' % times(reached.number) if reached.number else 'never reached'
    words = '%s was %s%s' % (in_words(program, it.statement), number, period_text(reached.span))
    words += ', the last time at %d' % reached.last if reached.number else ''
    if it.around is None:
        return words
    return '%s; %s was tested %s%s, and %s, at %d' % (
        words, in_words(program, it.around.number), times(it.tested.number), period_text(it.tested.span),
        ('was never %s, the last time' if it.is_never else 'was not %s the last time') % wanted(it.around),
        it.tested.last)


def wanted(around: Around) -> str:
    """The result of a condition that leads to a statement."""
    return 'false' if around.is_else else 'true'


def misses_as_json(source: Source, missing: Missing, found: list[tuple[int, list[Miss]]]) -> dict[str, Any]:
    """The near misses for programs."""
    return {
        'holds': False, 'about': missing.remark, 'line': None, 'from': missing.span[0], 'to': missing.span[1],
        'motes': [{'mote': mote, 'misses': [{'kind': it.kind, 'words': of_miss(source, it), 'line': it.row or None}
                                            for it in its]} for mote, its in found],
    }


def rows_of_misses(source: Source, missing: Missing, found: list[tuple[int, list[Miss]]]) -> list[str]:
    """The near misses as text."""
    lines = [missing.remark]
    for mote, its in found:
        lines += ['', 'Near misses at mote %d:' % mote]
        lines += ['  %s%s' % (of_miss(source, it), ' (line %d of the report)' % it.row if it.row else '') for it in its]
        if not its:
            lines.append('  none was found')
    return lines


def of_cause(it: Cause) -> str:
    """The nearest cause for which a run breaks a sentence; an empty text if there is none."""
    if it.source is None or it.nearest is None:
        return ''
    return because(it.source, it.nearest) if isinstance(it.nearest, Hop) else of_miss(it.source, it.nearest)


# Questions

def about(source: Source, it: Asked) -> str:
    """The remark on the line that a question is about; an empty text if there is none."""
    packet = 'this line sent the packet of `%s`, in the log of the medium' % source.traces.report.row(
        it.medium_row) if it.medium_row else ''
    last = 'mote %d is the last of them' % it.where.mote if it.is_last else ''
    holds = 'the expectation holds, and this line shows it' if it.is_answer and it.holds else ''
    return '; '.join(filter(None, [packet, holds, last, it.why, *(
        'the copy for mote %d: the medium lost it, because %s' % (to, rule_of(
            source, it.where.mote, source.traces.line(it.where).number or 0, to)) for to in it.lost)]))


# States and values

def heading(source: Source, it: State) -> str:
    mote, where = it.replay.mote, it.where
    if where is None:
        return 'mote %d at the end of moment %d' % (mote, it.at)
    return 'mote %d after line %d: %s' % (mote, source.traces.row(where), source.traces.text(where))


def of_wait(program: Program, it: Wait) -> str:
    """The state of a process."""
    return WAITS.get(it.how) or 'waits at %s' % ', in '.join(in_words(program, one) for one in reversed(it.statements))


def state_as_json(it: State) -> dict[str, Any]:
    """A state for programs, and for the pages."""
    replay, program = it.replay, it.replay.program
    timers = []
    for number, timer in enumerate(replay.timers):
        if number in replay.timer_list:
            owner = program.timers[number].process if timer.owner == CTIMER else timer.owner
            timers.append({'number': number, 'name': program.timers[number].name, 'due': timer.due,
                           'process': replay.name(owner), 'set_at': timer.since,
                           'set_by': in_words(program, timer.row) if timer.row else None})
    processes = []
    for number, process in enumerate(program.processes):
        wait = wait_of(replay, number)
        processes.append({
            'name': process.name, 'started': number in replay.list, 'waits': of_wait(program, wait),
            'program_line': program.statement(wait.statements[-1]).line if wait.statements else None,
            'variables': dict(replay.variables[number]),
            'polled': number in replay.needs_poll})
    return {
        'mote': replay.mote, 'at': it.at, 'halted': replay.is_halted, 'call': call_now(replay), 'processes': processes,
        'timers': sorted(timers, key=lambda it: (it['due'], it['number'])),
        'queue': [{'serial': event.serial, 'for': replay.name(event.target), 'event': event.event, 'word': event.word,
                   'from': event.sender, 'posted_at': int(replay.trace[event.line].partition(' ')[0])}
                  for event in ([replay.taken] if replay.taken else []) + replay.events],
        'semaphores': dict(zip(program.semaphores, replay.counts)),
        'waiting_packets': len(replay.ring),
    }


def call_in_words(call: dict[str, Any], processes: list[dict[str, Any]]) -> str:
    """A call, `b, called with timer 0`."""
    if call['how'] == 'callback':
        return '%s, in the callback of its timer' % call['process']
    event = ('exited: %s has exited' % processes[call['word']]['name'] if call['how'] == 'exited' else
             call['event'] if call['event'] in ('init', 'exit', 'poll') else '%(event)s %(word)d' % call)
    return '%s, called with %s' % (call['process'], event)


class Row(NamedTuple):
    """A line about a state, and whether it is about a variable that is changed next."""
    text: str
    is_changed: bool = False


def rows_of_state(state: dict[str, Any], changed: Sequence[str] = ()) -> Iterator[Row]:
    """A state as text, with a mark at the variables that are changed next."""
    if state['halted']:
        yield Row('  it has halted')
        return
    if state['call']:
        yield Row('  runs now: ' + call_in_words(state['call'], state['processes']))
    for it in state['processes']:
        yield Row('  process %s %s%s' % (it['name'], it['waits'], ', and is to be polled' if it['polled'] else ''))
        for name, value in it['variables'].items():
            is_changed = '%s.%s' % (it['name'], name) in changed
            yield Row('    %s = %d%s' % (name, value, ' (changed)' if is_changed else ''), is_changed)
    for it in state['timers']:
        left = it['due'] - state['at']
        when = 'in %d moments' % left if left > 1 else 'in 1 moment' if left else 'now'
        yield Row('  timer %s of %s is due at %d, %s; set at %d in %s' % (
            it['name'], it['process'], it['due'], when if left >= 0 else 'and waits for room in the queue',
            it['set_at'], it['set_by']))
    if not state['timers']:
        yield Row('  no timer runs')
    for it in state['queue']:
        yield Row('  event %d waits: %s %d for %s, posted at %d' % (
            it['serial'], it['event'], it['word'], it['for'], it['posted_at']))
    if not state['queue']:
        yield Row('  the event queue is empty')
    if state['waiting_packets']:
        yield Row('  %s waiting for the radio process' % count(state['waiting_packets'], 'packet'))
    for pair in state['semaphores'].items():
        yield Row('  semaphore %s = %d' % pair)


def rows_of_values(values: list[Given]) -> list[str]:
    """The values of variables as a table."""
    table = [('moment', 'mote', 'line', ' variable', ' value')]
    table += [(str(it.at), str(it.mote), str(it.row) if it.row else '-', ' %s.%s' % (it.process, it.variable),
               ' %d' % it.value) for it in values]
    return list(aligned(table, [3]))


def values_as_json(values: list[Given]) -> list[dict[str, Any]]:
    return [{'at': it.at, 'mote': it.mote, 'line': it.row or None, 'process': it.process, 'variable': it.variable,
             'value': it.value} for it in values]
