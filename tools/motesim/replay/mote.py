"""Runs the program of one mote again along its trace, and notes the cause of each line: docs/use/KERNEL.md.

The replay reads the mote's arrivals from its trace; everything else follows from its program. Each line that the
replay writes has to be the next line of the trace, so its notes are about exactly this run. If the trace continues
differently, the replay raises a `Parted`: then it isn't the trace of this program.

A protothread is a generator, which yields when it waits.
"""
from __future__ import annotations

from collections.abc import Container, Iterator
from contextlib import suppress
from dataclasses import dataclass
from typing import NamedTuple, NoReturn

from motesim.faults import Fault
from motesim.replay.program import Block, Program, Statement

UNITS, RUNS, RING, QUEUE = 10_000, 64, 8, 32
# The latest start that `reset` gives a timer of motesim.
LATEST_START = 2 ** 62
BOOT = -1
ETIMER, CTIMER, RADIO = -3, -2, -1
SYSTEM = {ETIMER: 'etimer', CTIMER: 'ctimer', RADIO: 'radio'}


class Parted(Fault):
    """The trace isn't that of the program."""


class Halted(Exception):
    """The mote halts."""


class Off(Exception):
    """The mote is off until it boots again."""


class Stopped(Exception):
    """The mote has written the wanted number of lines."""


class Exit(Exception):
    """A protothread ends."""


class Restart(Exception):
    """A protothread begins again at its first statement."""


class Frame(NamedTuple):
    """A call of a process, or of a handler.

    process  its number
    event    the event of the call, its word and its sender
    how      init, take, poll, synch, exited, exit or callback; boot for the first steps of the kernel
    line     the last line of the trace that led to the call: its `start` or `take`, or, if the call writes none, the
             line of the call that made it
    made_by  the call that made this one; None if the kernel made it
    row      the statement of the program that made the call, by its number from 1; 0 if none did
    """
    process: int
    event: str
    word: int
    sender: int
    how: str
    line: int
    made_by: Frame | None = None
    row: int = 0


class Link(NamedTuple):
    """The cause of a line.

    how    boot      the mote boots
           boots     the mote boots again, after a fault
           call      its process wrote it in a call (`frame`)
           posted    the line `line` posted the event
           timer     a timer was due, which was set in a call (`frame`) at the moment `since`, for `interval` moments
           packet    the radio process hands the packet of the line `line` to the receiver
           medium    a packet arrived
    line   the line of this mote that is the cause, or BOOT; BOOT for `medium`, because the cause is a line of another
           mote
    """
    how: str
    line: int
    frame: Frame | None = None
    row: int = 0
    since: int = 0
    interval: int = 0


class Change(NamedTuple):
    """A variable of a process got a value after this many lines of the trace."""
    lines: int
    at: int
    process: int
    variable: str
    value: int


class Called(NamedTuple):
    """A call of a process began, or ended: then `waits` has the numbers of the statements at which it waits, from its
    body into its threads; none if it has ended."""
    process: int
    at: int
    waits: tuple[int, ...] | None = None


class Reached(NamedTuple):
    """A statement was reached at a moment; or its condition was tested, with the result `holds`."""
    at: int
    statement: int
    holds: bool | None = None


@dataclass
class Timer:
    """A timer of the mote, and the call in which it was set last."""
    start: int = 0
    interval: int = 0
    owner: int | None = None
    frame: Frame | None = None
    row: int = 0
    since: int = 0

    @property
    def due(self) -> int:
        return self.start + self.interval


class Event(NamedTuple):
    """An event in the queue, and the line that posted it."""
    serial: int
    target: int | None
    event: str
    word: int
    sender: int
    line: int


# The kinds of lines that have more text after the kind which the replay reads.
ARRIVALS = {'recv', 'lost', 'collide'}
Body = Iterator[None]


class Replay:
    """A mote that runs again. `links` has the cause of each line of its trace."""

    def __init__(self, program: Program, mote: int, queue: int, trace: list[str]):
        self.program, self.room, self.trace = program, queue, trace
        self.mote: int = mote
        self.count = len(trace)
        # (the lines with which further lives begin)
        self.boots = [place for place, line in enumerate(trace) if line.endswith(' boots')]
        self.lines = 0
        # (the number of wanted lines, or None to run to the end)
        self.last = -1
        self.links: list[Link] = []
        self.changes: list[Change] = []
        self.calls: list[Called] = []
        self.now: int = 0
        self.sent = 0
        # (a fault may let the mote boot later)
        self.begin_life(int(trace[0].partition(' ')[0]) if trace else 0, BOOT)

    def begin_life(self, at: int, line: int) -> None:
        """The mote boots at a moment; the line is the cause of its first lines."""
        program = self.program
        self.begin, self.boot_line, self.units = at, line, 0
        self.variables: list[dict[str, int]] = [dict(it.variables) for it in program.processes]
        self.counts: list[int] = [*program.semaphores.values()]
        self.list: list[int] = []
        own = len(program.processes)
        self.state: dict[int, int] = {number: 0 for number in range(-3, own)}
        self.is_busy = dict.fromkeys(self.state, False)
        # (for each process with a pending poll, the call that polled it first, and the line of the program)
        self.needs_poll: dict[int, tuple[Frame | None, int]] = {}
        self.is_poll_requested = False
        self.born = dict.fromkeys(self.state, 0)
        self.bodies: dict[int, Body] = {}
        self.waits = [0] * own
        # (the statements by which the threads of a process were spawned, from its body on)
        self.spawned: list[list[int]] = [[] for _ in range(own)]
        self.current = 0
        self.events: list[Event] = []
        # (the event that is taken next; its place in the queue is already free)
        self.taken: Event | None = None
        self.serial = 0
        self.ring: list[tuple[int, int, int]] = []
        self.timers: list[Timer] = [Timer() for _ in program.timers]
        self.timer_list: list[int] = []
        self.callbacks: set[int] = set()
        self.frame: Frame | None = None
        self.boot_frame = Frame(0, 'boot', 0, 0, 'boot', line)
        self.is_halted = False

    # Lines

    def name(self, process: int | None) -> str:
        if process is None:
            return 'all'
        return SYSTEM[process] if process < 0 else self.program.processes[process].name

    def write(self, words: str, link: Link) -> int:
        """Checks that the next line of the trace has this text."""
        at = self.lines
        if at == self.last:
            raise Stopped
        if at >= self.count or self.trace[at] != '%d %s' % (self.now, words):
            if at in self.boots:
                raise Off
            self.part('%d %s' % (self.now, words))
        self.links.append(link)
        self.lines = at + 1
        return at

    def part(self, expected: str) -> NoReturn:
        found = "'%s'" % self.trace[self.lines] if self.lines < self.count else 'its end'
        raise Parted("the trace of mote %d isn't that of its program: line %d of it should be '%s', but there is %s" %
                     (
            self.mote, self.lines + 1, expected, found))

    def of_call(self, row: int) -> Link:
        """The cause of a line that is written in a call."""
        frame = self.frame
        return Link('call', frame.line, frame, row) if frame else Link('boot', self.boot_line)

    # Work

    def unit(self) -> None:
        if not self.units:
            self.halt()
        self.units -= 1

    def halt(self) -> NoReturn:
        self.write('halt', self.of_call(0))
        self.is_halted = True
        raise Halted

    def resume(self, process: int) -> None:
        """Continues a protothread at its wait: costs a unit for each spawn on the way to the wait, and one for the
        wait."""
        for _ in range(len(self.spawned[process]) + 1):
            if not self.units:
                self.halt()
            self.units -= 1
        self.waits[process] = 0

    def begin_again(self, process: int) -> None:
        """Calls a protothread after `restart`: costs a unit for each spawn on the way to it."""
        for _ in self.spawned[process]:
            self.unit()
        self.waits[process] = 0

    # Processes

    @property
    def called(self) -> Frame:
        """The call that runs now."""
        assert self.frame
        return self.frame

    def run(self, process: int, frame: Frame) -> bool:
        """Runs a process with an event. Returns whether it has ended."""
        if process < 0:
            self.run_system(process, frame)
            return False
        self.run_block(self.program.processes[process].blocks.get('on' + frame.event, []))
        return next(self.bodies[process], True) is True

    def call(self, process: int, event: str, word: int, sender: int, how: str, row: int, line: int | None = None
             ) -> None:
        """Calls a running process. `line` is the line that caused the call, if that isn't the line of the present
        call."""
        if self.state[process] != 1:
            return
        before, current = self.frame, self.current
        if line is None:
            line = before.line if before else self.boot_line
        self.frame = frame = Frame(process, event, word, sender, how, line, before, row)
        self.unit()
        self.state[process], self.current, self.is_busy[process] = 2, process, True
        self.calls.append(Called(process, self.now))
        if self.run(process, frame) or event == 'exit':
            self.exit(process, process, 0)
        else:
            self.state[process] = 1
        self.is_busy[process] = False
        self.calls.append(Called(process, self.now, self.waiting_at(process)))
        self.frame, self.current = before, current

    def waiting_at(self, process: int) -> tuple[int, ...]:
        """The statements at which a protothread waits."""
        return () if process < 0 or not self.state[process] else (*self.spawned[process], self.waits[process])

    def walk(self) -> list[tuple[int, int]]:
        """The processes that are on the list now, each with its incarnation."""
        return [(it, self.born[it]) for it in self.list]

    def is_there(self, process: int, born: int) -> bool:
        return process in self.list and self.born[process] == born

    def exit(self, process: int, by: int, row: int) -> None:
        """Makes a process exit, on behalf of another process or of itself."""
        self.state[process] = 0
        for other, born in self.walk():
            if other != process and self.is_there(other, born):
                self.call(other, 'exited', process, 0, 'exited', row)
        if process != by:
            self.unit()
            before, current = self.frame, self.current
            line = before.line if before else self.boot_line
            self.frame = frame = Frame(process, 'exit', 0, 0, 'exit', line, before, row)
            self.current = process
            self.calls.append(Called(process, self.now))
            self.run(process, frame)
            self.calls.append(Called(process, self.now, ()))
            self.frame, self.current = before, current
        self.write('leave %s' % self.name(process), self.of_call(row))
        self.list.remove(process)

    def start(self, process: int, row: int) -> None:
        if self.is_busy[process]:
            self.write('busy %s' % self.name(process), self.of_call(row))
        elif process not in self.list:
            line = self.write('start %s' % self.name(process), self.of_call(row))
            self.list.insert(0, process)
            self.born[process] += 1
            self.state[process] = 1
            if process >= 0:
                self.spawned[process] = []
                self.waits[process] = 0
                self.bodies[process] = self.protothread(self.program.processes[process].blocks['body'])
            self.call(process, 'init', 0, 0, 'init', row, line)

    def kill(self, process: int, row: int) -> None:
        if self.is_busy[process]:
            self.write('busy %s' % self.name(process), self.of_call(row))
        elif process in self.list:
            self.is_busy[process] = True
            self.exit(process, self.current, row)
            self.is_busy[process] = False

    def ask_poll(self, process: int, by: Frame | None, row: int = 0) -> None:
        if self.state[process]:
            self.needs_poll.setdefault(process, (by, row))
            self.is_poll_requested = True

    # Events

    def post(self, target: int | None, event: str, word: int, row: int) -> int:
        return self.queue(target, event, word, 0, self.of_call(row))

    def queue(self, target: int | None, event: str, word: int, sender: int, link: Link) -> int:
        """Posts an event. Returns 0 if it is accepted, otherwise 1."""
        if len(self.events) >= self.room:
            self.write('full %s %s %d' % (self.name(target), event, word), link)
            return 1
        line = self.write('post %d %s %s %d' % (self.serial, self.name(target), event, word), link)
        self.events.append(Event(self.serial, target, event, word, sender, line))
        self.serial += 1
        return 0

    # Statements

    def reach(self, it: Statement) -> None:
        """A statement is reached."""

    def test(self, it: Statement, value: int) -> bool:
        """Returns whether the condition of a statement is true, by its value."""
        return value != 0

    def protothread(self, block: Block) -> Body:
        """A body or a thread."""
        while True:
            try:
                yield from self.block(block)
                return
            except Exit:
                return
            except Restart:
                pass

    def run_block(self, block: Block) -> None:
        """Runs a block in which no statement waits."""
        for _ in self.block(block):
            raise AssertionError('a statement waits')

    def block(self, block: Block) -> Body:
        for it in block:
            self.unit()
            self.reach(it)
            if it.its.has_blocks:
                yield from self.branch(it)
            elif it.its.waits:
                yield from self.waiting(it)
            else:
                self.do(it)

    def branch(self, it: Statement) -> Body:
        while self.test(it, it.value(self)):
            yield from self.block(it.block)
            if it.kind == 'if':
                return
            self.unit()
        yield from self.block(it.otherwise)

    def waiting(self, it: Statement) -> Body:
        """A statement that may wait."""
        match it.kind:
            case 'yield':
                yield from self.wait(it)
            case 'yield_until':
                yield from self.wait(it)
                while not self.test(it, it.value(self)):
                    yield from self.wait(it)
            case 'wait_until':
                while not self.test(it, it.value(self)):
                    yield from self.wait(it)
            case 'wait_while':
                while not self.test(it, not it.value(self)):
                    yield from self.wait(it)
            case 'pause':
                self.post(it.process, 'continue', 0, it.number)
                yield from self.wait(it)
                while not self.test(it, self.called.event == 'continue'):
                    yield from self.wait(it)
            case 'acquire':
                while not self.test(it, self.counts[it.target]):
                    yield from self.wait(it)
                self.counts[it.target] -= 1
            case 'spawn':
                self.spawned[it.process].append(it.number)
                yield from self.protothread(self.program.processes[it.process].threads[it.its.name])
                self.spawned[it.process].pop()
            case 'exit':
                raise Exit
            case 'restart':
                self.waits[it.process] = it.number
                yield
                self.begin_again(it.process)
                raise Restart

    def wait(self, it: Statement) -> Body:
        """Waits for the next call."""
        self.waits[it.process] = it.number
        yield
        self.resume(it.process)

    def do(self, it: Statement) -> None:
        """A statement that doesn't wait."""
        value = it.value(self)
        match it.kind:
            case '=':
                self.assign(it, it.its.name, value)
            case 'print':
                self.write('print %s %d' % (self.name(it.process), value), self.of_call(it.number))
            case 'send':
                self.write('send %d %d' % (self.sent, value), self.of_call(it.number))
                self.sent += 1
            case 'signal':
                self.counts[it.target] = self.counts[it.target] + 1 & 65535
            case 'post' | 'broadcast':
                result = self.post(it.target if it.kind == 'post' else None, it.its.event, value, it.number)
                if it.its.into:
                    self.assign(it, it.its.into, result)
            case 'synch':
                self.call(it.target, it.its.event, value, 0, 'synch', it.number)
            case 'poll':
                self.ask_poll(it.target, self.frame, it.number)
            case 'start':
                self.start(it.target, it.number)
            case 'kill':
                self.kill(it.target, it.number)
            case 'stop':
                self.stop(it.target)
            case _:
                self.set(it.target, it.kind, value, it.number)

    def assign(self, it: Statement, variable: str, value: int) -> None:
        self.variables[it.process][variable] = value
        self.changes.append(Change(self.lines, self.now, it.process, variable, value))

    # Timers

    def set(self, number: int, statement: str, interval: int, row: int) -> None:
        timer = self.timers[number]
        is_callback = self.program.timers[number].callback is not None
        if statement == 'reset':
            timer.start = min(timer.due, LATEST_START)
        else:
            timer.start = self.now
        if statement == 'set':
            timer.interval = interval
        timer.owner = CTIMER if is_callback else self.current
        timer.frame, timer.row, timer.since = self.frame, row, self.now
        if number not in self.timer_list:
            self.timer_list.insert(0, number)
        if is_callback:
            self.callbacks.add(number)
        self.ask_poll(ETIMER, None)

    def stop(self, number: int) -> None:
        self.timers[number].owner = None
        if number in self.timer_list:
            self.timer_list.remove(number)
        self.callbacks.discard(number)

    # The processes of the system

    def run_system(self, process: int, frame: Frame) -> None:
        event, word = frame.event, frame.word
        if process == ETIMER and event == 'poll':
            self.offer_timers()
        elif process == ETIMER and event == 'exited':
            self.timer_list = [it for it in self.timer_list if self.timers[it].owner != word]
        elif process == CTIMER and event == 'timer':
            self.call_back(word, frame)
        elif process == RADIO and event == 'poll':
            self.hand_on()

    def offer_timers(self) -> None:
        place = 0
        while place < len(self.timer_list):
            number = self.timer_list[place]
            timer = self.timers[number]
            if timer.due > self.now:
                place += 1
                continue
            frame = timer.frame or self.boot_frame
            link = Link('timer', frame.line, frame, timer.row, timer.since, timer.due - timer.since)
            if self.queue(timer.owner, 'timer', number, 0, link):
                self.ask_poll(ETIMER, None)
                place += 1
            else:
                timer.owner = None
                self.timer_list.remove(number)
                place = 0

    def call_back(self, number: int, frame: Frame) -> None:
        """ctimer runs the block of a callback timer in the name of the timer's process."""
        if number not in self.callbacks:
            return
        self.callbacks.remove(number)
        its = self.program.timers[number]
        before, current = self.frame, self.current
        self.frame = Frame(its.process, 'timer', number, 0, 'callback', frame.line, frame)
        self.current = its.process
        self.run_block(its.callback or [])
        self.frame, self.current = before, current

    def hand_on(self) -> None:
        """radio empties the ring."""
        while self.ring:
            sender, number, line = self.ring[0]
            value = int(self.trace[line].rsplit(' ', 1)[1])
            link = Link('packet', line)
            if self.program.receiver is None:
                self.write('deaf %d %d' % (sender, number), link)
            else:
                self.queue(self.program.receiver, 'packet', value, sender, link)
            self.ring.pop(0)

    # Turns

    def boot(self) -> None:
        self.units = UNITS
        for process in (ETIMER, CTIMER, RADIO, *self.program.autostart):
            self.start(process, 0)

    def arrivals(self, kinds: Container[str]) -> None:
        """Delivers the packets that arrive at this moment with lines of these kinds, according to the trace."""
        head = '%d ' % self.now
        while self.lines < self.count and self.trace[self.lines].startswith(head):
            words = self.trace[self.lines].split(' ')
            if words[1] not in kinds:
                break
            at = self.write(' '.join(words[1:]), Link('medium', BOOT))
            if words[1] == 'recv':
                if len(self.ring) >= RING:
                    self.part('lost')
                self.ring.append((int(words[2]), int(words[3]), at))
        if self.ring:
            self.ask_poll(RADIO, None)

    def polls(self) -> None:
        if not self.is_poll_requested:
            return
        self.is_poll_requested = False
        for process, born in self.walk():
            if process in self.needs_poll and self.is_there(process, born):
                self.frame, row = self.needs_poll.pop(process)
                self.call(process, 'poll', 0, 0, 'poll', row)
                self.frame = None

    def take(self, event: Event, process: int) -> None:
        """Delivers an event to a process, or drops the event if the process has left."""
        link = Link('posted', event.line)
        if process not in self.list:
            self.write('drop %d %s' % (event.serial, self.name(process)), link)
            self.taken = None
            return
        line = self.write('take %d %s' % (event.serial, self.name(process)), link)
        self.taken = None
        self.call(process, event.event, event.word, event.sender, 'take', 0, line)

    def kernel_run(self) -> int:
        self.units = UNITS
        self.polls()
        if self.events:
            self.taken = event = self.events.pop(0)
            if event.target is not None:
                self.take(event, event.target)
            else:
                self.broadcast(event)
        return len(self.events) + self.is_poll_requested

    def broadcast(self, event: Event) -> None:
        for process, born in self.walk():
            self.polls()
            if self.is_there(process, born):
                self.take(event, process)
            else:
                self.write('drop %d %s' % (event.serial, self.name(process)), Link('posted', event.line))
                self.taken = None

    def next_due(self) -> int | None:
        return min((self.timers[it].due for it in self.timer_list), default=None)

    def wakes(self) -> int | None:
        """The moment of the mote's next turn without a packet."""
        if self.events or self.is_poll_requested:
            return self.now + 1
        due = self.next_due()
        return None if due is None else max(due, self.now + 1)

    def turn(self, at: int) -> None:
        self.now = at
        if at == self.begin:
            # (what collides is lost before a mote boots)
            self.arrivals({'collide'})
            self.boot()
        self.arrivals(ARRIVALS)
        due = self.next_due()
        if due is not None and due <= at:
            self.ask_poll(ETIMER, None)
        for _ in range(RUNS):
            if not self.kernel_run():
                break

    def arrives(self) -> int | None:
        """The moment of the next line of the trace, if that is the line of a packet that arrived."""
        if self.lines >= self.count:
            return None
        at, kind, *_ = self.trace[self.lines].split(' ')
        return int(at) if kind in ARRIVALS else None

    def to_end(self, end: int) -> None:
        """Runs the mote up to the last moment of the scenario, to the end of its trace."""
        self.up_to(end)
        if self.lines < self.count:
            raise Parted("the trace of mote %d isn't that of its program: it should end before its line %d, '%s'" % (
                self.mote, self.lines + 1, self.trace[self.lines]))

    def to_line(self, lines: int, end: int) -> Replay:
        """Runs the mote until it has written this many lines, or up to a moment."""
        self.last = lines
        try:
            self.up_to(end)
        except Stopped:
            pass
        return self

    def up_to(self, end: int) -> Replay:
        """Runs the mote up to the end of a moment."""
        try:
            self.live(end)
            while (boots := next((it for it in self.boots if it > self.boot_line), None)) is not None and (
                    self.moment(boots) <= end):
                self.boot_again(self.moment(boots))
                self.live(end)
        except (ValueError, IndexError, KeyError, RecursionError) as fault:
            raise Parted('the trace of mote %d can\'t be replayed: %s' % (self.mote, fault)) from None
        return self

    def moment(self, line: int) -> int:
        """The moment of a line of the trace."""
        return int(self.trace[line].partition(' ')[0])

    def boot_again(self, at: int) -> None:
        """The mote boots again: it has forgotten all but the number of its packets."""
        self.now = at
        self.begin_life(at, self.write('boots', Link('boots', BOOT)))
        self.changes += (Change(self.lines, at, process, variable, value)
                         for process, its in enumerate(self.variables) for variable, value in its.items())

    def live(self, end: int) -> None:
        """Runs the mote up to the end of a moment, or of its life."""
        boots = [self.moment(it) for it in self.boots if it > self.boot_line][:1]
        at: int | None = self.begin
        with suppress(Halted, Off):
            while at is not None and at <= end and [at] < (boots or [at + 1]):
                self.turn(at)
                at = min((it for it in (self.wakes(), self.arrives()) if it is not None), default=None)


class DetailedReplay(Replay):
    """A replay that notes each statement that is reached, and each condition that is tested."""

    def __init__(self, program: Program, mote: int, queue: int, trace: list[str]):
        super().__init__(program, mote, queue, trace)
        self.reached: list[Reached] = []

    def reach(self, it: Statement) -> None:
        self.reached.append(Reached(self.now, it.number))

    def test(self, it: Statement, value: int) -> bool:
        self.reached.append(Reached(self.now, it.number, value != 0))
        return value != 0
