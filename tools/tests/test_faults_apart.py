"""Runs with faults by motecheck, and by a net written from docs/use/TESTING.md and REPORT.md, with the replay's
motes."""
import os
import random
import re
import unittest
from collections import defaultdict
from collections.abc import Container, Iterator
from contextlib import suppress
from functools import cache
from itertools import combinations
from typing import NamedTuple

from here import scenario_of
from motesim.replay.mote import QUEUE, RADIO, RING, Halted, Link, Replay
from motesim.replay.program import made_of
from motesim.runner import Runner
from motesim.runner.programs import CHECKER, is_module, program_path
from motesim.scenario import Scenario
from skips import need_built
from test_survey import FLOOD, LINE, NETS, PAIR, REPEAT, TRIANGLE, net_of

SETS = int(os.environ.get('FAULT_SETS', '3'))  # of each kind in each net
CODE = 'process p; autostart p; receiver p; code p { var n = 0; etimer t; body { %s } }'
# Nets whose motes have much to forget.
MORE = {
    'motes that halt': (TRIANGLE,
                        CODE % 'send 1; yield_until is(packet); set t 9; yield_until fired(t); send 2; while 1 { }'),
    'full rings': (PAIR, CODE % 'while (n < 12) { n = (n + 1); send n; } while 1 { yield; n = (n + data); print n; }'),
    'queues that are never empty': (PAIR,
                                    CODE % 'while (n < 640) { n = (n + 1); if ((n % 99) == 5) { send n; } pause; }'),
    'processes that are gone': (LINE, '''
semaphore s = 1;
process a, b; autostart b, a; receiver b;
code a { ctimer c { signal s; poll b; send count(s); } body { while 1 { set c 9; yield_until gone(b); start b; } } }
code b {
  var k = 0;
  onexit { print 8; }
  body { acquire s; k = (k + 1); yield_until is(packet); print (k + data); exit; }
}
'''),
    'five numbers, of which one is lost': (PAIR, REPEAT.replace('n < 2', 'n < 5').replace('done == 2', 'done == 5')),
}


class Faults:
    """What a list of faults does."""

    def __init__(self, texts: tuple[str, ...]) -> None:
        # (the links, senders, packets and copies that are lost; how late copies are; the times in which motes are off)
        self.lost: set[tuple[str, ...]] = set()
        self.late: dict[tuple[str, ...], int] = defaultdict(int)
        self.off: dict[int, list[tuple[int, float]]] = defaultdict(list)
        for text in texts:
            match text.split():
                case 'link', sender, 'to', to, 'is', 'broken':
                    self.lost.add(('link', sender, to))
                case 'mote', sender, 'is', 'silent':
                    self.lost.add(('mote', sender))
                case 'packet', number, 'of', 'mote', sender, 'is', 'lost', *to:
                    self.lost.add(('packet', sender, number, *to[-1:]))
                case 'packet', number, 'of', 'mote', sender, 'is', moments, 'late', *_, to:
                    self.late[sender, number, to] += int(moments)
                case 'mote', mote, 'is', 'off', 'from', begin, *end:
                    self.off[int(mote)].append((int(begin), float('inf') if end == ['on'] else int(end[1])))
                case 'mote', mote, 'restarts', 'at', begin:
                    self.off[int(mote)].append((int(begin), int(begin)))

    def loses(self, sender: str, number: str, to: str) -> bool:
        return not self.lost.isdisjoint({('link', sender, to), ('mote', sender), ('packet', sender, number),
                                         ('packet', sender, number, to)})


Packet = NamedTuple('Packet', [('sender', int), ('number', int), ('value', int)])
program_of = cache(made_of)


class Mote(Replay):
    """One life of a mote. It writes its trace, instead of following one, and is given what arrives."""

    def __init__(self, net: Scenario, number: int) -> None:
        name = net.places[number].program
        super().__init__(program_of(net.programs[name]), number, net.queue.get(name, QUEUE), [])
        self.collide, self.arriving, self.packets = net.collide, list[Packet](), list[Packet]()

    def write(self, words: str, link: Link) -> int:
        self.trace.append('%d %s' % (self.now, words))
        if words.startswith('send '):
            self.packets.append(Packet(self.mote, *map(int, words.split()[1:])))
        return len(self.trace) - 1

    def arrivals(self, kinds: Container[str]) -> None:
        collide = self.collide and len(self.arriving) > 1
        if not collide and 'recv' not in kinds:
            return
        arriving, self.arriving = sorted(self.arriving), []
        for it in arriving:
            if collide:
                self.write('collide %d %d' % it[:2], Link('medium', 0))
            elif len(self.ring) == RING:
                self.write('lost %d %d' % it[:2], Link('medium', 0))
            else:
                self.ring.append((*it[:2], self.write('recv %d %d %d' % it, Link('medium', 0))))
                self.ask_poll(RADIO, None)

    def take_turn(self, at: int, arriving: list[Packet]) -> list[Packet]:
        """What it sends in its turn, if it takes one."""
        self.packets, self.arriving = [], arriving
        if not self.is_halted and (arriving or at in (self.begin, self.wakes())):
            with suppress(Halted):
                self.turn(at)
        return self.packets


def report_apart(text: str, texts: tuple[str, ...]) -> str:
    """The report of a run with faults."""
    net, faults = Scenario.parse(text), Faults(texts)
    motes = [Mote(net, it) for it in range(net.motes)]
    traces = [['mote %d %s' % (number, it.program)] for number, it in enumerate(net.places)]
    log, arriving = ['medium'], defaultdict[tuple[int, int], list[Packet]](list)
    for at in range(net.end + 1):
        for number in range(net.motes):
            given = arriving.pop((at, number), [])
            if any(begin <= at < end for begin, end in faults.off[number]):
                continue
            if any(at == end for _, end in faults.off[number]):
                traces[number] += [*motes[number].trace, '%d boots' % at]
                sent, motes[number] = motes[number].sent, Mote(net, number)
                motes[number].sent, motes[number].begin = sent, at
            for it in motes[number].take_turn(at, given):
                fates = dict[int, object]()
                for to in net.hearers(number):
                    words = str(number), str(it.number), str(to)
                    every = net.losses.get((number, to))
                    if faults.loses(*words) or (every and it.number % every == every - 1):
                        fates[to] = 'lost'
                    else:
                        fates[to] = arrival = at + net.delay(number, to) + faults.late[words]
                        arriving[arrival, to].append(it)
                log.append(' '.join(map(str, (at, *it, *('%d@%s' % fate for fate in fates.items())))))
    rows = [row for trace, mote in zip(traces, motes) for row in (*trace, *mote.trace)]
    return '\n'.join([*rows, *log, 'left %d' % sum(map(len, arriving.values()))]) + '\n'


def faults_of(text: str, rows: list[str]) -> Iterator[str]:
    """The faults of each kind of a net, with copies and moments of its run without faults, and with others."""
    net = Scenario.parse(text)
    copies = [row.split() for row in rows[rows.index('medium') + 1:-1]]
    moments = {int(it.partition('@')[2]) for row in copies for it in row[4:] if 'lost' not in it}
    chosen = sorted({0, 25, *sorted(moments)[:3], *(it + 1 for it in sorted(moments)[1:2]), net.end, net.end + 1})
    for mote in range(net.motes):
        yield 'mote %d is silent' % mote
        yield from ('link %d to %d is broken' % (mote, to) for to in net.hearers(mote))
        for at in chosen:
            yield 'mote %d is off from %d on' % (mote, at)
            yield 'mote %d restarts at %d' % (mote, at)
        yield from ('mote %d is off from %d to %d' % (mote, *its) for its in combinations(chosen, 2))
        sent = sum(row[1] == str(mote) for row in copies)
        for number in range(min(sent, 8) + 2):
            packet = 'packet %d of mote %d is' % (number, mote)
            yield packet + ' lost'
            for to in net.hearers(mote):
                yield from ('%s %s on the way to mote %d' % (packet, what, to) for what in ('lost', '1 late', '4 late'))


class Apart(unittest.TestCase):
    def setUp(self) -> None:
        need_built(CHECKER)

    def compare(self, text: str, *faults: str) -> list[str]:
        report = report_apart(text, faults)
        self.assertEqual(Runner(faults=faults).report(text.encode()).decode(), report)
        return report.splitlines()

    def test_the_report_of_a_net_with_faults(self) -> None:
        nets = {name: net_of(name)[0] for name in NETS}
        nets |= {name: scenario_of(program, *places) for name, (places, program) in MORE.items()}
        loss = 'loss = [{ from = 0, to = 1, every = 2 }]\n[programs]'
        nets |= {name + ', with losses': text.replace('collide = false', 'collide = true').replace('[programs]', loss)
                 for name, text in nets.items() if 'tell' in name or name in MORE}
        for name, text in nets.items():
            chance, kinds = random.Random(name), defaultdict[str, list[str]](list)
            for it in faults_of(text, report_apart(text, ()).splitlines()):
                kinds[re.sub(r'\d+', 'N', it)].append(it)
            its = [[it] for kind in kinds.values() for it in chance.sample(kind, min(SETS, len(kind)))]
            its += [sorted({chance.choice(kinds[it]) for it in chance.choices([*kinds], k=2)}) for _ in its]
            for faults in its[::12 if is_module(program_path(CHECKER)) else 1]:
                with self.subTest(net=name, faults=faults):
                    self.compare(text, *faults)

    def test_a_mote_that_boots_again(self) -> None:
        net = scenario_of(FLOOD, *LINE)
        boot = ['%d boots', '%d start etimer', '%d start ctimer', '%d start radio', '%d start flood']
        passes_on = ['%d post 0 flood packet 7', '%d take 0 flood', '%d print flood 7']
        for faults, mote, lines in [
                # (what arrives at the moment of a boot is heard, and a mote that waits for no moment boots too)
                (['mote 1 restarts at 13'], 1,
                 [(0, boot[1:]), (13, [*boot, '%d recv 0 0 7', *passes_on, '%d send 0 7'])]),
                # (packets are counted on, and what was sent before arrives)
                (['mote 0 restarts at 11'], 1, [(0, boot[1:]), (13, ['%d recv 0 0 7', *passes_on, '%d send 0 7'])]),
                # (a boot inside another time off isn't one; two at one moment are one)
                (['mote 2 is off from 5 to 20', 'mote 2 restarts at 9', 'mote 2 is off from 7 to 20'], 2,
                 [(0, boot[1:]), (20, boot)]),
                (['mote 2 is off from 5 on', 'mote 2 restarts at 9'], 2, [(0, boot[1:])]),
                (['mote 2 is off from 0 to 15'], 2, [(15, boot), (16, ['%d recv 1 0 7', *passes_on, '%d send 0 7'])])]:
            with self.subTest(faults=faults):
                rows = self.compare(net, *faults)
                begin = rows.index('mote %d p' % mote) + 1
                wanted = [it % at for at, its in lines for it in its]
                self.assertEqual(rows[begin:begin + len(wanted)], wanted)
