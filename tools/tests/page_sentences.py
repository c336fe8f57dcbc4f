"""Sentences by chance, each with its meaning for `page_judge`; and scenarios and reports by chance that they fit."""
from __future__ import annotations

import random
from dataclasses import replace

from page_judge import Deed, Does, Event, Or, Order, Sentence, Things, Times, Value, When

END, SIDE, PROCESSES = 24, 10, ('a', 'b')
VERBS = {'print': ('prints', 'printing'), 'send': ('sends', 'sending'), 'receive': ('receives', 'receiving'),
         'start': ('starts', 'starting'), 'leave': ('leaves', 'leaving'), 'halt': ('halts', 'halting'),
         'write': ('writes', 'writing')}
OF_THINGS = {'packets': ('is sent', 'are sent'), 'collide': ('collides', 'collide'), 'lost': ('overflows', 'overflow'),
             'recv': ('arrives', 'arrive'), 'medium': ('is lost', 'are lost')}
COUNTS = {'once': Times('exactly', 1), 'twice': Times('exactly', 2), 'at most once': Times('at most', 1),
          'more than once': Times('more than', 1)}
Motes = tuple[int, ...]


def net_of(chance: random.Random) -> tuple[str, str, int]:
    """A scenario, a report that could be its own, and the number of motes."""
    count, step = chance.randint(2, 5), chance.choice((4, 8, 8))
    places = [(index * step, chance.choice((0, 0, 5))) for index in range(count)]
    pairs = [(s, r) for s in range(count) for r in range(count) if s != r]
    dead = chance.sample(pairs, chance.choice((0, 0, 1, min(3, len(pairs)))))
    scenario = ['version = 2', 'end = %d' % END, '[medium]', 'range = %d' % SIDE, 'base = 1', 'per = 100',
                'collide = true', '[programs]', "p = 'process a, b; code a { body { } } code b { body { } }'"]
    scenario += ['[[mote]]\nx = %d\ny = %d\nprogram = "p"' % place for place in places]
    scenario += ['[[loss]]\nfrom = %d\nto = %d\nevery = 1' % pair for pair in dead]
    traces: list[list[tuple[int, str]]] = [[] for _ in places]
    sent = sorted((chance.randint(0, END), mote) for mote in range(count) for _ in range(chance.choice((0, 1, 2, 3))))
    medium = []
    for mote in range(count):
        for kind in chance.choices(('print a %d', 'print a %d', 'print b %d', 'start a', 'leave b'), k=4):
            value = chance.choice((mote, chance.randint(0, 3), 1 << chance.randrange(count)))
            traces[mote].append((chance.choice((0, 2, 5, chance.randint(0, END))), kind.replace('%d', str(value))))
    for index, (at, mote) in enumerate(sent):
        number = sum(sender == mote for _, sender in sent[:index])
        value, copies = chance.randint(0, 3), ''
        traces[mote].append((at, 'send %d %d' % (number, value)))
        for to in range(count):
            if to != mote and sum((one - two) ** 2 for one, two in zip(places[mote], places[to])) <= SIDE ** 2:
                arrival, is_lost = at + chance.randint(1, 3), (mote, to) in dead or chance.random() < .2
                copies += ' %d@%s' % (to, 'lost' if is_lost else arrival)
                kind = chance.choice(('recv', 'recv', 'recv', 'collide', 'lost'))
                if not is_lost and arrival <= END:
                    traces[to].append((arrival, '%s %d %d' % (kind, mote, number) + ' %d' % value * (kind == 'recv')))
        medium.append('%d %d %d %d%s' % (at, mote, number, value, copies))
    report = []
    for mote, trace in enumerate(traces):
        chance.shuffle(trace)
        report += ['mote %d p' % mote, *('%d %s' % line for line in sorted(trace, key=lambda line: line[0]))]
        report += ['%d halt' % END] * (chance.random() < .2)
    return '\n'.join(scenario), '\n'.join([*report, 'medium', *medium, 'left 0', '']), count


def program_of(chance: random.Random, names: list[str], motes: int) -> str:
    """A program whose processes have statements by chance."""
    def code(name: str) -> str:
        value, others = chance.choice(('self', 'data', 'n',
                                       '%d' % (1 << chance.randrange(motes)))), chance.choice(names)
        steps = ('print %s;' % value, 'print %d;' % chance.randint(0, 4), 'send %s;' % value, 'n = (n + 1);', 'yield;',
                 'while (n < 9) { n = (n + 1); send n; }',
                 'set t %d; yield_until fired(t);' % chance.randint(1, 9), 'yield_until is(packet); print data;',
                 'post %s note %d;' % (others, chance.randint(0, 2)), 'kill %s;' % others, 'start %s;' % others,
                 'if (self == %d) { send %s; }' % (chance.randrange(motes), value))
        ends = ('while 1 { yield_until is(packet); print data; if (n < 2) { send data; n = (n + 1); } }', 'exit;',
                'set t %d; yield_until fired(t); while 1 { }' % chance.randint(5, 30))
        return 'code %s { var n = 0; etimer t; body { %s } }' % (
            name, ' '.join([*chance.choices(steps, k=chance.randint(1, 6)), chance.choice(ends)]))
    return 'event note; process %s; autostart %s; receiver %s; %s' % (
        ', '.join(names), ', '.join(names), chance.choice(names), ' '.join(map(code, names)))


def running_net_of(chance: random.Random) -> tuple[str, int]:
    """A scenario with programs by chance, which have the same processes or not, and the number of motes."""
    scenario, _, count = net_of(chance)
    head, _, rest = scenario.partition("p = '")
    second = chance.choice((['a', 'b'], ['b', 'a'], ['c', 'a', 'b']))
    rest = ''.join(it + 'program = "%s"' % chance.choice('pq') * (number < count) for number, it in enumerate(
        rest.partition('\n')[2].split('program = "p"')))
    return "%sp = '%s'\nq = '%s'\n%s" % (head, program_of(chance, ['a', 'b'], count), program_of(chance, second, count),
                                         rest), count


class Sentences:
    """Sentences about a net with so many motes."""

    def __init__(self, chance: random.Random, motes: int):
        self.chance, self.every = chance, tuple(range(motes))

    def is_so(self, share: float) -> bool:
        return self.chance.random() < share

    def mote(self) -> int:
        return self.chance.choice(self.every)

    def some(self) -> tuple[str, Motes]:
        """A list of motes."""
        first, last = sorted(self.chance.sample(self.every, 2))
        word = self.chance.choice((' to ', ' and ', ', '))
        return '%d%s%d' % (first, word, last), tuple(range(first, last + 1)) if word == ' to ' else (first, last)

    def but(self, motes: Motes) -> tuple[str, Motes]:
        if self.is_so(.6):
            return '', motes
        text, left = self.some() if self.is_so(.4) else (str(self.mote()), ())
        left = left or (int(text),)
        return ' but ' + text, tuple(mote for mote in motes if mote not in left)

    def compare(self, most: int) -> tuple[str, Times]:
        compare = self.chance.choice(('at least', 'at most', 'exactly', 'more than'))
        number = self.chance.randint(0, most)
        return '%s %d' % (compare, number), Times(compare, number)

    def subject(self) -> tuple[str, Does]:
        """The motes of a sentence, and a sentence without a deed."""
        kind = self.chance.choice(('each', 'each', 'each', 'together', 'no', 'some', 'count'))
        nothing = Deed('')
        but, left = self.but(self.every)
        text, listed = self.some()
        if kind == 'each':
            mote = self.mote()
            words, motes = self.chance.choice((('mote %d' % mote, (mote,)), ('motes ' + text, listed),
                                               ('every mote' + but, left), ('all motes' + but, left)))
            return words, Does(kind, motes, nothing)
        if kind == 'together':
            return self.chance.choice((('motes %s together' % text, Does(kind, listed, nothing)),
                                       ('all motes together', Does(kind, self.every, nothing))))
        if kind in ('no', 'some'):
            return '%s mote%s' % (kind, but), Does(kind, left, nothing)
        number, many = self.compare(3)
        return '%s motes%s' % (number, but), Does('count', left, nothing, many)

    def value(self) -> tuple[str, Value]:
        mote, number = self.mote(), self.chance.randint(0, 4)
        text, left = self.but(self.every)
        but = frozenset(self.every) - frozenset(left)
        return self.chance.choice((
            (str(number), Value('number', number)), (str(number), Value('number', number)),
            (str(number), Value('number', number)), ('its number', Value('own')),
            ('any of 1 to %d' % (number + 1), Value('any', values=frozenset(range(1, number + 2)))),
            ('any of 0, 2 or %d' % number, Value('any', values=frozenset((0, 2, number)))),
            ('its distance from mote %d' % mote, Value('distance', mote)),
            ('the set of motes that it hears' + text, Value('hears', but=but)),
            ('the set of motes linked with it' + text, Value('linked', but=but)),
            ('a mote that it hears, one hop nearer to mote %d' % mote, Value('nearer', mote))))

    def deed(self, form: int) -> tuple[str, Deed]:
        """A deed whose lines can be counted. form: 0 for one mote, 1 for `printing`."""
        name, process = self.chance.choice([*VERBS, 'print', 'print', 'send', 'receive']), self.chance.choice('ab')
        verb, (text, value) = VERBS[name][form], self.value()
        has_value, mote = self.is_so(.5), self.mote()
        if name == 'print':
            if self.is_so(.1):
                return verb, Deed(name)
            return '%s %s%s' % (verb, process, (' ' + text) * has_value), Deed(
                name, process, value if has_value else None)
        if name == 'send':
            return verb + (' ' + text) * has_value, Deed(name, value=value if has_value else None)
        if name == 'receive':
            sender = mote if self.is_so(.3) else None
            return verb + (' ' + text) * has_value + ('' if sender is None else ' from mote %d' % mote), Deed(
                'recv', value=value if has_value else None, sender=sender)
        if name in ('start', 'leave'):
            return '%s %s' % (verb, process), Deed(name, process)
        if name == 'halt':
            return verb, Deed(name)
        texts = tuple(self.chance.sample(('print a', 'print b 1', 'send', 'recv %d' % mote, 'collide', 'start a'), 2))
        return "%s '%s' or '%s'" % (verb, *texts), Deed('writes', texts=texts)

    def whole(self) -> tuple[str, Deed]:
        """A deed that is about all lines together."""
        process, (text, value) = self.chance.choice('aab'), self.value()
        values = tuple(self.chance.choices((0, 1, 2, 4), k=self.chance.randint(1, 2)))
        listed = '%s %s' % (process, ', '.join(map(str, values)))
        return self.chance.choice((
            ('prints just ' + listed, Deed('just', process, values=values)),
            ('prints just %s in any order' % listed, Deed('set', process, values=values)),
            ('prints just %s %s' % (process, text), Deed('just', process, values=(value.number,)) if
             value.kind == 'number' else Deed('only', process, value)),
            ('finally prints %s %s' % (process, text), Deed('finally', process, value))))

    def when(self, has_hops: bool = True, has_parts: bool = True) -> tuple[str, When]:
        first, last = sorted((self.chance.randint(0, END + 1), self.chance.choice((2, 5, END))))
        forms = [('at %d' % first, When(first, first)), ('by %d' % first, When(0, first)),
                 ('before %d' % (first + 1), When(0, first)), ('after %d' % first, When(first + 1)),
                 ('from %d on' % first, When(first)), ('from %d to %d' % (first, last), When(first, last)),
                 ('between %d and %d' % (first, last), When(first, last))]
        if has_hops and self.is_so(.2):
            hop, root = self.chance.randint(0, 3), self.mote()
            return 'at %d plus %d for each hop from mote %d' % (first, hop, root), When(first, first, hop, root)
        if has_parts and self.is_so(.2):
            every = self.chance.randint(1, 12)
            return 'in each %d from %d to %d' % (every, first, last), When(first, last, every=every)
        return self.chance.choice(forms)

    def event(self, same: bool = False, several: str = 'some mote') -> tuple[str, Event]:
        """An event; with `same`, one that may leave out the deed."""
        form = self.chance.randint(0, 1)
        text, deed = self.deed(form)
        mote, (listed, motes) = self.mote(), self.some()
        words, its = self.chance.choice((('mote %d' % mote, (mote,)), ('motes %s together' % listed, motes),
                                         (several, self.every)))
        if self.is_so(.4):
            return text if form else 'it ' + text, Event(None, deed)
        return (words, Event(its, None)) if same and self.is_so(.4) else ('%s %s' % (words, text), Event(its, deed))

    def order(self, may_be_each: bool) -> tuple[str, Order]:
        text, event = self.event(True)
        moments = self.chance.choice((0, 0, 1, 3, 8))
        kind = self.chance.choice(('after', 'before', 'within', *(['each'] * may_be_each)))
        each = 'each time ' if kind == 'each' else ''
        return ('%s %s' % (kind, text) if kind in ('after', 'before') else 'within %d of %s%s' % (moments, each, text),
                Order(kind, moments, event))

    def comparison(self) -> tuple[str, Times]:
        """A number of lines that is compared with another number."""
        number, times = self.compare(2)
        text, event = self.event(True, 'all motes together')
        when, its = self.when(has_parts=False)
        if self.is_so(.3):
            text, event = '%s %s' % (text, when), Event(event.motes, event.deed, its)
        elif self.is_so(.3):
            text, event = when, Event(None, None, its)
        return '%s times as often as %s' % (number, text), Times(times.compare, times.number, False, event)

    def of_values(self) -> tuple[str, Does]:
        """Numbers of lines with the same value, or the same last value."""
        text, it = self.subject()
        when, its = self.when(has_hops=it.kind != 'together')
        if it.kind == 'each' and len(it.motes) > 1 and self.is_so(.3):
            return '%s finally print the same a %s' % (text, when), replace(it, deed=Deed('same', 'a'), when=its)
        (words, deed), (number, times) = self.valued(), self.compare(2)
        (other, event), mote, (listed, motes) = self.valued(), self.mote(), self.some()
        if self.is_so(.3):
            return '%s %s %s %s times for each value' % (text, words, when, number), replace(
                it, deed=deed, when=its, times=replace(times, other=Event(None, None, None), is_each=True))
        who, own = self.chance.choice((('it', None), ('mote %d' % mote, (mote,)),
                                       ('motes %s together' % listed, motes)))
        late, later = self.when(has_hops=False, has_parts=False)
        text += ' %s %s %s times for each value that %s %s %s' % (words, when, number, who, other, late)
        times = replace(times, other=Event(own, event, later), is_each=True)
        return text, replace(it, deed=deed, when=its, times=times)

    def valued(self) -> tuple[str, Deed]:
        """A deed whose lines have values."""
        return self.chance.choice((('prints a', Deed('print', 'a')), ('sends', Deed('send')),
                                   ('receives', Deed('recv'))))

    def does(self) -> tuple[str, Does]:
        text, it = self.subject()
        is_whole = it.kind != 'together' and self.is_so(.2)
        never = it.kind in ('each', 'together') and not is_whole and self.is_so(.15)
        words, deed = self.whole() if is_whole else self.deed(0)
        text += ' never ' * never + ' ' * (not never) + words
        when, times, order = '', '', ''
        its, counted, ordered = When(), None, None
        if self.is_so(.4):
            when, its = self.when(has_hops=it.kind != 'together')
        if not (is_whole or never) and self.is_so(.5):
            times, counted = self.chance.choice((self.compare(3), self.chance.choice(list(COUNTS.items())),
                                                 self.comparison()))
        if not is_whole and not (counted and counted.other) and self.is_so(.45):
            order, ordered = self.order(not (counted or never or its.root is not None))
        return ' '.join(filter(None, (text, when, times, order))), Does(
            it.kind, it.motes, deed, it.many, never, its, counted, ordered)

    def things(self) -> tuple[str, Things]:
        kind = self.chance.choice(list(OF_THINGS))
        noun = 'packet' if kind == 'packets' else 'copy'
        number, times = self.compare(6)
        text = '%s %s %s' % (number, noun.replace('copy', 'copie') + 's', OF_THINGS[kind][1])
        if self.is_so(.3):
            word, times = self.chance.choice((('no', Times('at most', 0)), ('some', Times('at least', 1))))
            text = '%s %s %s' % (word, noun, OF_THINGS[kind][0])
        elif kind == 'recv' and self.is_so(.4):
            text, times = 'every copy arrives', Times('exactly', 1, True)
        motes, when = None, When()
        if kind != 'packets' and self.is_so(.4):
            listed, motes = self.some()
            text += ' at motes ' + listed
        if not times.is_all and self.is_so(.5):
            words, when = self.when(has_hops=False)
            text += ' ' + words
        return text, Things(kind, times, motes, when)

    def one(self) -> tuple[str, Does | Things]:
        if self.is_so(.2):
            return self.things()
        return self.of_values() if self.is_so(.15) else self.does()

    def sentence(self) -> tuple[str, Sentence]:
        """A sentence, or several of them with `or`."""
        found = [self.one() for _ in range(self.chance.choice((1, 1, 1, 1, 1, 2, 3)))]
        if len(found) == 1 or any(isinstance(it, Does) and it.kind in ('no', 'count') for _, it in found):
            return found[0]
        return ', or '.join(text for text, _ in found), Or(tuple(it for _, it in found))
