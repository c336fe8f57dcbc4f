"""Reads sentences about a report: docs/use/EXPECTATIONS.md has their forms.

`read_sentence('mote 6 prints flood 1 by 60', names)` returns the meaning of a sentence, as one of the classes of
`motesim.judge.meaning`. A sentence that can't be read raises a `SentenceFault`, which has the place of the error and
the words that are allowed there.
"""
from __future__ import annotations

import re
from collections.abc import Callable, Sequence
from dataclasses import replace
from typing import TypeVar

from motesim.judge.meaning import (
    COMPARES, Copies, Count, Deed, Does, Hears, Lines, MediumLine, Motes, Or, Packets, Part, Pattern, Refused,
    Relation, Sentence, Than, Value, Window)
from motesim.judge.names import Names
from motesim.judge.sentence_fault import SentenceFault
from motesim.notation.grammar import SYSTEM
from motesim.report import FIELDS, MOST_MOMENT, MOST_WORD

LONGEST_NUMBER, MOST, MOST_MOTES = 9, 999_999_999, 1_000
NAME = re.compile('[a-z][a-z0-9_]*')
# The words behind a deed, which are no names if the names aren't known.
BEHIND_DEED = ('at', 'by', 'before', 'after', 'between', 'in', 'from', 'exactly', 'more', 'fewer', 'once', 'twice',
               'within', 'with')
TOKEN = re.compile(r"\s*('[^']*'|`[^`]*`|\d+|[A-Za-z_]\w*|[^\s])")
# The kinds of lines that have a value.
WITH_VALUE = {kind for kind, its in FIELDS.items() if its.endswith(('value', 'word'))}
# The verbs of motes and of copies, in the form for many; and the outcomes of copies that have a verb.
VERBS = ('print', 'send', 'receive', 'start', 'leave', 'halt', 'write')
OUTCOMES = {'collide': 'collided', 'arrive': 'received', 'overflow': 'overflowed'}
# The motes of a sentence that names no numbers, and the values that differ by mote or by net: their kinds.
MOTES_OF = {'no mote': 'no', 'some mote': 'some', 'every mote': 'each'}
VALUES_OF = {
    'its number': 'self', 'its distance from mote': 'distance',
    'the set of motes that it hears': 'heard', 'the set of motes linked with it': 'linked',
    'a mote that it hears , one hop nearer to mote': 'nearer'}

Found = TypeVar('Found')


class _Reader:
    """Reads a sentence from its first word to its last."""

    def __init__(self, sentence: str, names: Names):
        self.sentence, self.names = sentence, names
        text = sentence.rstrip().removesuffix('.')
        found = list(TOKEN.finditer(text))
        self.words = [it[1] for it in found]
        self.places = [it.start(1) for it in found] + [len(text)]
        self.at, self.furthest, self.begin = 0, 0, 0
        # (the places at which the sentence has the numbers of motes)
        self.named: list[tuple[int, int]] = []
        self.wanted: list[str] = []
        self.allowed: list[str] = []
        self.is_one = True
        # (in `within 10 of receiving 1` the verb may also have this form)
        self.is_event = False

    # Errors

    def want(self, at: int, what: str, names: Sequence[str] = ()) -> None:
        """Notes what is allowed at a word, and the names that it may be."""
        if at > self.furthest:
            self.furthest, self.wanted, self.allowed = at, [], []
        if at == self.furthest and what not in self.wanted:
            self.wanted.append(what)
            self.allowed += names

    def fault(self) -> SentenceFault:
        """The error at the furthest word that was looked at."""
        return SentenceFault(self.sentence, self.places[min(self.furthest, len(self.places) - 1)], self.wanted,
                             self.allowed)

    def fault_at(self, at: int, *wanted: str) -> SentenceFault:
        """The error at a word, at which only this is allowed."""
        return SentenceFault(self.sentence, self.places[at], [*wanted])

    def needed(self, found: Found | None) -> Found:
        """What a part of the sentence means. Raises the error if there is no such part."""
        if not found and found != 0:
            raise self.fault()
        return found

    # Words

    def word(self, ahead: int = 0) -> str:
        """The next word; after the last word, an empty one."""
        return self.words[self.at + ahead] if self.at + ahead < len(self.words) else ''

    def accept(self, *phrases: str) -> str:
        """Consumes and returns the first of these phrases that is next, or an empty text if none is."""
        for phrase in phrases:
            words = phrase.split()
            same = 0
            while same < len(words) and self.word(same).lower() == words[same]:
                same += 1
            if same == len(words):
                self.at += same
                return phrase
            self.want(self.at + same, phrase if same == 0 else ' '.join(words[same:]))
        return ''

    def need(self, *phrases: str) -> str:
        return self.needed(self.accept(*phrases))

    def is_or(self) -> bool:
        """True if another sentence follows, one of which must hold."""
        return self.word() == ',' and self.word(1).lower() == 'or'

    def is_verb(self, *verbs: str) -> str:
        """The verb that is next, in the form for many; an empty text if none of these is."""
        word = self.word().lower()
        return next((it for it in verbs if word in (it, it + 's') or
                     self.is_event and word == it.removesuffix('e') + 'ing'), '')

    def verb(self, *verbs: str) -> str:
        """Consumes a verb, in the form for one mote or for many; returns the form for many, or an empty text."""
        found = self.is_verb(*verbs)
        for verb in verbs[:verbs.index(found)] if found else verbs:
            self.want(self.at, verb + 's' if self.is_one else verb)
        self.at += bool(found)
        return found

    def maybe_number(self, what: str, most: int, least: int = 0) -> int | None:
        word = self.word()
        if word.isdecimal() and len(word) <= LONGEST_NUMBER and least <= int(word) <= most:
            self.at += 1
            return int(word)
        self.want(self.at, '%s, %d to %d' % (what, least, most))
        return None

    def number(self, what: str, most: int = MOST, least: int = 0) -> int:
        return self.needed(self.maybe_number(what, most, least))

    def moment(self, least: int = 0) -> int:
        return self.number('a moment', MOST_MOMENT, least)

    def mote(self, least: int = 0) -> int:
        motes = MOST_MOTES if self.names.motes is None else self.names.motes
        at, found = self.places[self.at], self.number('a mote', motes - 1, least)
        self.named.append((at, found))
        return found

    def one_value(self, least: int) -> int:
        return self.number('a value', MOST_WORD, least)

    def ranges(self, one: Callable[[int], int], *between: str) -> list[int]:
        """Numbers, and ranges of numbers, with commas, `and` or one of these other words between them."""
        found: list[int] = []
        while True:
            begin = one(0)
            found += range(begin, one(begin) + 1) if self.accept('to') else [begin]
            if self.is_or() or not self.accept(',', 'and', *between):
                return found

    def mote_list(self) -> frozenset[int]:
        return frozenset(self.ranges(self.mote))

    def but(self) -> frozenset[int]:
        if not self.accept('but'):
            return frozenset()
        self.accept('mote', 'motes')
        return self.mote_list()

    def quoted(self) -> tuple[str, ...]:
        word = self.word()
        if len(word) < 3 or word[0] not in '\'`' or word[-1] != word[0] or not word[1:-1].split():
            self.want(self.at, "words in quotes, as 'print flood 1'")
            raise self.fault()
        self.at += 1
        return tuple(word[1:-1].split())

    def end(self) -> None:
        if self.at < len(self.words):
            self.want(self.at, 'the end')
            raise self.fault()

    # How often and when

    def count(self) -> Count | None:
        """Reads the part of a sentence that says how many times."""
        compare = self.accept(*COMPARES)
        word = self.accept('once', 'twice')
        if word:
            return Count(compare or 'exactly', 1 if word == 'once' else 2)
        if not compare:
            return None
        return Count(compare, self.number('a number'))

    def window(self) -> Window | None:
        """When."""
        if self.word() == 'at' and self.word(1) in ('least', 'most'):
            return None
        if self.word() in ('after', 'before') and not self.word(1).isdecimal():
            self.want(self.at + 1, 'a moment, 0 to %d' % MOST_MOMENT)
            return None
        form, every = self.accept('at', 'by', 'before', 'after', 'between', 'in each', 'from'), None
        if not form:
            return None
        if form == 'by':
            return Window(0, self.moment())
        if form == 'before':
            return Window(0, self.moment(1) - 1)
        if form == 'after':
            return Window(self.moment() + 1)
        if form == 'in each':
            every = self.number('a number of moments', MOST_MOMENT, 1)
            self.need('from')
        begin = self.moment()
        if form == 'at':
            if not self.accept('plus'):
                return Window(begin, begin)
            hop = self.number('a number of moments')
            self.need('for each hop from mote')
            return Window(begin, begin, hop, self.mote())
        if form == 'from' and self.accept('on'):
            return Window(begin)
        self.need('and' if form == 'between' else 'to')
        return Window(begin, self.moment(begin), every=every)

    # Values and names

    def value(self) -> Value | None:
        """A value, if a value is next."""
        number = self.maybe_number('a value', MOST_WORD)
        return self.calculated() if number is None else Value('number', number)

    def calculated(self) -> Value | None:
        """A value that differs by mote or by net, or any of several, if one is next."""
        if self.names.fields and self.word().lower() == 'with':
            self.at += 1
            return self.of_fields()
        if self.names.fields:
            self.want(self.at, 'with ' + self.a_field)
        if self.accept('any of'):
            return Value('any', values=frozenset(self.ranges(self.one_value, 'or')))
        kind = VALUES_OF.get(self.accept(*VALUES_OF))
        if kind in ('distance', 'nearer'):
            return Value(kind, self.mote())
        return Value(kind, but=self.but() if kind in ('heard', 'linked') else frozenset()) if kind else None

    @property
    def a_field(self) -> str:
        return 'a field (%s)' % ', '.join(it.name for it in self.names.fields)

    def of_fields(self) -> Value:
        """The values of which fields are numbers, such as `origin 5, seq 324`."""
        allowed, words = frozenset(range(MOST_WORD + 1)), list[str]()
        while True:
            field = next((it for it in self.names.fields if it.name == self.word()), None)
            if field is None:
                self.want(self.at, self.a_field, [it.name for it in self.names.fields])
                raise self.fault()
            self.at += 1
            number = self.number('a number', MOST_WORD)
            allowed &= field.values(number)
            words.append('%s %d' % (field.name, number))
            if self.is_or() or not self.accept(',', 'and'):
                return Value('any', values=allowed, words=', '.join(words))

    def process(self) -> str | None:
        """A process, if one is next."""
        known, word = self.names.processes, self.word()
        if word in known if known is not None else NAME.fullmatch(word) and word not in BEHIND_DEED:
            self.at += 1
            return word
        self.want(self.at, 'a process' if known is None else 'a process (%s)' % ', '.join(known), known or ())
        return None

    # Deeds

    def pattern(self) -> Pattern:
        """The words in quotes after `writes`: the words of a line, from its kind on."""
        words = self.quoted()
        if words[0] not in FIELDS:
            raise self.fault_at(self.at - 1, 'words in quotes that begin with one of %s' % ', '.join(FIELDS))
        return words

    def deed(self) -> Deed:
        """The action of motes, from the verb on."""
        if self.accept('finally'):
            self.needed(self.verb('print'))
            if self.accept('the same'):
                return Deed((('print', self.needed(self.process())),), 'same')
            return Deed((('print', self.needed(self.process())),), 'finally', self.needed(self.value()))
        verb = self.needed(self.verb(*VERBS))
        if verb == 'print':
            return self.prints()
        if verb == 'send':
            value = self.value()
            return Deed((('send', None, value) if value else ('send',),))
        if verb == 'receive':
            value = self.value()
            sender = Value('number', self.mote()) if self.accept('from mote') else None
            return Deed((('recv', sender, None, value) if value else ('recv', sender),))
        if verb == 'halt':
            return Deed((('halt',),))
        if verb != 'write':
            return Deed(((verb, self.needed(self.process())),))
        patterns = [self.pattern()]
        while self.accept('or'):
            patterns.append(self.pattern())
        return Deed(tuple(patterns))

    def plain_deed(self) -> Deed:
        """An action whose lines can be counted: the values of all lines together aren't counted."""
        at = self.at
        deed = self.deed()
        if deed.way != 'any':
            verb = self.words[at + (deed.way in ('finally', 'same'))]
            raise self.fault_at(at, '%s, without `just` or `finally`' % verb)
        return deed

    def prints(self) -> Deed:
        if self.accept('just'):
            process = self.needed(self.process())
            own = self.calculated()
            if own:
                return Deed((('print', process),), 'just', own)
            values = self.ranges(self.one_value)
            return Deed((('print', process),), 'set' if self.accept('in any order') else 'just', values=tuple(values))
        printer = self.process()
        if printer is None:
            if self.names.fields:
                self.want(self.at, 'a process with ' + self.a_field)
            return Deed((('print',),))
        value = self.value()
        return Deed((('print', printer, value),)) if value else Deed((('print', printer),))

    # Motes

    def motes(self) -> Motes | None:
        """The motes of the sentence, if it begins with them."""
        kind = MOTES_OF.get(self.accept(*MOTES_OF))
        if kind:
            return Motes(kind, None, self.but())
        if self.accept('mote'):
            return Motes('each', frozenset([self.mote()]))
        self.is_one = False
        if self.accept('all motes together'):
            return Motes('together')
        if self.accept('all motes'):
            return Motes('each', None, self.but())
        if self.accept('motes'):
            numbers = self.mote_list()
            return Motes('together' if self.accept('together') else 'each', numbers)
        return None

    def does(self, motes: Motes) -> Sentence:
        """A sentence about motes, from the verb on."""
        if motes.kind == 'each' and motes.numbers is not None:
            can = self.accept('can hear mote', 'cannot hear mote')
            if can:
                return Hears(motes.numbers, can == 'can hear mote', self.mote())
        never = motes.kind in ('each', 'together') and self.accept('never')
        begin = self.at
        deed = self.plain_deed() if never else self.deed()
        if deed.way == 'same' and (motes.kind != 'each' or motes.is_one):
            raise self.fault_at(begin + 2, 'a process and a value; `the same` needs several motes, as in `all motes`')
        window, count, than = self.window(), None, None
        if deed.way == 'any' and not never:
            count = self.count()
        if count:
            self.accept('times', 'time')
            at = self.at
            if self.accept('as often as'):
                than = self.than()
            elif self.accept('for each value'):
                than = replace(self.than() if self.accept('that') else Than(None, None, None), is_each=True)
                if any(it[0] not in WITH_VALUE for it in deed.patterns + (than.deed or deed).patterns):
                    raise self.fault_at(at, 'as often as',
                                        'the end (only what motes print, send or receive has a value)')
        if window is None and (than is None or than.window is None):
            window = self.window()
        relation = self.relation(deed) if deed.way == 'any' and than is None else None
        if relation and window is None:
            window = self.window()
        has_hops = window is not None and window.root is not None
        if relation and relation.kind == 'each' and (count or never or has_hops):
            raise self.fault_at(self.words.index('within', self.begin), 'the end')
        if motes.kind == 'together' and (deed.value is not None or has_hops):
            raise self.fault_at(self.words.index('together', self.begin), 'the verb, without `together`')
        is_counted = bool(never) or count is not None
        count = Count('at most', 0) if never else count or Count('at least', 1)
        return Does(motes, deed, count, window or Window(), than, relation, is_counted)

    def relation(self, same: Deed) -> Relation | None:
        """The position of the lines relative to other lines, if the sentence has one."""
        kind, moments = self.accept('after', 'before', 'within'), 0
        if not kind:
            return None
        if kind == 'within':
            moments = self.number('a number of moments', MOST_MOMENT)
            self.accept('moments', 'moment')
            self.need('of')
            if self.accept('each time', 'every time'):
                kind = 'each'
        begin = self.at
        motes, deed = self.event(same)
        words = self.sentence[self.places[begin]:self.places[self.at - 1] + len(self.words[self.at - 1])]
        return Relation(kind, moments, motes, deed, words)

    def event(self, same: Deed) -> tuple[Motes | None, Deed]:
        """An event: of the mote itself, as in `receiving 1` or `it receives 1`, or of others, as in `mote 2 prints
        1`."""
        at, self.is_event, self.is_one = self.at, True, True
        motes = None if self.accept('it') else self.motes()
        if motes and motes.kind != 'some' and not motes.is_one:
            raise self.fault_at(at, 'mote 3', 'some mote', 'motes 1 to 3 together')
        deed = same if motes and not self.is_verb(*VERBS) else self.plain_deed()
        self.is_event = False
        return motes, deed

    def than(self) -> Than:
        """Reads the other count of a comparison."""
        self.is_event = True
        motes = None if self.accept('it') else self.motes()
        if motes and not motes.is_one:
            raise self.fault_at(self.at, 'together')
        deed = self.plain_deed() if self.is_verb(*VERBS) else None
        self.is_event = False
        begin = self.at
        window = self.window() or Window()
        if window.every:
            raise self.fault_at(begin, 'at', 'by', 'before', 'after', 'between', 'from')
        return Than(motes, deed, window)

    # Copies, packets and other sentences

    def every_copy(self) -> Sentence:
        """The sentence that all copies arrive, from the verb on."""
        self.needed(self.verb('arrive'))
        receivers = self.mote_list() if self.accept('at mote', 'at motes') else None
        return Copies(None, OUTCOMES['arrive'], receivers, Window())

    def copies(self, count: Count) -> Sentence:
        """A sentence about a number of copies, from the verb on."""
        outcome = OUTCOMES.get(self.verb(*OUTCOMES))
        if outcome is None:
            self.need('is' if self.is_one else 'are')
            outcome = self.need('lost', 'left')
        motes = None
        if outcome != 'left' and self.accept('at mote', 'at motes'):
            motes = self.mote_list()
        begin = self.at
        window = None if outcome == 'left' else self.window()
        if outcome == 'lost' and window and window.root is not None:
            raise self.fault_at(begin, 'a time that is the same for all motes')
        return Copies(count, outcome, motes, window or Window())

    def things(self, count: Count, kinds: tuple[str, ...]) -> Sentence:
        """A sentence about a number of motes, copies or packets, from this noun on."""
        kind = self.need(*kinds)
        self.is_one = kind in ('mote', 'copy', 'packet')
        if kind in ('mote', 'motes'):
            return self.does(Motes('count', None, self.but(), count))
        if kind in ('copy', 'copies'):
            return self.copies(count)
        self.need('is sent' if self.is_one else 'are sent')
        return Packets(count, self.window() or Window())

    def sentences(self) -> Sentence:
        """A sentence, or several with `, or` between them."""
        parts = list[Part]()
        while True:
            it = self.sentence_here()
            is_last = not self.accept(', or')
            if is_last and not parts:
                return it
            parts.append(self.part_of_or(it))
            if is_last:
                return Or(tuple(parts))

    def part_of_or(self, it: Sentence) -> Part:
        """A sentence that has an `or` before or behind it. It can't be about a number of motes, or about a text."""
        if isinstance(it, (Copies, Packets, Lines, Hears)) or (
                isinstance(it, Does) and it.motes.kind not in ('no', 'count')):
            return it
        raise self.fault_at(self.begin, 'an expectation of `mote 3`, `every mote`, `some mote`, copies or packets: '
                            '`or` joins none of `no mote`, a number of motes, or a text')

    def sentence_here(self) -> Sentence:
        self.begin, self.is_one = self.at, True
        motes = self.motes()
        if motes is not None:
            return self.does(motes)
        for word, few in ('no', Count('at most', 0)), ('some', Count('at least', 1)):
            if self.accept(word):
                return self.things(few, ('copy', 'packet'))
        if self.accept('every copy'):
            return self.every_copy()
        if self.accept('the report has'):
            count = self.needed(self.count())
            self.need('lines', 'line')
            return Lines(count)
        if self.accept('the medium writes'):
            return MediumLine(self.quoted())
        if self.accept('the scenario is refused with'):
            return Refused(' '.join(self.quoted()))
        return self.things(self.needed(self.count()), ('mote', 'motes', 'copy', 'copies', 'packet', 'packets'))


def read_sentence(sentence: str, names: Names = Names()) -> Sentence:
    """Returns the meaning of a sentence. Raises a `SentenceFault` if it can't be read."""
    reader = _Reader(sentence, names)
    found = reader.sentences()
    reader.end()
    return found


def motes_named(sentence: str, names: Names) -> list[tuple[int, int]]:
    """The places at which a sentence that can be read has the numbers of motes, and these numbers."""
    reader = _Reader(sentence, names)
    reader.sentences()
    return sorted(set(reader.named))


def lacking(sentence: str, names: Names) -> str:
    """The error of a sentence with a name that the scenario doesn't have; empty if it has all names."""
    try:
        read_sentence(sentence, names)
        return ''
    except SentenceFault as fault:
        found = TOKEN.match(sentence, fault.place)
    word = found[1] if found else sentence
    if word.isdecimal() and names.motes is not None:
        return 'no mote %s (its motes are 0 to %d)' % (word, names.motes - 1)
    own = ['`%s`' % it for it in names.processes or () if it not in SYSTEM]
    return 'no process `%s` (%s)' % (word, 'it has %s' % ', '.join(own) if own else 'it has none')
