"""Nets by chance: tools/summary and the measures of tools/sweep have the numbers that a second program computes, which
was written from the pages alone."""
import math
import os
import random
import unittest
from collections import Counter
from collections.abc import Callable
from typing import Any

import here  # noqa: F401
import motesim
from motesim.experiments.measures import Bench, read_measure, sentence_of
from motesim.judge.claims import Claims
from motesim.judge.names import names_of
from motesim.judge.verdicts import decided
from motesim.scenario import Scenario
from motesim.summary.counts import summary
from motesim.summary.flows import flow_rows
from page_measures import NEVER, Lines, PageMeasures
from page_sentences import END, running_net_of
from skips import need_built

NETS, SENTENCES = range(int(os.environ.get('PAGE_MEASURES_NETS', '30'))), 3
VERBS = {'print': ('prints', 'print'), 'send': ('sends', 'send'), 'recv': ('receives', 'receive')}
KINDS: dict[str, Callable[[PageMeasures, Lines], int | None]] = {
    'holds': PageMeasures.holds, 'moment': PageMeasures.moment, 'last': PageMeasures.last, 'count': PageMeasures.count,
    'motes': PageMeasures.reaching}
# What half of the nets have instead.
CHANGES = ('collide = true', 'collide = false'), ('base = 1', 'base = 9'), ('[programs]', '[queue]\np = 1\n[programs]')
# Flows: source and sink, and the range of values.
FLOWS = ('', 'a', ''), ('a', 'b', ''), ('a', 'b', ' 1 to 99'), ('', 'b', ''), ('a', 'a', '')


def net_of(chance: random.Random) -> tuple[str, int]:
    """A scenario, and its number of motes."""
    text, motes = running_net_of(chance)
    for old, new in CHANGES:
        text = text.replace(old, new) if chance.random() < .5 else text
    # (a claim about several motes needs one number for a process)
    return text.replace('program = "q"', 'program = "p"'), motes


def motes_of(chance: random.Random, motes: int, alone: bool) -> tuple[str, str, tuple[int, ...], bool]:
    """Motes of a sentence: the text, how the sentence is about them, the motes, and whether the verb is singular."""
    first = chance.randrange(motes - 1)
    some, but = tuple(range(first, motes)), tuple(mote for mote in range(motes) if mote != first)
    return chance.choice([
        ('mote %d' % first, 'each', (first,), True), ('every mote but %d' % first, 'each', but, True),
        ('motes %d to %d' % (first, motes - 1), 'each', some, False), ('some mote but %d' % first, 'some', but, True),
        ('motes %d to %d together' % (first, motes - 1), 'together', some, False)][:4 if alone else 5])


def lines_of(chance: random.Random, motes: int, *, process: str = '', least: bool = False,
             alone: bool = False) -> tuple[str, Lines]:
    """A sentence with its meaning."""
    text, how, its, singular = motes_of(chance, motes, alone)
    kind = 'print' if process else chance.choice(('print', 'print', 'send', 'recv'))
    words = [kind] + [process or chance.choice('ab')] * (kind == 'print')
    words += [str(chance.choice((1, 2, 7)))] * (not process and chance.random() < .4)
    first = chance.randint(0, END)
    when, begin, until = chance.choice([('', 0, NEVER)] * 4 + [
        (' by %d' % first, 0, first), (' after %d' % first, first + 1, NEVER), (' before %d' % (first + 1), 0, first),
        (' from %d to %d' % (first // 2, first), first // 2, first)])
    times, number = chance.choice([('', 1)] * 2 + [(' more than once', 2), (' at least 3', 3)]) if least else ('', 1)
    deed = ' '.join([VERBS[kind][not singular], *words[1:]])
    return '%s %s%s%s' % (text, deed, times, when), Lines(how, its, tuple(words), begin, until, number)


class Numbers(unittest.TestCase):
    def setUp(self) -> None:
        need_built()

    def assert_same(self, its: Any, page: Any, about: str) -> None:
        if isinstance(its, float) and isinstance(page, (int, float)):
            self.assertTrue(math.isclose(its, page, rel_tol=1e-9), '%s: %r, and by the page %r' % (about, its, page))
        else:
            self.assertEqual(its, page, about)

    def assert_rows(self, its: list[dict[str, Any]], page: list[dict[str, Any]], about: str) -> None:
        self.assertEqual(len(its), len(page), about)
        for one, other in zip(its, page):
            for name in one.keys() - {'mote', 'program', 'origin'}:
                self.assert_same(one[name], other[name], '%s, %s' % (about, name))

    def test_the_tables_of_a_run_are_those_of_the_page(self) -> None:
        seen: Counter[str] = Counter()
        for seed in NETS:
            chance = random.Random(seed)
            text, _ = net_of(chance)
            run = motesim.run(text.encode())
            page, (motes, net, links) = PageMeasures(text, run.report.text()), summary(run)
            with self.subTest(seed=seed):
                of_motes, of_net = page.summary()
                self.assert_rows([*motes, net], [*of_motes, of_net], 'motes')
                self.assert_rows(links, page.links(), 'links')
                for source, sink, values in FLOWS:
                    words = 'print %s -> ' % source * bool(source) + 'print %s%s' % (sink, values)
                    found = page.messages(source, sink, *((1, 99) if values else ()))
                    rows = flow_rows(run.report, run.scenario, words)
                    origins = sorted({it[0] for it in found})
                    self.assertEqual([row['origin'] for row in rows], [*origins, 'net'])
                    its = [[it for it in found if it[0] == origin] for origin in origins]
                    self.assert_rows(rows, [*map(page.flow_row, its), page.flow_row(found)], words)
            seen.update(name for name, value in net.items() if value)
        self.assertGreater(min(seen[name] for name in net.keys() - {'program'}), 0, seen)

    def test_the_measures_of_a_sweep_are_those_of_the_page(self) -> None:
        for seed in NETS:
            chance = random.Random(seed)
            text, motes = net_of(chance)
            run = motesim.run(text.encode())
            page, known = PageMeasures(text, run.report.text()), Scenario.parse(text)
            names = names_of(known)
            wanted: list[tuple[str, Any]] = [('loss', page.loss()), ('reachable', page.reachable())]
            wanted += [('%s of mote 1' % name, value) for name, value in page.summary()[0][1].items()]
            for _ in range(SENTENCES):
                for kind, of in KINDS.items():
                    words, its = lines_of(chance, motes, least=kind in ('holds', 'moment', 'motes'),
                                          alone=kind == 'motes')
                    wanted.append(('%s: %s' % (kind, words), of(page, its)))
                (one, begin), (other, then) = (lines_of(chance, motes, least=True) for _ in '12')
                wanted.append(('delay: %s -> %s' % (one, other), page.delay_between(begin, then)))
                (one, begin), (other, then) = (lines_of(chance, motes, process=its) for its in 'ab')
                wanted.append(('delivery: %s -> %s' % (one, other), page.delivery(begin, then)))
            asked = [it for words, _ in wanted if (it := sentence_of(words, names))]
            bench = Bench(run, {}, asked, lambda its: decided(Claims(known), text, its))
            for words, value in wanted:
                with self.subTest(seed=seed, measure=words):
                    self.assert_same(read_measure(words, names).of(bench), value, words)
