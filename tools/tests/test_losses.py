"""The pattern of the cookbook for losses by chance, against what chance would give."""
from __future__ import annotations

import itertools
import re
import unittest
from array import array
from functools import cache
from pathlib import Path
from statistics import correlation, fmean

from here import TOP
from motesim.plan.files import Files
from motesim.plan.plan import Plan
from motesim.report import Report
from motesim.runner.process import Limits, Runner
from motesim.report.run import program_path
from skips import long, need_built

WORD = 65_536
ASSIGNED = re.compile(r'(\w+) = (\(.*\));')
# Programs whose motes draw by chance, each with the variable that has its generator's state.
DRAWING = {'examples/cookbook/README.md': 'dice', 'examples/studies/density.mote': 'dice',
           'examples/studies/losses.mote': 'dice',
           'examples/studies/flooding.mote': 'seed', 'examples/studies/trickle.mote': 'seed'}
STEP = '((dice * 25173) + 13849)'
# The pattern's second variable, and the sum that it compares with the limit.
SECOND, SUM = '((luck * 225) % 239)', '(dice + (luck * 257))'
SEEDS = 250


def mixing_of(file: str) -> list[str]:
    """The expressions by which a program makes its generator's first state, in their order."""
    name = DRAWING[file]
    lines = (TOP / file).read_text('utf-8').split('\n')
    first = next(number for number, line in enumerate(lines) if '((self * 257)' in line)
    found = []
    for line in lines[first:]:
        assigned = ASSIGNED.match(line.strip())
        if not assigned or assigned[1] != name:
            break
        found.append(re.sub(r'(?<!{)\b%s\b' % name, 'dice', assigned[2]))
    return found


DICE = [0]
while len(DICE) < WORD:
    DICE.append((DICE[-1] * 25_173 + 13_849) % WORD)
LUCK = [1]
while (another := LUCK[-1] * 225 % 239) != 1:
    LUCK.append(another)


@cache
def draws() -> array[int]:
    """The sums that the pattern compares, in the order in which it draws them: each pair of `dice` and `luck` once."""
    pairs = zip(itertools.cycle(DICE), itertools.islice(itertools.cycle(LUCK), len(DICE) * len(LUCK)))
    return array('H', (dice + luck * 257 & WORD - 1 for dice, luck in pairs))


@cache
def lost_below(limit: int) -> bytes:
    """For each draw of the cycle, and of the beginning of the next cycle, whether the packet is lost."""
    return bytes(map(limit.__gt__, itertools.chain(draws(), draws()[:2_000])))


@cache
def lost_before(limit: int) -> array[int]:
    """For each draw, how many packets the draws before it have lost."""
    return array('I', itertools.accumulate(lost_below(limit), initial=0))


class Cycle:
    """The places of the cycle of draws at which motes begin."""

    def __init__(self, mixing: list[str]) -> None:
        self.mixing = [compile(it.replace('${seed}', 'seed').replace(' / ', ' // '), it, 'eval') for it in mixing]
        self.places = {DICE[place % WORD]: place for place in range(0, len(draws()), len(LUCK))}

    def first(self, mote: int, seed: int) -> int:
        """The place of a mote's first state."""
        dice = 0
        for code in self.mixing:
            dice = eval(code, {'self': mote, 'seed': seed, 'dice': dice}) % WORD
        return self.places[dice]


def spread(cycle: Cycle, motes: int, packets: int, limit: int) -> float:
    """The variance of a run's losses over the seeds, as a part of a binomial distribution's."""
    part, sums = limit / WORD, lost_before(limit)
    places = [[cycle.first(mote, seed) for mote in range(1, motes + 1)] for seed in range(1, SEEDS + 1)]
    runs = [sum(sums[it + 1 + packets] - sums[it + 1] for it in its) for its in places]
    true = motes * packets * part
    return fmean((it - true) ** 2 for it in runs) / (true * (1 - part))


class Programs(unittest.TestCase):
    def test_all_programs_mix_their_seeds_in_the_same_way(self) -> None:
        page = mixing_of('examples/cookbook/README.md')
        self.assertEqual(len(page), 4)
        text = (TOP / 'examples/cookbook/README.md').read_text('utf-8')
        for it in 'var luck = 1;', 'dice = %s;' % STEP, 'luck = %s;' % SECOND, 'if (%s >= ${limit}) {' % SUM:
            self.assertIn(it, text)
        for file in DRAWING:
            self.assertEqual(mixing_of(file), page, file)


@long
class ByChance(unittest.TestCase):
    """The generator of the page, as a program computes it, against what chance would give."""
    cycle: Cycle

    @classmethod
    def setUpClass(cls) -> None:
        cls.cycle = Cycle(mixing_of('examples/cookbook/README.md'))

    def test_more_than_255_motes_draw_as_others_do_with_the_seed_before(self) -> None:
        for mote, seed in (0, 1), (7, 30):
            self.assertEqual(self.cycle.first(mote + 255, seed + 1), self.cycle.first(mote, seed))
        keys = {(mote * 257 + seed) % WORD for mote in range(255) for seed in range(1, 258)}
        self.assertEqual(len(keys), 255 * 257)

    def test_two_processes_of_a_mote_draw_as_two_motes_do(self) -> None:
        page = (TOP / 'examples/cookbook/README.md').read_text('utf-8')
        self.assertIn('`dice = (((self * 257) + ${seed}) + 128);`', page)
        pairs = [(mote, seed) for mote in range(255) for seed in range(1, 129)]
        for limit in 6_554, 32_768:
            lost = lost_below(limit)
            one, other = ([lost[self.cycle.first(mote, seed + more) + packet] for mote, seed in pairs[::17]
                           for packet in range(1, 41)] for more in (0, 128))
            self.assertLess(abs(correlation(one, other)), 0.02)
        self.assertEqual(len({(mote * 257 + seed + more) % WORD for mote, seed in pairs for more in (0, 128)}),
                         2 * len(pairs))

    def test_the_rate_over_the_cycle_is_exact(self) -> None:
        self.assertEqual((len(self.cycle.places), len(draws())), (WORD, 7_798_784))
        for limit in 3_277, 6_554, 32_768:
            self.assertEqual(sum(lost_below(limit)[:len(draws())]), limit * len(LUCK))

    def test_series_of_losses_are_as_frequent_as_by_chance(self) -> None:
        # (the page has the first limit; a cycle has about 8 million * part ** k series of k losses)
        for limit in 655, 1_311, 1_966, 3_277, 6_554, 9_830, 19_661:
            lengths = [len(it) for it in re.findall(rb'\x01{2,}', lost_below(limit)[:len(draws())])]
            for length in range(2, 7):
                by_chance = len(draws()) * (limit / WORD) ** length
                found = sum(it - length + 1 for it in lengths if it >= length)
                for least, most in (500, 0.02), (50, 0.2):
                    if by_chance >= least:
                        self.assertAlmostEqual(found / by_chance, 1, delta=most, msg=(limit, length))

    def test_runs_lose_as_by_chance_and_without_the_mixing_in_step(self) -> None:
        # (250 seeds of true chance have a variance of 1 +- 0.18 in 19 of 20 configurations; without the mixing, in each
        # draw the values of successive motes differ by the same number)
        page = mixing_of('examples/cookbook/README.md')
        for configuration, is_less in (((50, 20, 13_107), True), ((99, 100, 32_768), False)):
            self.assertTrue(0.82 < spread(self.cycle, *configuration) < 1.18)
            in_step = spread(Cycle(page[:1]), *configuration)
            self.assertTrue(in_step < 0.2 if is_less else in_step > 1.8, in_step)

    def test_the_program_draws_the_same(self) -> None:
        need_built()
        page = (TOP / 'examples/cookbook/README.md').read_text('utf-8')
        parts = dict(re.findall(r'```\w+ (chance\.\S+)\n(.*?)```', page, re.S))
        files = Files(Path(), {'chance.mote': parts['chance.mote'].encode()})
        text = Plan('chance.plan.toml', parts['chance.plan.toml'], files).scenario({'seed': 7})
        report = Report.parse(Runner(program_path(), Limits(60)).answer(text.encode()).report)
        lost = lost_below(6_554)
        for mote in range(1, 9):
            first = self.cycle.first(mote, 7)
            kept = [packet for packet in range(1, 101) if not lost[first + packet]]
            self.assertEqual([line.value for line in report.motes[mote].lines if line.kind == 'print'], kept)
