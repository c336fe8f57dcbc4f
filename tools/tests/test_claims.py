"""The claims that expectations mean: their texts; the verdicts of motecheck on random runs, which are those of a judge
that was written from the page alone, and of a second judge of claims; and a survey of motecheck."""
import contextlib
import os
import random
import re
import subprocess
import unittest
from itertools import permutations
from pathlib import Path

from claim_judge import answers_to, judge_of
from claim_texts import ClaimTexts
from here import TOP, call, room_of
from motesim.judge.claims import Claims, NoClaim
from motesim.judge.names import names_of
from motesim.judge.sentences import read_sentence
from motesim.report.run import answer
from motesim.scenario import Scenario
from page_judge import PageJudge
from page_sentences import Sentences, running_net_of
from skips import need_built, workers
from test_expect import RELAY as SCENARIO

# Sentences as comments, each with its claims, as the tool writes them for `SCENARIO` without the link from 2 to 3.
NOTES = ('# no claim', '# without a distance')
TABLE = Path(__file__).with_name('claims.txt')
CHECK = Path(os.environ.get('MOTECHECK', TOP / 'crates/motecheck/out/motecheck'))
NETS, SENTENCES, CLAIMS = range(int(os.environ.get('CLAIM_NETS', '12'))), 30, 100


class Texts(unittest.TestCase):
    def test_the_claims_of_each_form(self) -> None:
        room, wanted = room_of(self), TABLE.read_text()
        sentences = [row[2:] for row in wanted.splitlines() if row.startswith('# ') and not row.startswith(NOTES)]
        (room / 'net.toml').write_text(SCENARIO + '[[loss]]\nfrom = 2\nto = 3\nevery = 1\n')
        (room / 'net.expect.toml').write_text('report = ""\nexpect = %r' % sentences)
        self.assertEqual(call('expect', 'net.toml', '--claims', cwd=room).stdout, wanted)


class Verdicts(unittest.TestCase):
    def test_the_verdicts_of_motecheck_are_those_of_the_page(self) -> None:
        need_built()
        found = [0, 0]
        for seed in NETS:
            chance = random.Random(seed)
            text, motes = running_net_of(chance)
            report = answer(text.encode()).report.decode()
            scenario, page = Scenario.parse(text), PageJudge(text, report)
            names, claims = names_of(scenario), Claims(scenario)
            said, rows = list[tuple[str, bool, int]](), list[str]()
            for words, meaning in (it.sentence() for it in [Sentences(chance, motes)] * SENTENCES):
                sentence, holds = read_sentence(words, names), page.holds(meaning)
                with contextlib.suppress(NoClaim):
                    rows += [it.text for it in claims.of(sentence)]
                    said.append((words, holds, len(rows)))
            lines = answers(self, text, rows)
            self.assertEqual(lines, answers_to(rows, text.encode(), report))
            for (words, holds, end), (_, _, begin) in zip(said, [('', True, 0), *said]):
                found[holds] += 1
                with self.subTest(seed=seed, sentence=words, claims=rows[begin:end]):
                    self.assertEqual(all(it.startswith('holds') for it in lines[begin:end]), holds)
        self.assertGreater(min(found), sum(found) / 4, 'too few expectations hold, or too few are broken')


    def test_random_claims_have_the_answers_of_the_second_judge(self) -> None:
        need_built()
        found = [0, 0]
        for seed in NETS:
            chance = random.Random(seed)
            text, motes = running_net_of(chance)
            report = answer(text.encode()).report.decode()
            lines = [it for its in judge_of(text.encode(), report).traces for it in its]
            texts = ClaimTexts(chance, motes, [it.value for it in lines if it.value is not None])
            rows = [texts.claim() for _ in range(CLAIMS)]
            for line, wanted in zip(answers(self, text, rows), answers_to(rows, text.encode(), report), strict=True):
                self.assertEqual(line, wanted, seed)
                found[line.startswith('holds')] += 1
        self.assertGreater(min(found), sum(found) / 10, 'too few claims hold, or too few are broken')


class Surveys(unittest.TestCase):
    def test_the_listed_links_are_those_whose_loss_breaks_the_claim(self) -> None:
        news = (TOP / 'examples/news.toml').read_text().replace('from < (self + 3)', 'from < self')
        claims = ['each of motes 1 to 8: the lines "print process news" have in order of time exactly the values 7']
        alone, first, second, covered = answers(self, news, claims, '--links', *workers(2))
        lost = [link for link in permutations(range(9), 2)
                if answers(self, news + '[[loss]]\nfrom = %d\nto = %d\nevery = 1\n' % link,
                           claims)[0].startswith('broken')]
        self.assertEqual(alone, 'broken: ' + claims[0])
        self.assertEqual([tuple(map(int, re.findall(r'\d+', it))) for it in (first, second)], lost)
        self.assertEqual(covered, 'covered: all sets of at most 1 of 40 faults; runs: 41')


def need_motecheck(case: unittest.TestCase) -> None:
    if not CHECK.is_file():
        case.skipTest('%s is not built' % CHECK)


def answers(case: unittest.TestCase, scenario: str, claims: list[str], *options: str) -> list[str]:
    """The lines of motecheck: an answer to each claim, or a survey."""
    need_motecheck(case)
    room = room_of(case)
    (room / 'net.toml').write_text(scenario)
    (room / 'net.claims').write_text('\n'.join(claims))
    done = subprocess.run([CHECK, *options, 'net.toml', 'net.claims'], cwd=room, capture_output=True, text=True)
    case.assertIn(done.returncode, (0, 1), done.stderr)
    return done.stdout.splitlines()
