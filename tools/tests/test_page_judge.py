"""Sentences and reports by chance: their claims have the verdicts of a judge that was written from the page alone,
what is broken has a reason, and so has a question to tools/why."""
import os
import random
import unittest
from collections import Counter
from contextlib import suppress

import here  # noqa: F401
from claim_judge import deciding_by
from motesim.judge.claims import NoClaim
from motesim.judge.finder import Finder
from motesim.judge.reasons import Broken
from motesim.judge.meaning import Or, Sentence
from motesim.judge.names import names_of
from motesim.judge.sentences import read_sentence
from motesim.judge.verdicts import breaks
from motesim.report import Report
from motesim.scenario import Scenario
from motesim.causes.question import Asker, Missing, Unasked
from motesim.causes.source import Source
from page_judge import PageJudge
from page_sentences import Sentences, net_of

# The seeds of the nets, and the number of sentences about each net.
NETS, SENTENCES = range(int(os.environ.get('PAGE_JUDGE_NETS', '60'))), 25


class Verdicts(unittest.TestCase):
    def test_the_verdicts_are_those_of_the_page(self) -> None:
        found, answers = [0, 0], Counter[str]()
        for seed in NETS:
            chance = random.Random(seed)
            scenario, report, motes = net_of(chance)
            page, its = PageJudge(scenario, report), Scenario.parse(scenario)
            whole = Finder(Report.parse(report), its)
            names, sentences = names_of(its), Sentences(chance, motes)
            asker = Asker(Source('test', Report.parse(report), its))
            for text, meaning in (sentences.sentence() for _ in range(SENTENCES)):
                with self.subTest(seed=seed, sentence=text), suppress(NoClaim), deciding_by(report):
                    sentence, holds = read_sentence(text, names), page.holds(meaning)
                    broken, = breaks([sentence], whole)
                    self.assertEqual(broken is None, holds, report)
                    found[holds] += 1
                    answers[self.answer(asker, sentence, broken)] += 1
        self.assertEqual({*answers}, {'line', 'line that breaks it', 'missing', 'no line', 'no line breaks it'},
                         answers)
        self.assertGreater(min(found), sum(found) / 4, 'too few expectations hold, or too few are broken')

    def answer(self, asker: Asker, sentence: Sentence, broken: Broken | None) -> str:
        """The kind of the answer to the question about a sentence; it has the same verdict, and the line of the
        reason."""
        try:
            found = asker.answer(sentence)
        except Unasked as unasked:
            self.assertIn(unasked.holds, (broken is None, None) if isinstance(sentence, Or) else (broken is None,))
            return 'no line breaks it' if broken else 'no line'
        if isinstance(found, Missing):
            self.assertTrue(broken and broken.lacks and found.motes)
            return 'missing'
        self.assertEqual(found.holds, broken is None)
        self.assertTrue(broken is None or asker.line(broken.row) == found.where)
        return 'line that breaks it' if broken else 'line'
