"""The causes in the page of a run: in a headless browser, what the chain shows."""
import unittest

from here import TOP, room_of
import skips
import test_why
from browser import InBrowser
from motesim.judge.finder import Finder
from motesim.judge.names import names_of
from motesim.judge.sentences import read_sentence
from motesim.judge.verdicts import breaks
from motesim.report import Report
from motesim.report.run import Run, answer, read_run
from motesim.scenario import Scenario
from motesim.timeline.html import write_page
from motesim.timeline.note import Line, Note, note_of
from motesim.causes.chain import cause_of
from motesim.causes.pages import Causes, causes_of
from motesim.causes.source import At, Source


def small_run() -> Run:
    return Run('small', Report.parse(test_why.REPORT), Scenario.parse(test_why.SCENARIO))


class Data(unittest.TestCase):
    def test_causes_are_those_of_the_chains(self) -> None:
        """Of the lines of both motes, the distance of each cause; 0 at the head. Mote 1's `recv` is line 22."""
        source = Source('small', Report.parse(test_why.REPORT), Scenario.parse(test_why.SCENARIO))
        causes = Causes(source)
        places = [cause_of(source, At(0, place)) for place in range(18)]
        self.assertEqual(list(causes.causes)[:18], [
            0 if it is None or it.place < 0 else 2 * (place - it.place) for place, it in enumerate(places)])
        self.assertEqual(causes.causes[22], 2 * (22 - 12))

    def test_a_run_without_its_scenario_has_none(self) -> None:
        self.assertIn('Without its scenario', causes_of(small_run()._replace(scenario=None))['none'])


class Notes(unittest.TestCase):
    """A page with sentences that don't hold."""

    def note(self, sentence: str, example: str = '', has_row: bool = True) -> Note:
        """The note on a sentence about the small run, or about that of an example."""
        run = read_run(str(TOP / 'examples' / example)) if example else small_run()
        assert run.scenario
        broken, = breaks([read_sentence(sentence, names_of(run.scenario))], Finder(run.report, run.scenario))
        return note_of(run, sentence, broken if has_row else broken and broken._replace(row=None))

    def test_the_line_that_breaks_a_sentence(self) -> None:
        note = self.note('mote 1 prints h at most 0 times')
        self.assertEqual(note.lines, (Line('7 print h 8', 28),))

    def test_what_came_near_a_line_that_is_missing(self) -> None:
        note = self.note('mote 1 prints h 9')
        self.assertEqual(note.why,
                         'not for mote 1: at least 1 line "print process h value 9", but there are 0. The nearest:')
        self.assertEqual(note.lines[0].text, 'mote 1: h had left at 7')
        self.assertEqual(note.mote, 1)

    def test_a_page_on_missing_values_of_several_motes_opens_on_the_whole_run(self) -> None:
        sentence = 'motes 1 and 2 together print just hops 1, 1, 1 in any order'
        self.assertEqual(self.note(sentence, 'lesson/start.toml'), Note(
            sentence,
            'not for the net: the lines "print process hops" of motes 1 to 2 together have in any order exactly the '
            'values 1, 1, 1, but there are 2; missing: 1'))
        note = self.note('mote 1 prints just h 8, 9 in any order')
        self.assertEqual((note.lines[0].text, note.mote), ('mote 1: h had left at 7', 1))

    def test_a_page_on_values_opens_at_no_lost_copy_with_another_value(self) -> None:
        for sentence, is_shown in (('mote 1 prints echo 99', False), ('mote 1 prints just echo 30, 99', False),
                                   ('mote 1 prints echo more than 9 times', True),
                                   ('mote 1 prints just echo 99, 30 in any order', False)):
            note = self.note(sentence, 'small_network.toml', has_row=False)
            lines = [it for it in note.lines if 'the medium lost it' in it.text]
            self.assertEqual([bool(it.row) for it in lines], [is_shown], sentence)

    def test_a_page_on_an_order_opens_at_the_first_mote_that_misses_it(self) -> None:
        note = self.note('every mote but 0 prints hops within 0 of receiving', 'lesson/start.toml')
        self.assertEqual((note.mote, note.at), (3, 40))
        self.assertTrue(note.lines)

    def test_a_page_opens_at_the_packet_that_is_wanted(self) -> None:
        """And not at another one that was received."""
        for sentence, row, seen in (('mote 1 receives 12', 21, 'packet 0 of mote 2, with the value 12'),
                                    ('mote 1 receives 40', 45, 'packet 1 of mote 2, with the value 40')):
            first = next(it for it in self.note(sentence, 'small_network.toml').lines if it.row)
            self.assertEqual(first.row, row)
            self.assertIn(seen, first.text)

    def test_a_sentence_that_no_line_shows(self) -> None:
        self.assertEqual(note_of(small_run(), 'the report', None, ('line 3: x',)).lines, (Line('line 3: x'),))


class Pages(InBrowser):
    def test_the_chain_of_a_line_and_its_links(self) -> None:
        path = room_of(self) / 'page.html'
        write_page(path, 'page', [small_run()])
        self.browser.open(path, '#line=28')
        self.press('ask-why')
        self.wait('document.querySelector("#why-chain li")')
        self.assertIn('Critical path: 7 moments: 4 waiting for timers; 3 on the way, over 1 hop.',
                      self.value('by("why-chain").innerText'))
        shown = self.value('[...document.querySelectorAll("#why-chain li code")].map(it => it.textContent)')
        self.assertEqual(shown, ['7 print h 8', '7 take 0 h', '7 post 0 h packet 8', '7 recv 0 0 8', '4 send 0 8',
                                 '4 take 0 a', '4 post 0 a timer 0', '0 start a', 'mote 0 talker'])
        self.value('document.querySelectorAll("#why-chain li button")[4].click()')
        self.assertEqual(self.value('[m.chosen.mote, m.chosen.line]'), [0, 12])


class Runs(unittest.TestCase):
    def test_a_page_of_many_lines_opens(self) -> None:
        """If a page doesn't have the causes of all lines, it says where they are."""
        skips.need_built()
        data = (TOP / 'examples/trickle.toml').read_bytes()
        run = Run('trickle', Report.parse(answer(data).report), Scenario.parse(data))
        self.assertNotIn('none', causes_of(run))
