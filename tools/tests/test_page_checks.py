"""Checks in the page without a server: what must hold, kept in the text; the faults that break it; and both by link."""
from __future__ import annotations

import json
from typing import Any

from here import TOP
from in_page import FLOODING, InPage, fragment

GOAL = 'each of motes 1 to 24: the lines "print process flood" have in order of time exactly the values 1, 2, 3'
CHECKED = '# expect: %s\n%s' % (GOAL, FLOODING)
NEWS = (TOP / 'examples/news.toml').read_text()
# The examples that motesim runs.
EXAMPLES = [it.read_text() for it in sorted((TOP / 'examples').glob('*.toml'))
            if not it.name.endswith('.expect.toml') and it.name != 'wrong.toml']


class Checks(InPage):
    def tab(self) -> Any:
        return self.value('by("tab-checks").textContent')

    def surveyed(self) -> None:
        # (a busy machine asks before it tries)
        self.wait('m.checks.survey || !by("try-single").hidden')
        self.value('(m.checks.survey || by("try-single").click(), 1)')
        self.wait('m.checks.survey && !by("tried").textContent.includes("…")')

    def test_what_must_hold_is_suggested_kept_in_the_text_and_taken_back(self) -> None:
        self.open()
        self.press('tab-checks')
        self.press_in('suggested', 'every mote but 0 prints just flood 1, 2, 3')
        self.surveyed()
        self.assertIn('# expect: %s\n' % GOAL, self.value('text'))
        self.assertEqual(self.tab(), 'Checks 1/1 · 4 faults break it')
        # (the middle of the breaking link is red on the map)
        self.assertTrue(self.value('(map => { const [x0, y0, x1, y1] = map.way(0, 5), d = map.dots, {data} = '
                                   'map.context.getImageData((x0 + x1) / 2 * d - 3, (y0 + y1) / 2 * d - 3, 6, 6); '
                                   'return [...data].some((it, i) => i % 4 === 0 && it > 150 && data[i + 1] < 100); '
                                   '})(m.maps[0])'))
        self.assertRegex(self.value('by("tried").textContent'),
                         r'^Covered: each single fault of these kinds, by 345 runs in [\d,]+ ms\. 4 break it\.$')
        self.assertIn('Every mote but 0 prints just flood 1, 2, 3, but link 0 to 5, mote 0, mote 5 or packet 1 of '
                      'mote 0 to mote 5 alone can break it.', self.said())
        self.undo()
        self.wait('by("tab-checks").textContent === "Checks"')
        self.assertEqual(self.value('text'), FLOODING)

    def test_suggestions_hold_for_all_examples(self) -> None:
        self.open()
        for text in EXAMPLES:
            self.put(text)
            self.wait('web.shown === %s' % json.dumps(text))
            self.wait('by("suggested").querySelectorAll("button").length')
            claims = self.value('[...by("suggested").querySelectorAll("button")].map(it => it.title)')
            self.put(''.join('# expect: %s\n' % it for it in claims) + text)
            self.wait('m.checks.items.length === %d' % len(set(claims)))
            broken = self.value('m.checks.items.flatMap(it => it.verdicts).filter(it => it.verdict !== "holds")')
            self.assertEqual(broken, [], text[:80])

    def test_a_fault_becomes_a_part_of_the_run_and_says_why(self) -> None:
        self.open(fragment(CHECKED))
        self.surveyed()
        self.press('tab-checks')
        self.press_in('breaking', 'link 0 to 5')
        self.wait('by("why-chain").textContent'
                  '.includes("packet 1 of mote 0 to mote 5, sent at 80, was lost on the way")')
        self.assertIn('\n# fault: link 0 to 5 is broken\n', self.value('text'))
        self.assertIn('Mote 1 doesn\'t print 2, as it did at 89', self.value('by("why-chain").textContent'))
        self.assertTrue(self.said().startswith('Broken: every mote but 0 prints just flood 1, 2, 3.'))
        self.assertEqual(self.value('run.text(m.chosen.line)'), '80 send 1 2')
        self.assertIn('link 0 to 5 is broken', self.value('by("run-faults").textContent'))
        self.assertEqual(self.value('by("breaking").querySelectorAll("[aria-pressed=true]").length'), 1)
        self.value('by("run-faults").querySelector("button").click()')
        self.wait('by("run-faults").hidden && m.checks.items.length && m.checks.survey')
        self.assertEqual(self.value('text'), CHECKED)

    def test_a_link_carries_the_faults_of_a_run_and_says_which_change_nothing(self) -> None:
        unused = 'packet 99 of mote 3 is lost'
        self.open(fragment('# fault: mote 12 is silent\n# fault: %s\n%s' % (unused, CHECKED)))
        self.wait('m.checks.items.length')
        chips = '[...document.querySelectorAll("#run-faults .chip")].map(it => [it.firstChild.data, it.className])'
        self.assertEqual(self.value(chips), [['mote 12 is silent', 'chip'], [unused, 'chip unused']])
        self.assertIn('prints just flood 1, 2, 3, also with these faults.', self.said())
        self.assertEqual(self.value('by("tried").textContent'), 'Other faults are tried in the run without faults.')
        self.press('share')
        self.wait('by("link").value')
        self.assertEqual(self.downloaded(self.room / 'shared.faults', 'download-faults').read_text(),
                         'mote 12 is silent\n%s\n' % unused)

    def test_a_fault_of_what_is_selected_is_tried_and_one_of_no_link_says_so(self) -> None:
        self.open()
        self.value('find("mote 5 recv from 0")')
        self.press_in('details', 'What if this copy is lost?')
        self.wait('run.faults.length && run.copyFate[m.chosen.copy] === 5')
        self.assertEqual(self.value('run.faults'), ['packet 1 of mote 0 is lost on the way to mote 5'])
        self.put('# fault: link 0 to 9 is broken\n' + FLOODING)
        self.wait('!by("fault").hidden')
        self.assertIn('no such mote or link', self.value('by("fault").textContent'))
        self.press('fault-correct')
        self.wait('by("fault").hidden && !document.body.classList.contains("stale")')
        self.assertEqual(self.value('text'), FLOODING)

    def test_pairs_are_tried_when_asked_for_and_end_at_the_next_key(self) -> None:
        self.open(fragment('# faults: links\n' + CHECKED))
        self.surveyed()
        self.press('tab-checks')
        self.press('try-pairs')
        self.wait('m.checks.pairs')
        self.assertEqual(self.value('m.checks.pairs.claims[0].sets.length'), 6)
        self.assertIn('Covered: each fault of these kinds and each pair, by ', self.value('by("tried").textContent'))
        self.assertIn('link 2 to 1 + link 6 to 1', self.value('by("breaking").textContent'))
        self.value('by("text").focus()')
        self.press('try-pairs') if self.value('!by("try-pairs").hidden') else None
        self.browser.type('#\n')
        self.assertEqual(self.value('[m.checks.pairs, m.backend.back.worker === null || true]'), [None, True])

    def test_a_broken_check_leads_to_its_line(self) -> None:
        self.open(fragment('# expect: each of motes 0 to 24: at most 2 lines "send"\n' + FLOODING))
        self.wait('m.checks.items.length')
        self.assertEqual(self.tab(), 'Checks 0/1')
        self.press('tab-checks')
        self.value('by("held").querySelector(".broken button").click()')
        self.assertEqual(self.value('[m.chosen.mote, run.words(m.chosen.line)]'), [0, 'send 2 3'])

    def test_a_line_is_expected_of_its_mote_or_of_all(self) -> None:
        self.open()
        self.value('find("mote 24 prints")')
        self.browser.key('w', 'KeyW', 87)
        for words, claim in (('of mote 24', 'mote 24: at least 1 line "print process flood value 1"'),
                             ('of all motes', 'each of motes 1 to 24: at least 1 line "print process flood value 1"')):
            self.press_in('details', words)
            self.wait('text.includes(%s)' % json.dumps('# expect: ' + claim))

    def test_a_claim_is_typed_and_one_that_can_not_be_read_says_where(self) -> None:
        self.open()
        self.press('tab-checks')
        for words in 'the net: exactly 75 packets sent', 'mote 1: exactly 3 lines "snd"':
            self.value('(it => { it.value = %s; it.form.requestSubmit(); })(by("expect-asked"))' % json.dumps(words))
            self.wait('m.checks.items.length === 1')
        self.wait('by("said").textContent.includes("read from here on: snd")')
        self.assertEqual(self.value('(it => it.value.slice(it.selectionStart))(by("expect-asked"))'), 'snd"')
        self.assertEqual(self.tab().split(' ·')[0], 'Checks 1/1')

    def test_one_that_can_not_be_read_is_left_out_when_faults_are_tried(self) -> None:
        self.open()
        self.value('m.web.pad.area.focus()')
        self.value('(it => { it.value = \'# expect: the net: exactly 75 packets sent\\n# expect: mote 1: exactly 3 '
                   'lines "snd"\\n\' + it.value; '
                   'it.dispatchEvent(new Event("input", {bubbles: true})); })(m.web.pad.area)')
        self.wait('by("tried").textContent.includes("Left out: 1 expectation.")')
        self.assertIn('can\'t be read from here on: snd"', self.value('by("held").textContent').replace('"snd', 'snd'))

    def test_an_exercise_says_when_it_is_right(self) -> None:
        """News on a grid, which a single lost link must not stop: the wrong condition is corrected by typing."""
        wrong = NEWS.replace('(is(packet) && (from < (self + 3)))', '(is(packet) && (from < self))')
        self.assertNotEqual(wrong, NEWS)
        goal = '# expect: each of motes 1 to 8: at least 1 line "print process news value 7"\n# faults: links\n'
        self.open(fragment(goal + wrong))
        self.surveyed()
        self.assertRegex(self.said(), r'^Not yet: .* but .* can break it\.')
        self.value('(it => { it.focus(); const at = it.value.indexOf("(from < self)"); '
                   'it.setSelectionRange(at, at + 13); })(by("text"))')
        self.browser.type('(from < (self + 3))')
        right = 'Right: %s news 7, also with any single fault (links).'
        self.wait('[%r, %r].some(it => by("said").textContent.startsWith(it))' % (
            right % 'each of motes 1 to 8 prints', right % 'every mote but 0 prints'))
        self.assertEqual(self.tab(), 'Checks 1/1')

    def test_results_of_an_earlier_text_are_none_of_a_text_with_an_error(self) -> None:
        self.open(fragment(CHECKED))
        self.surveyed()
        self.put(CHECKED.replace('send newest', 'send newst', 1))
        self.wait('!by("fault").hidden')
        self.assertEqual(self.tab(), 'Checks')
        self.assertTrue(self.value('by("checks").classList.contains("earlier") && !m.checks.items.length'))
        self.assertIn('has an error', self.said())
