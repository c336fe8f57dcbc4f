"""What the page without a server takes care of: texts that nobody loses, sentences that stay true, and answers in
view."""
from __future__ import annotations

import json

from in_page import FLOODING, InPage, fragment

OTHER = FLOODING.replace('end = 160', 'end = 50')
WRONG = FLOODING.replace('send newest', 'send newst', 1)


class Sentences(InPage):
    def type_over(self, old: str, new: str) -> None:
        """Replaces a word of the program by typing."""
        self.value('(it => { it.focus(); const at = it.value.indexOf(%s); it.setSelectionRange(at, at + %d); })('
                   'by("text"))' % (json.dumps(old), len(old)))
        self.browser.type(new)

    def later(self) -> None:
        """The next change is a step of its own."""
        self.value('(web.history.step.at = 0)')

    def test_an_error_that_was_corrected_is_forgotten(self) -> None:
        self.open()
        self.type_over('send newest', 'send newst')
        self.wait('!by("fault").hidden')
        self.assertIn('has an error in line 28', self.said())
        self.later()
        self.type_over('send newst', 'send newest')
        self.wait('by("fault").hidden')
        self.assertIn('each mote that hears it', self.said())
        self.assertEqual(self.value('by("sentence").dataset.is'), '')

    def test_an_effect_is_said_across_an_error(self) -> None:
        self.open()
        self.type_over('every = 2', 'every = ')
        self.wait('!by("fault").hidden')
        self.later()
        self.type_over('every = ', 'every = 1')
        self.wait('m.differs.first')
        self.assertEqual(self.said(),
                         'Mote 1 prints 1 at 49 instead of 43. First different at moment 40, in the packets.')

    def test_the_line_of_an_error_is_that_beside_the_text(self) -> None:
        self.open()
        self.put(WRONG)
        self.wait('!by("fault").hidden')
        self.assertIn('in line %d:' % (WRONG[:WRONG.index('newst;')].count('\n') + 1), self.said())
        self.put(FLOODING.replace('base = 3', 'base = 0'))

    def test_a_net_of_a_link_says_what_it_is(self) -> None:
        self.open(fragment('# Nine motes spread news. More.\n' + OTHER))
        self.assertEqual(self.said(), 'This net came with the link. Nine motes spread news.')


class Texts(InPage):
    def example(self, place: int = 1) -> None:
        self.press('examples')
        self.value('document.querySelectorAll("#gallery-cards button")[%d].click()' % place)
        self.wait('web.document.name === "two_motes.toml" && run.begins.length === 2')

    def test_an_opened_example_is_a_step_that_is_undone(self) -> None:
        self.open()
        self.put('# my hour of work\n' + FLOODING)
        self.wait('run.rows === 1072')
        self.example()
        self.assertIn('smallest net', self.said())
        self.press('undo')
        self.wait('run.begins.length === 25')
        self.assertTrue(self.value('text').startswith('# my hour of work'))
        self.assertEqual(self.value('[web.document.name, web.example.file]'), ['flooding.toml', 'flooding'])
        self.press('redo')
        self.wait('run.begins.length === 2')
        self.assertEqual(self.value('by("try").textContent'), 'What if mote 1 is out of range?')

    def test_the_last_texts_are_among_the_examples(self) -> None:
        self.open()
        self.put('# my hour of work\n' + FLOODING)
        self.wait('run.rows === 1072')
        self.example()
        # (a visit in another tab, which has no steps of this one)
        self.forget_session()
        self.browser.open(self.page)
        self.assertTrue(self.value('text').startswith('# my hour of work'))
        self.example()
        self.press('examples')
        self.press_in('own', 'flooding.toml')
        self.wait('text.startsWith("# my hour of work") && run.begins.length === 25')

    def test_a_reload_keeps_the_last_change_and_the_steps(self) -> None:
        self.open()
        self.press('try')
        self.put('# in the last second\n' + FLOODING)
        self.browser.call('Page.reload')
        self.browser.wait('window.motesim && motesim.ready && motesim.web.history.text.startsWith("# in the last")')
        self.undo()
        self.assertIn('if is(packet) {', self.value('text').replace('(is(packet))', 'is(packet)'))
        self.undo()
        self.wait('by("try")')
        self.assertEqual(self.value('text'), FLOODING)

    def test_undo_in_a_field_is_about_the_field(self) -> None:
        self.open()
        self.press('try')
        self.press('tab-log')
        self.value('by("log-asked").focus()')
        self.browser.type('mote 3')
        changed = self.value('text')
        self.undo()
        self.assertEqual(self.value('text'), changed)

    def test_a_link_of_a_file_says_that_others_can_not_open_it(self) -> None:
        self.open()
        self.press('share')
        self.wait('by("link").value')
        self.assertIn('others can\'t open', self.value('by("sharing-said").textContent'))
        self.key('Escape')
        self.wait('!by("sharing").open')

    def test_runs_are_kept_up_to_so_many_bytes(self) -> None:
        self.open()
        self.value('(() => { const {history} = web; for (let i = 0; i < 6; i++) { history.take("text " + i, "edit"); '
                   'history.keep(history.step, {at: new Uint8Array(50e6)}); } })()')
        self.assertEqual(self.value('web.history.steps.map(it => Boolean(it.run)).slice(-6)'), [False] * 5 + [True])

    def test_a_worker_that_read_a_long_report_is_ended(self) -> None:
        self.open()
        self.wait('m.backend.front.worker')
        self.put(FLOODING.replace('end = 160', 'end = 500').replace('newest < 3', 'newest < 60').replace(
            '(is(packet) && (data > newest))', 'is(packet)'))
        self.wait('run.rows > 200000 && !m.backend.front.worker')

    def test_a_closing_brace_goes_back_to_its_block(self) -> None:
        self.open()
        self.value('(it => { it.focus(); it.select(); })(by("text"))')
        self.browser.type('code a {')
        self.key('Enter')
        self.browser.type('body {')
        self.key('Enter')
        for _ in range(2):
            self.browser.key('}', 'BracketRight', 221)
            self.key('Enter')
        self.assertEqual(self.value('by("text").value'), 'code a {\n  body {\n  }\n}\n')

    def test_names_that_begin_as_a_word_does_are_listed_while_it_is_typed(self) -> None:
        self.open()
        self.value('(it => { it.focus(); const at = it.value.indexOf("\\n", it.value.indexOf("set next 40")); '
                   'it.setSelectionRange(at, at); })(by("text"))')
        self.browser.type(' send ne')
        self.assertEqual(self.value('[...by("names").children].map(it => it.textContent)'), ['newest', 'next'])
        self.key('ArrowDown')
        self.key('Tab')
        self.assertIn('set next 40; send next', self.value('text'))
        self.assertTrue(self.value('by("names").hidden'))

    def test_a_bracket_is_marked_with_its_partner(self) -> None:
        self.open()
        self.value('(it => { it.focus(); const at = it.value.indexOf("(newest < 3"); it.setSelectionRange(at, at); })('
                   'by("text"))')
        self.wait('[...document.querySelectorAll(".bracket-mark")].map(it => it.textContent).join("") === "()"')


class Answers(InPage):
    def test_the_log_and_w_lead_to_why(self) -> None:
        self.open()
        self.press('play')
        self.press('tab-log')
        self.value('(it => { it.value = "mote 24 prints"; it.form.requestSubmit(); })(by("log-asked"))')
        self.value('by("log-lines").querySelector("button").click()')
        self.wait('by("ask-why") && by("ask-why").getClientRects().length')
        self.press('card-close')
        self.browser.key('w', 'KeyW', 87)
        self.wait('by("why-chain").textContent.includes("a timer had come to its end")')
        card, chain = self.value('[by("card"), by("why-chain")].map(it => it.getBoundingClientRect().top)')
        self.assertTrue(0 < card <= chain < card + 60, (card, chain))

    def test_a_click_on_a_low_lane_selects_what_its_colour_shows(self) -> None:
        self.open()
        self.press('play')
        line = self.value('run.prints[24][0]')
        x, y = self.value('((box, line) => { pane.zoomLanes(0.3); m.drawAll(); return [box.x + pane.x(run.at[line] + '
                          '0.5), box.y + pane.laneTop(24) + pane.lane / 2]; })'
                          '(pane.canvas.getBoundingClientRect(), %d)' % line)
        self.browser.click(x, y)
        self.assertEqual(self.value('run.text(m.chosen.line)'), self.value('run.text(%d)' % line))

    def test_parts_of_the_page_have_room(self) -> None:
        self.open()
        self.assertGreaterEqual(self.value('by("panes").clientHeight'), 0.4 * 768)
        before = self.value('by("write").clientWidth')
        x, y = self.value('(box => [box.x + 3, box.y + 300])('
                          'document.querySelector("[data-of=left]").getBoundingClientRect())')
        self.browser.drag(x, y, x + 100, y)
        self.assertAlmostEqual(self.value('by("write").clientWidth') - before, 100, delta=4)
        self.open()
        self.assertAlmostEqual(self.value('by("write").clientWidth') - before, 100, delta=4)

    def test_on_a_telephone_text_and_sentence_are_in_view_together(self) -> None:
        self.open(size=(390, 844))
        self.value('by("text").scrollIntoView({block: "end"})')
        self.browser.settle()
        said, text = self.value('[by("said"), by("text")].map(it => it.getBoundingClientRect())'
                                '.map(it => [it.top, it.bottom])')
        self.assertTrue(0 <= said[0] and said[1] < text[1] <= 845, (said, text))
        self.press('tab-checks')
        self.assertLessEqual(self.value('by("suggested").getBoundingClientRect().bottom'), 845)
        self.value('find("mote 24 prints")')
        self.browser.key('w', 'KeyW', 87)
        self.wait('!by("card").hidden')
        self.value('by("text").scrollIntoView({block: "start"})')
        self.browser.click(200, self.value('Math.max(0, by("text").getBoundingClientRect().top)') + 200)
        self.assertTrue(self.value('by("card").hidden'))

    def test_escape_adds_no_mote(self) -> None:
        self.open()
        self.press('add')
        self.key('Escape')
        self.assertEqual(self.value('[by("add").getAttribute("aria-pressed"), m.ground.adding]'), ['false', False])

    def test_help_has_the_notation_and_the_claims(self) -> None:
        self.open()
        self.press('help')
        self.wait('by("reference").open')
        shown = self.value('by("reference").innerText')
        for words in 'returns YIELDED once, and continues at the next call', 'one operator per pair of parentheses', \
                'GROUP   =', 'if (x == 1) { y = 1; } else { if (x == 2)':
            self.assertIn(words, shown)
        self.assertNotRegex(shown, r'\]\(|\\\|')
        self.key('Escape')
        self.wait('!by("reference").open')
