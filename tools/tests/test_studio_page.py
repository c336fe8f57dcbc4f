"""The page of tools/studio in a headless browser, where there is one: what its server adds to the page that
test_web_page.py tries: files, corrections, warnings, expectations, causes and states."""
import contextlib
import json
import threading
from typing import Any
from unittest import mock

from here import SECONDS, TOP, room_of, text_of
import skips
import stand_in
from browser import InBrowser
from motesim.runner import Limits
from motesim.studio.desk import Desk
from motesim.studio.server import Server
from motesim.studio.session import Session

NET = text_of('two_hear.toml')
EXPECTED = text_of('two_hear.expect.toml')
POLLED = text_of('polled.toml')
# (no run is stopped because the machine is busy)
LIMITS = Limits(SECONDS, 1 << 30, 16 << 20)
READY = 'window.motesim && motesim.ready && (motesim.checks.text || document.body.classList.contains("stale"))'


class InStudio(InBrowser):
    """The page of a file in the studio."""
    server: Any
    text = NET

    def setUp(self) -> None:
        super().setUp()
        self.stack = contextlib.ExitStack()
        self.addCleanup(self.stack.close)
        self.room = room_of(self)
        self.file = self.room / 'net.toml'
        self.server = None

    def serve(self, server: Any) -> None:
        self.server = server
        threading.Thread(target=server.serve_forever, kwargs={'poll_interval': 0.05}, daemon=True).start()

    def stop(self) -> None:
        if self.server:
            self.server.session.stop()
            self.server.shutdown()
            self.server.server_close()
            self.server = None

    def open(self, text: str | None = None, limits: Limits = LIMITS, against: str | None = None,
             faults: tuple[str, ...] = ()) -> None:
        self.file.write_text(text or self.text)
        self.serve(Server(Session(Desk(self.file), limits, against, faults)))
        self.stack.callback(self.stop)
        self.browser.size(1400, 900)
        self.visit()

    def visit(self) -> None:
        self.browser.visit(self.server.address, READY)
        self.browser.settle()

    def write(self, field: str, text: str) -> None:
        """Writes into a field, and sends its form."""
        self.value('(it => { it.value = %s; it.form.requestSubmit(); })(by("%s"))' % (json.dumps(text), field))

    def settled(self) -> None:
        """Waits until the results of the text are there."""
        self.wait('m.checks.text === text && web.ran === web.asked && web.history.step.run')

    def shown(self, name: str) -> Any:
        return self.value('by(%s).innerText' % json.dumps(name))

    def said(self, words: str) -> None:
        self.wait('by("sentence").innerText.includes(%s)' % json.dumps(words))

    def tab(self, name: str) -> Any:
        """The label of a tab, and how it is marked."""
        return self.value('(it => [it.textContent, it.className])(by("tab-%s"))' % name)


class Page(InStudio):
    """The page of a small net, run by a program that stands in for the built one."""

    def setUp(self) -> None:
        super().setUp()
        self.stack.enter_context(stand_in.program())
        (self.room / 'net.expect.toml').write_text(EXPECTED)

    def test_zoom_place_and_selection_stay(self) -> None:
        self.open()
        self.value('(m.act("+"), m.act("+"), pane.zoomLanes(1.5), find("mote 1 recv 6"))')
        view = '[m.time.begin, m.time.scale, pane.lane, pane.top, m.play.now, run.text(m.chosen.line)]'
        before = self.value(view)
        self.assertEqual(before[-1], '3 recv 0 1 6')
        self.put(NET.replace('print 1;', 'print 1; print 7;'))
        self.wait('Array.from(run.w).includes(7)')
        self.settled()
        self.assertEqual(self.value(view), before)

    def test_an_error_is_explained_and_corrected(self) -> None:
        self.open()
        self.put(NET.replace('print 1;', 'print (1);'))
        self.wait('!by("fault").hidden')
        for words in 'motesim: program talk fault 2', 'line 18, which is line 8 of program talk', 'Allowed here:':
            self.assertIn(words, self.shown('fault'))
        self.assertEqual(self.value('document.querySelector(".fault-mark").textContent.trim()'), ')')
        self.press('fault-correct')
        self.wait('by("fault").hidden && !document.body.classList.contains("stale")')
        self.assertEqual(self.value('text'), NET)
        self.put(NET.replace('print 1;', 'goto out;'))
        self.wait('!by("fault").hidden')
        self.assertTrue(self.value('by("fault-correct").hidden'))

    def test_a_scenario_that_begins_with_an_error_is_opened(self) -> None:
        self.open(NET.replace('base = 3', 'base = 0'))
        self.assertIn('medium fault 2', self.shown('fault'))
        self.put(NET)
        self.wait('m.panes.length === 1 && by("fault").hidden')

    def test_it_begins_at_the_first_difference_from_another_scenario(self) -> None:
        self.open(against=NET.replace('send 6;', 'send 9;'))
        self.wait('m.differs.first && m.chosen.line >= 0')
        self.assertEqual(self.value('[m.differs.first.at, run.at[m.chosen.line], text]'), [0, 0, NET])

    def test_what_is_hardly_meant_is_warned_of(self) -> None:
        self.open()
        self.wait('by("warnings").innerText.includes("Warning (timer-never-set): ")')
        self.press_in('warnings', '`beat`')
        self.assertEqual(self.value('(it => it.value.slice(it.selectionStart, it.selectionEnd))(by("text"))'), 'beat')
        self.put(NET.replace('etimer beat;', ''))
        self.wait('!by("warnings").innerText.includes("beat")')

    def checks(self) -> Any:
        """Which expectations hold, as the tab says."""
        return self.value('by("tab-checks").textContent.split(" · ")[0]')

    def test_checks_are_those_of_the_text_and_lead_to_the_line(self) -> None:
        self.open()
        self.wait('by("tab-checks").textContent.startsWith("Checks 3/3")')
        self.press('tab-checks')
        self.assertIn('mote 1 receives exactly 2', self.shown('held'))
        self.put(NET.replace('print 1;', 'print 1; print 2;'))
        self.wait('by("tab-checks").textContent === "Checks 2/3"')
        self.value('document.querySelector("#held .broken button").click()')
        self.assertEqual(self.value('[run.text(m.chosen.line), run.moteOf(m.chosen.line)]'), ['0 print talker 2', 0])

    def test_expectations_are_written_into_the_file_and_claims_into_the_text(self) -> None:
        self.open()
        self.press('tab-checks')
        self.write('expect-asked', 'no mote halts')
        self.wait('by("tab-checks").textContent.startsWith("Checks 4/4")')
        self.assertIn('"no mote halts"', (self.room / 'net.expect.toml').read_text())
        self.value('[...by("held").children].find(it => it.textContent.includes("no mote halts")).querySelector('
                   '".small").click()')
        self.wait('by("tab-checks").textContent.startsWith("Checks 3/3")')
        self.assertNotIn('no mote halts', (self.room / 'net.expect.toml').read_text())
        self.write('expect-asked', 'no mote halts')
        self.wait('by("tab-checks").textContent.startsWith("Checks 4/4")')
        self.write('expect-asked', 'no mote hlts')
        self.said('hlts')
        self.write('expect-asked', 'the net: exactly 6 packets sent')
        self.wait('by("tab-checks").textContent.startsWith("Checks 5/5")')
        self.assertIn('\n# expect: the net: exactly 6 packets sent\n', self.value('text'))

    def test_a_change_is_made_by_a_button_and_judged_by_its_own_sentences(self) -> None:
        self.open()
        self.assertEqual(self.shown('try'), 'Try: another value')
        self.press('try')
        self.wait('by("tab-checks").textContent.startsWith("Checks 1/1") && m.differs.first')
        self.assertIn('print 9', self.value('text'))

    def test_a_lost_connection_says_so_and_comes_back(self) -> None:
        self.open()
        session, port, token = self.server.session, self.server.port, self.server.token
        self.stop()
        self.put(NET.replace('print 1;', 'print 7;'))
        self.said("The studio doesn't answer")
        self.serve(Server(session, port, token))
        self.put(NET.replace('print 1;', 'print 8;'))
        self.wait('Array.from(run.w).includes(8) && !document.body.classList.contains("stale")')

    def test_a_text_that_was_not_saved_is_kept_unless_the_file_is_another(self) -> None:
        self.open()
        self.browser.run('localStorage.clear()')
        text = NET.replace('print 1;', 'print 7;')
        self.put(text)
        self.visit()
        self.assertEqual(self.value('text'), text)
        self.press('undo')
        self.assertEqual(self.value('text'), NET)
        self.press('redo')
        self.file.write_text(NET + '# of another\n')
        self.visit()
        self.assertTrue(self.value('text.endsWith("# of another\\n")'))
        self.press('examples')
        self.press_in('own', 'net.toml')
        self.wait('text === %s' % json.dumps(text))

    def test_a_text_is_saved_into_its_file_and_not_over_another(self) -> None:
        self.open()
        text = NET.replace('print 1;', 'print 7;')
        self.put(text)
        self.assertIn('• net.toml', self.value('document.title'))
        self.press('save')
        self.said('It is saved as net.toml.')
        self.assertEqual(self.file.read_text(), text)
        self.file.write_text(NET + '# of another\n')
        self.put(text + '# mine\n')
        self.press('save')
        self.said('was changed elsewhere')
        self.press_in('offers', 'Load the other')
        self.wait('text.endsWith("# of another\\n")')
        self.assertEqual(self.file.read_text(), NET + '# of another\n')

    def test_files_and_examples_are_opened_and_saved_under_a_new_name(self) -> None:
        (self.room / 'other.toml').write_text(NET + '# other\n')
        self.open()
        self.press_in('gallery', 'other.toml')
        self.wait('text.endsWith("# other\\n") && web.document.name === "other.toml"')
        self.press_in('gallery', 'Flooding')
        self.wait('web.document.name === "flooding.toml" && !by("save").disabled')
        self.value('(() => { window.prompt = () => "mine"; by("save").click(); })()')
        self.wait('web.document.name === "mine.toml"')
        self.assertEqual((self.room / 'mine.toml').read_bytes(), (TOP / 'examples/flooding.toml').read_bytes())

    def test_the_page_of_the_run_is_handed_out_as_one_file(self) -> None:
        self.open()
        page = self.downloaded(self.room / 'net.html', 'export')
        self.browser.visit(page.as_uri(), 'window.motesim && motesim.ready')
        self.assertEqual(self.browser.run('motesim.panes[0].run.begins.length'), 3)

    def test_a_link_is_one_to_the_page_without_a_server(self) -> None:
        self.open()
        self.press('share')
        self.wait('by("link").value')
        link = self.value('by("link").value')
        self.assertTrue(link.startswith('motesim.html#t=1.'), link)
        self.assertNotIn(self.server.token, link)
        page = self.downloaded(self.room / 'net.html', 'save-page')
        self.browser.visit(page.as_uri(), 'window.motesim && motesim.ready')
        self.assertEqual(self.value('text'), NET)

    def test_it_fits_narrow_windows_and_all_has_a_name(self) -> None:
        self.open()
        for name in 'tab-why', 'tab-state', 'tab-log', 'tab-checks':
            self.press(name)
        for width in 1400, 1000, 700, 390:
            self.browser.size(width, 900)
            self.browser.settle()
            self.assertLessEqual(self.value('document.documentElement.scrollWidth'), width)
        self.assertEqual(self.unnamed(), [])


class Causes(InStudio):
    """Causes, states and the log of runs of the built program."""
    text = (TOP / 'examples/flooding.toml').read_text()

    def setUp(self) -> None:
        skips.need_built()
        super().setUp()
        self.file = self.room / 'flooding.toml'
        self.file.with_suffix('.expect.toml').write_text('expect = ["mote 0 prints flood 1"]\n')

    def waits(self, name: str, text: str) -> None:
        self.wait('by("%s").innerText.includes(%s)' % (name, json.dumps(text)))

    def stop_at(self, line: str) -> None:
        """Goes on to a line, and looks at the state there."""
        self.value('find(%s)' % json.dumps(line))
        self.press('tab-state') if self.value('by("state").hidden') else None

    def test_why_and_why_not(self) -> None:
        self.open()
        self.press('tab-why')
        self.write('why-asked', 'mote 6 prints flood 1')
        self.waits('why', 'Critical path: 46 moments: 40 waiting for timers; 6 on the way, over 2 hops.')
        self.waits('why', 'line 22 (flooding.toml:35): `print newest`, in line 20 (flooding.toml:33): `if ')
        self.wait('m.chosen.mote === 6 && '
                  'document.querySelector(".statement-line")?.textContent.includes("print newest")')
        self.value('document.querySelector("#why-chain .place").click()')
        self.assertEqual(self.value('(it => it.value.slice(it.selectionStart, it.selectionEnd).trim())(by("text"))'),
                         'print newest;')
        self.write('why-asked', 'mote 1 prints flood 2 by 85')
        self.waits('why', 'the medium lost it, because it loses one packet in 2 from 0 to 1')
        self.value('document.querySelector("#why-chain button").click()')
        self.assertEqual(self.value('m.chosen.mote'), 1)

    def test_a_fault_of_the_run_is_one_of_its_causes_too(self) -> None:
        self.open(faults=('link 0 to 5 is broken',))
        self.wait('run.faults.length && m.checks.items.length')
        self.press('tab-why')
        self.write('why-asked', 'mote 24 prints flood 2')
        self.waits('why', 'because link 0 to 5 is broken')

    def test_a_broken_expectation_is_shrunk(self) -> None:
        self.open(faults=('link 0 to 5 is broken',))
        self.press('tab-checks')
        self.wait('by("held").innerText.includes("Shrink")')
        with mock.patch('motesim.studio.session.small_text', return_value=NET):
            self.press_in('held', 'Shrink')
            self.wait('run.begins.length === 3 && by("run-faults").hidden')

    def test_a_line_that_an_expectation_misses(self) -> None:
        """No line breaks it, so a click shows what came near."""
        self.open()
        self.press('tab-checks')
        self.wait('document.querySelector("#held .broken button")')
        self.value('document.querySelector("#held .broken button").click()')
        self.waits('why', 'was never reached')
        self.assertEqual(self.value('by("why-asked").value'), 'mote 0 prints flood 1')

    def test_the_state_of_a_mote_is_shown_after_a_line(self) -> None:
        """Mote 3 takes message 1 at 49, in line 113; the step after it changes `newest`, which line 114 prints."""
        self.open()
        self.stop_at('mote 3 prints 1')
        self.waits('state-rows', 'newest = 1')
        self.assertEqual(self.value('document.querySelectorAll("#state-rows .changed").length'), 0)
        self.stop_at('mote 3 takes at 49')
        self.waits('state-rows', 'newest = 1 (changed)')
        self.waits('state-at', 'take 0 flood')
        self.press_in('log', 'line ›')
        self.waits('state-at', 'Mote 3')

    def test_the_process_that_runs_after_a_poll_and_after_another_has_exited(self) -> None:
        """The report has no line for the call of a poll: the replay names the process that is called."""
        exits = POLLED.replace('is(poll); send 7;', 'gone(a); send 7;').replace('print 1; yield;', 'print 1;')
        for text, lines in ((POLLED, [('mote 0 takes timer', 'a, called with timer 0', 'b waits at'),
                                      ('mote 0 sends', 'b, called with poll', 'b is being called'),
                                      ('mote 0 prints 2', '', 'b waits at')]),
                            (exits, [('mote 0 sends', 'b, called with exited: a has exited', ''),
                                     ('mote 0 leaves', '', '')])):
            self.open(text)
            for line, runs, state in lines:
                self.stop_at(line)
                self.waits('state-rows', state)
                self.wait('(by("state-rows").innerText.match(/runs now: (.*)/) || ["", ""])[1] === %s'
                          % json.dumps(runs))
            self.stop()
