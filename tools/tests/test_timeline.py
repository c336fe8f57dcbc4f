"""The pages of tools/timeline: their data, and in a headless browser, where there is one, what they show. What the
command says is in sessions/timeline.toml."""
import itertools
import json
import re
import unittest
from collections.abc import Callable
from typing import Any

from here import TOP, room_of, text_of
from browser import InBrowser
from motesim.faults import Fault
from motesim.report import Report
from motesim.report.run import Run
from motesim.scenario import Scenario
from motesim.scenario.fields import read_fields
from motesim.timeline.columns import data_of
from motesim.timeline.html import page_of, write_page
from motesim.timeline.note import Line, Note

CONTROL = 2
SHIFT = 8
# Mote 0 sends at 2 by its timer, and not at 4; its third event is never taken.
SILENT = text_of('silent.report')


def small_network() -> Run:
    """The run of examples/small_network.toml, whose report stands in docs/use/REPORT.md."""
    text = (TOP / 'docs/use/REPORT.md').read_text().split('```\n')[1]
    return Run('small', Report.parse(text), Scenario.parse((TOP / 'examples/small_network.toml').read_bytes()))


def case(name: str) -> Run:
    nets = TOP / 'tests/cases/nets'
    return Run(name, Report.parse((nets / (name + '.expected')).read_bytes()),
        Scenario.parse((nets / (name + '.toml')).read_bytes()))


def many(motes: int, sends: int) -> str:
    """A report in which many motes, each of them alone, wake by a timer and send."""
    lines, medium = [], []
    for mote in range(motes):
        lines += ['mote %d p' % mote, '0 start a']
        for number in range(sends):
            at = 1 + mote % 3 + 3 * number
            lines += ['%d post %d a timer 0' % (at, number), '%d take %d a' % (at, number),
                '%d send %d 5' % (at, number)]
            medium.append((at, mote, number))
    return '\n'.join(lines + ['medium'] + ['%d %d %d 5' % packet for packet in sorted(medium)] + ['left 0', ''])


class Data(unittest.TestCase):
    def test_the_fields_of_values_are_those_that_are_declared(self) -> None:
        run = small_network()
        assert run.scenario
        self.assertNotIn('fields', data_of(run)[0])
        run.scenario.fields = read_fields({'half': 'value / 2', 'odd': 'value % 2'})
        found = data_of(run)[0]['fields']
        self.assertEqual(set(found), {*run.report.log.value, *run.report.trace.of['print']['value']})
        self.assertEqual(found[10], ' (half 5, odd 0)')

    def test_what_a_page_can_not_show_is_a_fault(self) -> None:
        """Packets out of their numbers, and numbers that are too large."""
        for text in (SILENT.replace('2 send 0 7', '2 send 1 7').replace('recv 0 0 7', 'recv 0 1 7').replace(
                '2 0 0 7', '2 0 1 7'), SILENT.replace('post 2 a', 'post 9876543210 a')):
            with self.assertRaises(Fault):
                data_of(Run('wrong', Report.parse(text), None))

    def test_a_page_fetches_nothing_and_its_title_is_text(self) -> None:
        page = ''.join(page_of('<b> & @SCRIPT@', [Run('</script>', Report.parse(SILENT), None)]))
        self.assertIn('<h1>&lt;b&gt; &amp; @SCRIPT@</h1>', page)
        self.assertEqual(page.count('</script>'), page.count('<script'))
        data, = re.findall('id="data" type="application/json">(.*)</script>', page)
        self.assertEqual(json.loads(data)['runs'][0]['name'], '</script>')
        for word in 'http:', 'https:', ' src=', '@import', 'url(':
            self.assertNotIn(word, page)


class Pages(InBrowser):
    """A page in a browser."""

    def open(self, *runs: Any, fragment: str = '', **words: Any) -> None:
        page = room_of(self) / 'page.html'
        write_page(page, 'A page', runs, **words)
        self.browser.size(1280, 800)
        self.browser.open(page, fragment)
        self.browser.settle()

    def open_report(self, text: str) -> None:
        self.open(Run('page', Report.parse(text), None))

    def click(self, row: int) -> None:
        """Clicks on the mark of a line of the report."""
        self.browser.click(*self.value(text_of('place_of_line.js.txt') % row))

    def shows(self, box: str, *words: str) -> None:
        said = self.value('by("%s").innerText' % box)
        for it in words:
            self.assertIn(it, said)

    def selected(self) -> Any:
        return self.value('m.chosen.pane && m.chosen.line >= 0 ? run.text(m.chosen.line) : null')

    def key(self, key: str, **words: Any) -> None:
        self.value('pane.canvas.focus()')
        self.browser.key(key, **words)

    def drawn(self, before: str = '0') -> list[dict[str, Any]]:
        """What is drawn on the lanes, in its order, after a script: texts, pictures and boxes."""
        found: list[dict[str, Any]] = self.value(text_of('drawn.js.txt') % before)
        return found

    def test_wheel_and_keys_zoom_and_pan(self) -> None:
        self.open(small_network())
        scale, under, begin, lane = 'm.time.scale', 'pane.moment(500)', 'm.time.begin', 'pane.lane'
        left, top = self.value('(({x, y}) => [x, y])(pane.canvas.getBoundingClientRect())')
        x, y = left + 500, top + 120
        whole, before, low = self.value('[%s, %s, %s]' % (scale, under, lane))
        self.browser.wheel(x, y, -400)
        self.assertGreater(self.value(scale), whole * 1.5)
        self.assertAlmostEqual(self.value(under), before, places=6)
        moves: list[tuple[str, Callable[[], object]]] = [
            (begin, lambda: self.browser.wheel(x, y, 100, SHIFT)),
            (lane, lambda: self.browser.wheel(x, y, -200, CONTROL)),
            (begin, lambda: self.key('ArrowRight', number=39)),
            ('-' + begin, lambda: self.browser.drag(x, y, x + 60, y))]
        for what, does in moves:
            was = self.value(what)
            does()
            self.assertGreater(self.value(what), was, what)
        self.key('0')
        self.assertEqual(self.value('[%s, %s]' % (scale, lane)), [whole, low])
        self.value('m.fixed = m.time.begin + m.time.width / m.time.scale / 2')
        place = self.value('pane.x(m.fixed)')
        for zoom in '++-':
            self.key(zoom)
            self.assertAlmostEqual(self.value('pane.x(m.fixed)'), place, places=6)

    def test_a_click_shows_a_packet_an_arrow_its_copy_and_an_event_its_post(self) -> None:
        self.open(small_network())
        self.click(12)
        self.assertEqual(self.selected(), '8 send 2 30')
        self.shows('details', 'Packet 2 of mote 0, value 30', 'line 44', '8 0 2 30 1@10', 'line 22', '10 recv 0 2 30',
                   'received and handed on')
        for key, line in (']', '8 leave sender'), ('}', '10 recv 0 2 30'):
            self.key(key)
            self.assertEqual(self.selected(), line)
        self.key('Escape', number=27)
        self.assertIsNone(self.selected())
        self.browser.click(*self.value(text_of('place_of_arrow.js.txt')))
        self.shows('details', 'Packet 1 of mote 0, value 20', 'mote 1: lost on the way')
        # (events of the kernel, and of a program)
        for event in 'msg', 'full':
            self.open_report(SILENT.replace('msg', event))
            self.click(9)
            self.shows('details', 'Event 2 of mote 0: %s 1' % event, 'still waiting when the run ends')
            silent = 'Array.from(run.silent.keys()).filter(i => run.silent[i]).map(i => run.text(i))'
            self.assertEqual(self.value(silent), ['4 take 1 a'])

    def test_a_mote_that_boots_again_has_lost_its_events(self) -> None:
        self.open_report('mote 0 p\n0 start a\n0 post 0 a msg 1\n5 boots\n5 start a\nmedium\nleft 0\n')
        self.click(3)
        self.shows('details', 'Event 0 of mote 0: msg 1', 'still waiting when the mote went off')
        self.value('find("boots")')
        self.assertEqual(self.selected(), '5 boots')
        self.value('m.askWhy(pane, 3)')
        self.wait('by("why-chain").textContent.includes("a fault, after which the mote boots")')
        self.shows('why-chain', '5 start a', 'mote 0: the mote boots', '5 boots')

    def test_a_run_is_played_and_a_search_finds_lines(self) -> None:
        self.open(small_network())
        self.check_play()
        for words, said in (('print', '2 of 36 lines'), ('at 4..8 send', '2 of 36 lines'),
                            ('all', '0 of 36 lines'), ('nonsense', 'No kind, process or event has the name nonsense.')):
            self.value('find(%s)' % json.dumps(words))
            self.browser.settle()
            self.assertEqual(self.value('by("log-counts").textContent'), said)
        self.value('(m.setNow(0), find("send"))')
        self.assertEqual(self.selected(), '0 send 0 10')
        self.assertEqual(self.value('Array.from(m.logged.rings[0], it => run.words(it)[0]).join("")'), 'sssss')
        for key, line in ('n', '0 send 0 12'), ('p', '0 send 0 10'):
            self.key(key)
            self.assertEqual(self.selected(), line)
        self.assertEqual(self.value('by("log-lines").children.length'), 5)

    def check_play(self) -> None:
        for key, moments in ('.', [2, 4, 8, 10, 19, 20]), (',', [19]):
            for moment in moments:
                self.key(key)
                self.assertEqual(self.value('m.play.now'), moment)
        # (an element over the lanes moves; these aren't drawn again)
        before = self.value('(by("speed").value = "100", m.setNow(0), m.picture = pane.canvas.toDataURL(), '
                            'pane.cursor.style.transform)')
        self.key(' ')
        self.browser.wait('motesim.play.now === 20 && !motesim.play.runs')
        self.assertEqual(self.value('pane.canvas.toDataURL() === m.picture'), True)
        self.assertNotEqual(self.value('pane.cursor.style.transform'), before)

    def test_two_runs_share_their_time(self) -> None:
        self.open(small_network(), case('two_senders_collide'), start=10, mote=1)
        self.assertEqual(self.value('[m.panes.length, m.panes[0].x(7) - m.panes[1].x(7), m.play.now]'), [2, 0, 10])
        self.assertEqual(self.selected(), '10 recv 0 2 30')
        # (the log is that of the first run, whatever is selected in the other)
        self.value('(m.panes[1].canvas.focus(), m.act("]"), m.setNow(8), m.act("n"))')
        self.assertEqual(self.value('[m.chosen.pane === pane, run.at[m.chosen.line]]'), [True, 8])

    def test_an_address_says_what_is_shown(self) -> None:
        self.open(small_network(), fragment='#from=4&to=12&line=22')
        self.assertEqual(self.selected(), '10 recv 0 2 30')
        self.assertAlmostEqual(self.value('pane.moment(pane.gutter)'), 4, places=6)
        self.open(small_network(), fragment='#mote=2')
        self.assertEqual(self.value('m.chosen.mote'), 2)

    def test_a_note_leads_to_its_line(self) -> None:
        others = tuple(Note('mote %d sends 7' % it, 'mote %d has 0 such lines' % it, (Line('10 recv 0 2 30', 22),))
                       for it in (1, 2))
        lines = Line('nothing'), Line('19 send 1 40', 38)
        note = Note('mote 1 sends 41', 'it has 0 such lines', lines, others=others)
        self.open(small_network(), note=note)
        self.assertEqual(self.selected(), '19 send 1 40')
        self.assertTrue(self.value('pane.x(19) > pane.gutter && pane.x(19) < pane.canvas.clientWidth'))
        self.shows('note', 'Broken: mote 1 sends 41', 'it has 0 such lines', 'nothing', 'line 38',
                   'Also broken: mote 2 sends 7')
        self.assertNotIn('mote 2 has 0 such lines', self.value('by("note").innerText'))
        self.assertTrue(self.value('[...document.querySelectorAll("button.line .where")]'
                                   '.every(it => it.scrollWidth <= it.clientWidth)'))
        self.value('document.querySelector("#note details:last-child summary").click()')
        self.shows('note', 'mote 2 has 0 such lines')
        self.value('document.querySelector("#note details:last-child button").click()')
        self.assertEqual(self.selected(), '10 recv 0 2 30')

    def test_a_note_without_a_line_leads_to_the_last_one_before_its_moment(self) -> None:
        for note, line in (Note('mote 0 prints 3', 'mote 0 has 0 such lines', (), 9, 0), '8 leave sender'), (
                Note('this fails', ''), None):
            self.open(small_network(), note=note)
            self.assertEqual(self.selected(), line)

    def test_forms_are_drawn_light_dark_narrow_and_for_print(self) -> None:
        self.open(small_network())
        pictures = []
        for is_dark in False, True, False:
            self.browser.dark(is_dark)
            self.browser.settle()
            pictures.append(self.value('pane.canvas.toDataURL()'))
        self.assertEqual((pictures[0] == pictures[2], pictures[0] == pictures[1]), (True, False))
        self.browser.size(390, 800)
        self.browser.settle()
        self.assertLessEqual(self.value('document.documentElement.scrollWidth'), 390)
        self.assertEqual(self.unnamed(), [])
        pdf = room_of(self) / 'page.pdf'
        self.browser.print(pdf)
        self.assertEqual(pdf.read_bytes()[:5], b'%PDF-')

    def test_the_names_beside_low_lanes_are_whole(self) -> None:
        """Later drawings don't cover a name, and moment 0 has its number on the axis."""
        self.open_report(many(60, 4))
        for lane in 40, 11, 7, 3:
            drawn = self.drawn('Object.assign(pane, {lane: %d, top: 0})' % lane)
            place = next(i for i, it in enumerate(drawn) if it['x'] == 6 and it.get('text') in ('0', 'mote 0'))
            covers = [it for it in drawn[place + 1:] if it['is'] == 'box' and it['wide'] > 4 and it['x'] < 10
                      and it['y'] < drawn[place]['y'] + 5 and it['y'] + it['tall'] > drawn[place]['y'] - 5]
            self.assertEqual(covers, [], lane)
            self.assertTrue([it for it in drawn if it.get('text') == '0' and it['x'] > 70])

    def test_no_mark_and_no_other_word_covers_a_value_or_a_name(self) -> None:
        turn = ('{0} post {1} collector_main msg 1\n{0} take {1} collector_main\n{0} print collector_main 12345\n'
                '{0} print collector_main 54321\n{0} post {2} echo msg 1\n{0} take {2} echo\n{0} send {1} 1\n'
                '{0} send {2} 1\n')
        lines = ''.join(turn.format(4 * at + at % 3, 2 * at, 2 * at + 1) for at in range(60))
        log = ''.join('%d 0 %d 1\n' % (4 * (at // 2) + at // 2 % 3, at) for at in range(120))
        self.open_report('mote 0 p\n0 start collector_main\n0 start echo\n%smedium\n%sleft 0\n' % (lines, log))
        wanted, names = {'collector_main', 'echo', '12345', '54321'}, set[str]()
        for moments in 2, 3, 4, 6, 9, 14, 20, 30, 45, 70:
            drawn = self.drawn('Object.assign(m.time, {scale: m.time.width / %d, begin: 20})' % moments)
            words = [it for it in drawn if it.get('text') in wanted and it['x'] > 74]
            # (the form of a mark fills the middle of its picture)
            marks = [{**it, 'x': it['x'] + it['wide'] * 0.2, 'wide': it['wide'] * 0.6}
                     for it in drawn if it['is'] == 'mark']
            for word in words:
                covers = [it for it in [*marks, *words] if it is not word and abs(it['y'] - word['y']) < 5
                          and it['x'] < word['x'] + word['wide'] - 1 and it['x'] + it['wide'] > word['x'] + 1]
                self.assertEqual(covers, [], moments)
            names |= {it['text'] for it in words}
        self.assertLessEqual({'echo', '54321'}, names)

    def test_what_is_not_drawn_is_said(self) -> None:
        prints = ''.join('%d print a %d\n' % (at + at % 3, 10_000 + at) for at in range(1, 400, 4))
        self.open_report('mote 0 p\n0 start a\n%smedium\nleft 0\n' % prints)
        said = 'by("drawn").textContent'
        self.assertRegex(self.value(said), r'Values not drawn: [0-9]+; zoom in')
        self.value('(Object.assign(m.time, {scale: m.time.width / 20, begin: 0}), m.drawAll(), 1)')
        self.assertNotIn('Values not drawn', self.value(said))
        self.open_report(many(900, 40))
        self.shows('drawn', 'All 900 lanes, 108,900 lines of traces.', 'Colours instead of forms')
        self.value('(pane.zoomLanes(20 / pane.lane), m.drawAll())')
        self.assertRegex(self.value(said), r'Marks not drawn: [0-9,]+')

    def test_the_shares_of_two_opposite_losses_are_apart(self) -> None:
        text = (TOP / 'examples/small_network.toml').read_text() + ''.join(
            '[[loss]]\nfrom = %d\nto = %d\nevery = %d\n' % it for it in ((1, 0, 991), (2, 1, 997), (1, 2, 1013)))
        self.open(small_network()._replace(scenario=Scenario.parse(text)))
        its = self.value('m.maps[0].shares')
        self.assertEqual(len(its), 4)
        for one, other in itertools.combinations(its, 2):
            self.assertTrue(abs(one['x'] - other['x']) >= (one['wide'] + other['wide']) / 2
                            or abs(one['y'] - other['y']) >= 12)
