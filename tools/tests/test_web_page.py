"""The page without a server, web/motesim.html, in a headless browser, where there is one: opened as a file and over
http, by mouse and by keyboard, in windows of several sizes."""
from __future__ import annotations

import functools
import hashlib
import http.server
import json
import math
import re
import runpy
import threading
import unittest
from pathlib import Path
from typing import Any

from here import TOOLS, TOP, text_of
from in_page import FLOODING, InPage, fragment, made_page
from project.page import HTML, LONGEST

# Mote 0 never waits for time to pass, so each moment has as many lines as there may be.
ENDLESS = FLOODING.replace('end = 160', 'end = 1000000').replace('if (self', 'while 1 { pause; } if (self', 1)
SIZES = [(390, 844), (1366, 768), (1920, 1080)]


def grid(side: int) -> str:
    """Flooding on a larger grid."""
    motes = ''.join('[[mote]]\nx = %d\ny = %d\nprogram = "flood"\n' % (10 * x, 10 * y)
                    for y in range(side) for x in range(side))
    return FLOODING[:FLOODING.index('[[mote]]')].replace('end = 160', 'end = 300') + motes


def luminance(colour: str) -> float:
    parts = [int(colour[at:at + 2], 16) / 255 for at in (1, 3, 5)]
    linear = [it / 12.92 if it <= 0.03928 else math.pow((it + 0.055) / 1.055, 2.4) for it in parts]
    return sum(map(math.prod, zip((0.2126, 0.7152, 0.0722), linear)))


def contrast(one: str, other: str) -> float:
    low, high = sorted(map(luminance, (one, other)))
    return (high + 0.05) / (low + 0.05)


class Sources(unittest.TestCase):
    def test_the_committed_page_is_made_from_its_sources(self) -> None:
        text = made_page()
        self.assertTrue(HTML.read_text('utf-8') == text, 'make web/motesim.html again: tools/project/page.py')
        self.assertLessEqual(len(text.encode()), LONGEST)
        self.assertNotRegex(text.partition('<script id="module"')[0], r'(?i)\bproved\b|\bverified\b')

    def test_the_changes_of_the_examples_can_be_made(self) -> None:
        for card in json.loads((TOOLS / 'motesim/web/examples.json').read_text()):
            text = (TOP / 'examples' / (card['file'] + '.toml')).read_text()
            self.assertTrue(card['replace'], card['file'])
            for old in card['replace']:
                self.assertEqual(text.count(old), 1, (card['file'], old))

    def test_colours_have_contrast_in_both_schemes(self) -> None:
        sheets = [(TOOLS / 'motesim' / name).read_text() for name in (
            'timeline/page/page.css', 'web/page/text.css')]
        light, dark = dict[str, str](), dict[str, str]()
        for sheet in sheets:
            blocks = re.findall(r':root \{(.*?)\}', sheet, re.S)
            for found, block in zip((light, dark), blocks):
                found.update(re.findall(r'--([a-z-]+): (#[0-9a-f]{6})', block))
        for scheme in light, {**light, **dark}:
            for ground in 'paper', 'panel', 'band', 'note', 'mark-line':
                for text in 'ink', 'quiet', 'send', 'recv', 'trouble', 'print', 'timer', 'good', 'bad':
                    self.assertGreaterEqual(contrast(scheme[text], scheme[ground]), 4.5, (text, ground))
                for line in 'line', 'mark':
                    self.assertGreaterEqual(contrast(scheme[line], scheme[ground]), 3, (line, ground))
            self.assertGreaterEqual(contrast(scheme['paper'], scheme['mark']), 4.5)
            self.assertGreaterEqual(contrast(scheme['paper'], scheme['send']), 4.5)


class Page(InPage):
    def test_it_fits_each_window(self) -> None:
        for width, height in SIZES:
            self.open(size=(width, height))
            self.assertEqual(self.value('run.rows'), 1072)
            for is_dark in False, True:
                self.browser.dark(is_dark)
                self.browser.settle()
                self.assertLessEqual(self.value('document.documentElement.scrollWidth'), width)
                canvas, box, map_, frame = self.value('[pane.canvas, by("panes"), m.maps[0].canvas, by("maps")].map('
                                                      'it => it.getBoundingClientRect().bottom)')
                self.assertLessEqual(canvas, box + 0.5, (width, is_dark))
                self.assertLessEqual(map_, frame + 0.5, (width, is_dark))
                cut = self.value('[...document.querySelectorAll("button, select, input, [role=tab]")].filter(it => {'
                                 'const box = it.getBoundingClientRect(); return box.width && '
                                 '(box.left < 0 || box.right > innerWidth); }).map(it => it.id || it.textContent)')
                self.assertEqual(cut, [], width)

    def test_over_http_it_asks_for_nothing_else(self) -> None:
        asked = []

        class Handler(http.server.SimpleHTTPRequestHandler):
            def do_GET(self) -> None:
                asked.append(self.path)
                super().do_GET()

            def log_message(self, *_: object) -> None:
                """Prints nothing."""

        with http.server.ThreadingHTTPServer(('127.0.0.1', 0), functools.partial(
                Handler, directory=str(self.room))) as server:
            threading.Thread(target=server.serve_forever, kwargs={'poll_interval': 0.05}, daemon=True).start()
            self.browser.visit('http://127.0.0.1:%d/motesim.html' % server.server_address[1],
                               'window.motesim && motesim.ready')
            self.wait('run.rows === 1072')
            self.press('try')
            self.wait('m.differs.first')
            server.shutdown()
        self.assertEqual(asked, ['/motesim.html'])

    def test_a_wave_runs_and_less_motion_is_a_still(self) -> None:
        self.open()
        self.assertEqual(self.value('[m.play.runs, m.play.now]'), [False, 52])
        self.browser.call('Emulation.setEmulatedMedia', features=[])
        self.open()
        before = self.value('m.play.runs && m.play.now')
        self.wait('m.play.now > %r' % before)

    def test_the_effect_of_a_change_is_a_sentence_and_undone(self) -> None:
        self.open()
        self.assertIn('each mote that hears it', self.said())
        self.press('try')
        self.wait('m.differs.first')
        self.assertEqual(self.said(), '6,778 packets instead of 75. First different at moment 46, at mote 0.')
        self.press('show')
        self.assertEqual(self.value('run.at[m.chosen.line]'), 46)
        self.press('revert')
        self.wait('!m.differs.first && run.rows === 1072')
        self.assertEqual(self.value('text'), FLOODING)
        self.assertIn('each mote that hears it', self.said())

    def test_all_examples_run(self) -> None:
        self.open()
        for place in range(6):
            self.press('examples')
            self.value('document.querySelectorAll("#gallery-cards button")[%d].click()' % place)
            self.wait('web.example.title === document.querySelectorAll("#gallery-cards strong")[%d].textContent && '
                      'run.name === web.document.name && !web.fresh' % place)
            self.press('try')
            self.wait('m.differs.first || web.history.step.run')
            self.assertIn('instead of', self.said())

    def test_the_text_is_shown_from_its_program_on_and_an_error_is_marked_at_its_place(self) -> None:
        self.open()
        self.assertEqual(self.value('text.split("\\n")[Math.round(by("text").scrollTop / web.pad.high)]'),
                         "flood = '''")
        self.value('(it => { it.focus(); const at = it.value.indexOf("print newest"); it.setSelectionRange(at, at); '
                   '})(by("text"))')
        self.browser.type('prin 2; ')
        self.wait('!by("fault").hidden')
        self.assertIn('motesim: program flood fault 3 line 22', self.value('by("fault").textContent'))
        self.assertIn('line 35', self.said())
        self.assertIn('Line 35 of the text is line 22 of program flood.', self.value('by("fault").textContent'))
        self.assertIn('prin 2', self.value('document.querySelector(".fault-line").textContent'))
        self.undo()
        self.wait('by("fault").hidden')
        self.assertEqual(self.value('text'), FLOODING)

    def test_motes_and_links_are_changed_on_the_map(self) -> None:
        self.open()
        (x, y), (to_x, to_y), (far_x, far_y) = map(self.place, (0, 1, 24))
        self.browser.click((x + to_x) / 2, (y + to_y) / 2)
        self.assertIn('0 → 1: 3 moments', self.value('by("way").innerText'))
        self.value('(it => { it.value = 1; it.dispatchEvent(new Event("change")); })('
                   'document.querySelector(\'[data-way="0 1"]\'))')
        self.wait('text.includes("every = 1\\n") && run.losses[0][2] === 1 && m.differs.first')
        self.browser.drag(far_x, far_y, far_x + 120, far_y)
        self.wait('run.hearers[24].length === 0')
        self.assertIn('Mote 24 is at', self.value('by("map-said").textContent'))
        self.undo()
        self.undo()
        self.wait('run.rows === 1072')
        self.assertEqual(self.value('text'), FLOODING)
        self.undo('y')
        self.wait('run.losses[0][2] === 1')

    def test_motes_are_added_moved_and_removed(self) -> None:
        self.open()
        x, y = self.place(4)
        self.press('add')
        self.browser.click(x + 60, y)
        self.wait('run.begins.length === 26')
        x, y = self.place(24)
        self.browser.drag(x, y, x + 40, y + 3)
        self.wait('run.places[24][0] > 40')
        self.browser.click(*self.place(4))
        self.assertEqual(self.value('by("remove").textContent'), 'Remove mote 4')
        self.press('remove')
        self.wait('run.begins.length === 25 && !text.includes("x = 40\\ny = 0\\n")')

    def test_motes_and_links_are_changed_by_keyboard(self) -> None:
        self.open()
        self.press('play')
        canvas = 'm.maps[0].canvas'
        self.browser.click(*self.place(24))
        self.assertEqual(self.value('[m.chosen.mote, document.activeElement === %s]' % canvas), [24, True])
        for name in 'ArrowLeft', 'ArrowLeft', 'ArrowUp':
            self.key(name)
        moved = FLOODING.replace('x = 40\ny = 40\n', 'x = 38\ny = 39\n')
        self.assertEqual(self.value('text'), moved)
        self.wait('run.places[24].join() === "38,39" && run.hearers[24].join() === "19,23"')
        for other in 19, 23:
            self.key('Enter')
            self.assertIn('mote 24 and mote %d' % other, self.value('by("map-said").textContent'))
        for _ in range(2):
            self.key('Tab')
        self.assertEqual(self.value('document.activeElement.dataset.way'), '24 23')
        self.browser.type('1')
        self.key('Tab')
        self.wait('run.losses.some(it => it.join() === "24,23,1")')
        self.value(canvas + '.focus()')
        self.key('Delete')
        self.wait('run.begins.length === 24 && run.losses.length === 1')
        self.press('add')
        self.key('Enter')
        self.wait('run.begins.length === 25 && m.chosen.mote === 24')
        # (moves without a pause are one step)
        for _ in range(6):
            self.undo()
        self.assertEqual(self.value('text'), FLOODING)
        for _ in range(6):
            self.undo('y')
        self.wait('run.begins.length === 25 && !text.includes("every = 1\\n") && run.places[24][0] !== 38')

    def test_a_finger_scrolls_a_tip_names_what_is_there_the_log_is_filtered_and_all_has_a_name(self) -> None:
        self.open()
        self.assertEqual(self.value('[pane.canvas, m.maps[0].canvas].map(it => getComputedStyle(it).touchAction)'),
                         ['pan-y', 'pan-y'])
        self.press('play')
        self.browser.move(*self.place(7))
        self.assertEqual(self.value('by("tip").innerText'), 'mote 7 runs flood and hears 4 motes')
        self.press('tab-log')
        for words, lines, said in ('print mote 24', 3, '3 of 970 lines'), ('nonsense', 0, 'has the name nonsense'):
            self.value('(it => { it.value = %s; it.form.requestSubmit(); })(by("log-asked"))' % json.dumps(words))
            self.wait('by("log-counts").textContent.includes(%s)' % json.dumps(said))
            self.assertEqual(self.value('by("log-lines").children.length'), lines)
        for name in 'tab-log', 'tab-sums', 'tab-legend', 'examples':
            self.press(name)
            self.assertEqual(self.unnamed(), [])

    def test_it_works_by_keyboard_alone(self) -> None:
        self.open()

        def tab_to(name: str) -> None:
            for _ in range(60):
                self.key('Tab')
                if self.value('document.activeElement.id') == name:
                    return
            self.fail('%s is not reached' % name)

        self.value('document.activeElement.blur()')
        tab_to('try')
        self.key('Enter')
        self.wait('m.differs.first')
        self.undo()
        self.wait('run.rows === 1072')
        tab_to('text')
        self.browser.type('# by keyboard\n')
        self.assertEqual(self.value('text'), '# by keyboard\n' + FLOODING)
        self.key('Escape')
        tab_to('tab-log')
        self.key('Enter')
        tab_to('log-asked')
        self.browser.type('mote 24 prints')
        self.key('Enter')
        self.wait('by("log-counts").textContent.startsWith("3 of 970 lines")')

    def test_an_endless_run_is_stopped(self) -> None:
        self.open()
        self.put(ENDLESS)
        self.wait('!by("stop").hidden')
        self.press('stop')
        self.wait('by("stop").hidden')
        self.assertIn('You stopped the run.', self.said())
        self.value('m.backend.most = 500')
        self.put(ENDLESS + '\n')
        self.wait('by("sentence").textContent.includes("was stopped")')
        self.value('m.backend.most = 1e6')
        self.put(FLOODING)
        self.wait('run.rows === 1072 && !document.body.classList.contains("stale")')

    def answer_to(self, name: str) -> Any:
        """What a worker of the page answers to the scenario that a case makes, however long it takes."""
        made = runpy.run_path(str(TOP / 'tests/cases/limits' / (name + '.make')))['scenario']()
        return self.in_worker(made)

    def in_worker(self, text: str) -> Any:
        return self.browser.run(text_of('in_worker.js.txt') % json.dumps(text))

    def test_limits_of_the_stack_and_of_a_report_are_said(self) -> None:
        self.open()
        self.assertTrue(self.answer_to('deepest_exits')['columns'])
        self.assertEqual(self.answer_to('five_thousand_arrays_deep')['line'], 'motesim: scenario fault 1')
        long = FLOODING.replace('end = 160', 'end = 4000').replace('set next 40', 'set next 1').replace(
            'if (newest < 3) {', 'newest = 0; while (newest < 2000) { newest = (newest + 1); print newest; } if 1 {')
        self.assertEqual(self.in_worker(long), {
            'columns': False, 'limit': 'The report is longer than 64 megabytes, so the run was stopped.'})

    def test_lanes_are_as_high_as_their_box_after_each_edit(self) -> None:
        self.open()
        for size in SIZES:
            self.browser.size(*size)
            for number in range(4):
                end = 170 + SIZES.index(size) * 10 + number
                self.value('(it => { it.value = text.replace(/^end = .*$/m, "end = %d"); '
                           'it.dispatchEvent(new Event("input")); })(by("text"))' % end)
                # (a canvas that is too high stays so, however long one waits)
                self.wait('run.end === %d && [[pane.canvas, by("panes")], [m.maps[0].canvas, by("maps")]].every(its => '
                          '(([canvas, box]) => Math.abs(canvas - box) <= 0.5 || canvas < box && pane.height >= 150)('
                          'its.map(it => it.getBoundingClientRect().bottom)))' % end)

    def test_a_link_leads_to_a_line(self) -> None:
        self.open()
        self.press('play')
        self.value('find("print mote 24")')
        row = self.value('run.numberOf(m.chosen.line, 24)')
        self.press('share')
        self.wait('by("link").value')
        link = self.value('by("link").value')
        self.assertTrue(link.endswith('&line=%d' % row))
        self.browser.open(self.page, '#' + link.partition('#')[2] + '&from=50')
        self.wait('m.chosen.line >= 0')
        self.assertEqual(self.value('[run.numberOf(m.chosen.line, 24), Math.round(m.time.begin)]'), [row, 50])

    def test_another_link_in_the_open_page_is_followed(self) -> None:
        self.open()
        link = fragment(FLOODING.replace('end = 160', 'end = 50'))
        self.browser.run('void (location.hash = %s)' % json.dumps(link))
        self.browser.wait('window.motesim && motesim.ready && motesim.web.intro === "This net came with the link."')
        self.assertEqual(self.value('run.end'), 50)

    def test_two_fingers_zoom(self) -> None:
        self.open()
        self.press('play')
        for canvas, zoom in ('pane.canvas', 'm.time.scale'), ('m.maps[0].canvas', 'm.maps[0].zoom'):
            x, y = self.value('(box => [box.x + box.width / 2, box.y + box.height / 2])(%s.getBoundingClientRect())'
                              % canvas)
            before = self.value(zoom)
            for kind, apart in ('touchStart', 20), ('touchMove', 40), ('touchMove', 60), ('touchEnd', 0):
                self.browser.call('Input.dispatchTouchEvent', type=kind, touchPoints=[
                    {'x': x + sign * apart, 'y': y, 'id': number}
                    for number, sign in enumerate((-1, 1)) if apart])
            self.browser.settle()
            self.assertAlmostEqual(self.value(zoom) / before, 3, delta=0.1)

    def test_four_hundred_motes(self) -> None:
        self.open()
        self.put(grid(20))
        self.wait('run.begins.length === 400')
        self.assertLess(self.value('by("tint").childElementCount'), 100)

    def test_a_link_carries_the_text_and_never_markup(self) -> None:
        mark = '# <img src=x onerror="window.wrong = 1"><script>window.wrong = 1</script>\n'
        text = mark + FLOODING.replace('flood', 'wave').replace('print newest', 'prin newest')
        self.open()
        self.put(text)
        self.wait('!by("fault").hidden')
        self.press('share')
        self.wait('by("link").value')
        link = self.value('by("link").value')
        self.assertIn('#t=1.', link)
        self.browser.run('localStorage.clear()')
        self.browser.open(self.page, '#' + link.partition('#')[2])
        self.assertEqual(self.value('text'), text)
        self.wait('!by("fault").hidden && by("about").textContent === "No run yet"')
        self.assertIsNone(self.browser.run('window.wrong'))
        self.browser.open(self.page, fragment(FLOODING) + '&from=4')
        self.assertEqual(self.value('text'), FLOODING)
        whole, too_long = fragment(text), fragment('#' * 1_048_577)
        for broken in '#t=1.broken', '#t=1.', '#t=2.' + whole[5:], whole[:-9], too_long:
            self.browser.open(self.page, broken)
            self.wait('by("said").textContent.includes("link is broken")')
        self.browser.run('localStorage.clear()')
        digits = ''.join('# %s\n' % hashlib.sha256(b'%d' % row).hexdigest() for row in range(400))
        self.put(FLOODING + digits)
        self.wait('run.rows === 1072 && text.length > 20000')
        self.press('share')
        self.wait('by("sharing").open')
        self.assertTrue(self.value('by("link").hidden'))
        self.assertIn('too long', self.value('by("sharing-said").textContent'))

    def handed_out(self, name: str, file: str) -> Path:
        """The file that a button of the dialog of sharing hands out."""
        self.press('share')
        self.wait('by("sharing").open')
        return self.downloaded(self.room / file, name)

    def drop(self, name: str, text: str) -> None:
        """Drags a file over the page, and drops it."""
        self.value('((file, held) => { held.items.add(file); ["dragover", "drop"].forEach(kind => by("panes").'
                   'dispatchEvent(new DragEvent(kind, {dataTransfer: held, bubbles: true, cancelable: true}))); })('
                   'new File([%s], %s), new DataTransfer())' % (json.dumps(text), json.dumps(name)))

    def test_a_file_is_dropped_downloaded_and_opened(self) -> None:
        self.open()
        self.drop('mine.toml', '\ufeff' + FLOODING.replace('end = 160', 'end = 50').replace('\n', '\r\n'))
        self.wait('run.end === 50 && web.document.name === "mine.toml"')
        self.assertEqual(self.handed_out('download', 'mine.toml').read_text(),
                         FLOODING.replace('end = 160', 'end = 50'))
        self.drop('long.toml', '#' * 1_048_577)
        self.wait('by("said").textContent === "long.toml is longer than 1,048,576 bytes, the limit."')
        self.assertEqual(self.value('web.document.name'), 'mine.toml')
        file = self.room / 'other.toml'
        file.write_text(FLOODING.replace('end = 160', 'end = 40'))
        it = self.browser.call('Runtime.evaluate', expression='document.getElementById("file")')['result']['objectId']
        self.browser.call('DOM.setFileInputFiles', files=[str(file)], objectId=it)
        self.wait('run.end === 40')
        self.assertEqual(self.value('web.document.name'), 'other.toml')

    def test_a_page_is_saved_with_its_text_and_a_draft_is_kept(self) -> None:
        self.open()
        self.press('try')
        self.wait('m.differs.first')
        text = self.value('text')
        self.wait('localStorage.getItem("motesim draft")')
        saved = self.handed_out('save-page', 'flooding.html')
        self.forget_session()
        self.browser.open(self.page)
        self.assertEqual(self.value('text'), text)
        self.assertIn('of the last time', self.said())
        # (the draft is another page's)
        self.browser.open(saved)
        self.assertIn('saved with the page', self.said())
        self.assertEqual(self.value('[text, web.document.name]'), [text, 'flooding.toml'])
        self.wait('run.packets === 6778')

    def test_the_text_of_a_saved_page_is_no_markup(self) -> None:
        text = '# </script><script>window.wrong = 1</script><!-- \\u003c $&\n' + FLOODING
        self.open()
        self.put(text)
        self.wait('run.rows === 1072 && text.startsWith("# <")')
        self.browser.open(self.handed_out('save-page', 'flooding.html'))
        self.assertEqual(self.value('text'), text)
        self.assertIsNone(self.browser.run('window.wrong'))

    def test_a_card_shows_why_a_line_is_there(self) -> None:
        self.open(size=(1920, 1080))
        self.press('play')
        x, y = self.value('(() => { m.drawAll(); const box = pane.canvas.getBoundingClientRect(), h = pane.hits; '
                          'for (let i = 0; i < h.length; i += 3) if (run.text(h[i + 2]) === "64 print flood 1") '
                          'return [box.x + h[i], box.y + h[i + 1]]; })()')
        self.browser.click(x, y)
        self.wait('!by("card").hidden')
        self.press('ask-why')
        self.wait('by("why-chain") && by("why-chain").textContent.includes("a timer had come to its end")')
        # (the card moves up in the frame after it has grown)
        self.wait('(it => 0 <= it.top && it.bottom <= innerHeight)(by("card").getBoundingClientRect())')
