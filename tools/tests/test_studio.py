"""The studio without a browser: files, runs under limits, and who is answered."""
import http.client
import json
import os
import signal
import subprocess
import sys
import threading
import unittest
from typing import Any
from unittest import mock

from here import SECONDS, TOOLS, TOP, Room, until
import skips
import stand_in
from motesim.faults import Fault
from motesim.runner import Stopped
from motesim.studio import answers
from motesim.studio.command import pinned
from motesim.studio.desk import Changed, Desk
from motesim.studio.server import Server
from motesim.studio.session import Session
from motesim.studio.shrinking import small_text
from test_studio_page import EXPECTED, LIMITS, NET


class Files(Room):
    def setUp(self) -> None:
        super().setUp()
        self.file = self.room / 'net.toml'
        self.file.write_text(NET)
        self.desk = Desk(self.file)

    def document(self, **words: Any) -> dict[str, Any]:
        return {**self.desk.read('folder', 'net.toml')._asdict(), **words}

    def test_plans_are_no_scenarios(self) -> None:
        (self.room / 'net.plan.toml').write_text('end = 1\n')
        self.assertEqual(self.desk.names('folder'), ['net.toml'])
        with self.assertRaisesRegex(Fault, 'the studio opens scenarios, NAME.toml'):
            Desk(self.room / 'net.toml.txt')
        for name, said in ('blink.c', 'is a program in C'), ('net.plan.toml', 'is a plan, not a scenario'):
            with self.assertRaisesRegex(Fault, name + ' ' + said):
                Desk(self.room / name)
        with self.assertRaisesRegex(Fault, 'is a name of a plan, and not of a scenario'):
            self.desk.save_new(self.document(), 'other.plan.toml')

    def test_a_hidden_net_is_listed_only_if_such_a_file_was_named(self) -> None:
        for name in 'hidden.toml', 'task1_solution.toml':
            (self.room / name).write_text(NET)
        self.assertEqual(self.desk.names('folder'), ['net.toml'])
        self.assertEqual(Desk(self.room / 'hidden.toml').names('folder'),
                         ['hidden.toml', 'net.toml', 'task1_solution.toml'])

    def test_only_scenarios_of_the_folder_and_examples_are_read(self) -> None:
        (self.room / 'secret.txt').write_text('no')
        (self.room / 'link.toml').symlink_to('/etc/hostname')
        (self.room / 'net.expect.toml').write_text('expect = []')
        self.assertEqual(self.desk.names('folder'), ['link.toml', 'net.toml'])
        self.assertEqual(self.desk.read('example', 'counter.toml').text, (TOP / 'examples/counter.toml').read_text())
        for where, name in [('folder', 'secret.txt'), ('folder', '../net.toml'), ('folder', 'link.toml'),
                            ('folder', '/etc/passwd'), ('example', '../README.md'), ('root', 'net.toml'),
                            ('folder', 'none.toml'), ('folder', '.x.toml')]:
            with self.assertRaises(Fault, msg=name):
                self.desk.read(where, name)

    def test_a_file_is_written_whole_and_only_the_one_that_was_named(self) -> None:
        self.desk.save(self.document(text='# new\n'))
        self.assertEqual(self.file.read_text(), '# new\n')
        self.assertEqual(sorted(os.listdir(self.room)), ['net.toml'])
        (self.room / 'other.toml').write_text(NET)
        for document in (self.document(name='other.toml'), self.document(where='example', name='counter.toml')):
            with self.assertRaises(Fault):
                self.desk.save(document)

    def test_a_change_made_elsewhere_is_not_written_over_unasked(self) -> None:
        document = self.document(text='# mine\n')
        self.file.write_text('# another\n')
        with self.assertRaises(Changed):
            self.desk.save(document)
        self.assertEqual(self.file.read_text(), '# another\n')
        self.desk.save(document, over=True)
        self.assertEqual(self.file.read_text(), '# mine\n')
        self.file.unlink()
        with self.assertRaises(Changed):
            self.desk.save(self.document(stamp='x') if self.file.exists() else document)

    def test_a_new_file_takes_no_other_ones_name(self) -> None:
        (self.room / 'other.toml').write_text(NET)
        for name in ('other.toml', 'other', '../x', 'a/b', 'x.expect.toml', '', '.toml'):
            with self.assertRaises(Fault, msg=name):
                self.desk.save_new(self.document(), name)
        stamp = self.desk.save_new(self.document(), 'mine')
        self.assertEqual((self.room / 'mine.toml').read_text(), NET)
        self.desk.save(self.document(name='mine.toml', text='# again\n', stamp=stamp))
        self.assertEqual((self.room / 'mine.toml').read_text(), '# again\n')

    def test_line_ends_and_a_mark_stay_as_they_were(self) -> None:
        data = ('\ufeff' + NET.replace('\n', '\r\n')).encode()
        self.file.write_bytes(data)
        document = self.document()
        self.assertEqual(document['text'], NET)
        self.desk.save(document)
        self.assertEqual(self.file.read_bytes(), data)
        mixed = b'a = 1\r\nb = 2\n'
        self.file.write_bytes(mixed)
        self.desk.save(self.document())
        self.assertEqual(self.file.read_bytes(), mixed)

    def test_a_file_that_is_not_there_begins_with_a_first_scenario(self) -> None:
        desk = Desk(self.room / 'new.toml')
        document = desk.first()
        self.assertIn('process hello', document.text)
        desk.save(document._asdict())
        self.assertEqual((self.room / 'new.toml').read_text(), document.text)

    def test_names_in_any_alphabet_with_usual_signs_are_opened_and_saved(self) -> None:
        for stem in 'zoë', 'zoe\u0308', 'start (2)', "a'b", '(1) a+b, c', '波', 'नी':
            name = stem + '.toml'
            path = self.room / name
            path.write_text(NET)
            document = Desk(path).first()
            self.assertEqual((document.name, document.text), (name, NET))
            self.assertIn(name, self.desk.names('folder'))
            self.assertIsNone(self.desk.expectations('folder', name))
            self.desk.save_new(self.document(), 'new ' + name)
            self.assertEqual((self.room / ('new ' + name)).read_text(), NET)

    def test_names_with_other_signs_are_refused_with_the_signs_that_are_allowed(self) -> None:
        for stem in ('a\nb', 'a\u202eb', 'a\u200bb', '<b>', 'a;b', 'a"b', 'a\\b', '-a', ' a', '.a', 'é' * 101,
                     '\udcff', '..', '\u0308'):
            with self.assertRaises(Fault, msg=ascii(stem)) as opened:
                Desk(self.room / (stem + '.toml'))
            with self.assertRaises(Fault, msg=ascii(stem)) as read:
                self.desk.read('folder', stem + '.toml')
            for raised in opened, read:
                self.assertIn('NAME has letters, digits, spaces and', str(raised.exception))

    def test_names_that_the_studio_does_not_open(self) -> None:
        for name in (self.room, self.room / 'a.txt', self.room / 'none' / 'a.toml'):
            with self.assertRaises(Fault):
                Desk(name)
        self.file.write_bytes(b'\xff')
        with self.assertRaises(Fault):
            Desk(self.file).first()


class Running(unittest.TestCase):
    def setUp(self) -> None:
        self.enterContext(stand_in.program())

    def session(self, **limits: Any) -> Session:
        return Session(Desk(None), LIMITS._replace(**limits))

    @mock.patch('motesim.runner.process.PATIENCE', 1)
    def test_each_limit_stops_a_run_and_says_how_to_raise_it(self) -> None:
        for word, limits, limit, option in [
                ('never_ends', {'seconds': 1}, 'no answer in 1 seconds', '--seconds'),
                ('long_report', {'report': 1 << 20}, 'the report is longer than 1,048,576 bytes', '--report'),
                ('much_memory', {'memory': 400 << 20}, 'the run needs more than 400 megabytes of memory', '--memory')]:
            with self.assertRaises(Fault, msg=word) as caught:
                self.session(**limits).done({'text': '# %s\n%s' % (word, NET)})
            self.assertIn('%s. Start tools/studio with a larger %s' % (limit, option), str(caught.exception))

    def test_a_newer_text_stops_the_run_before(self) -> None:
        session, ended = self.session(), list[object]()

        def one(text: str) -> None:
            try:
                ended.append(session.done({'text': text}).run.report.motes[0].program)
            except Stopped:
                ended.append('stopped')

        texts = ['# never_ends %d' % number for number in range(4)]
        threads = []
        for text in texts:
            threads.append(threading.Thread(target=one, args=(text,)))
            threads[-1].start()
            self.assertTrue(until(lambda: session.newest == text))
        one(NET)
        for thread in threads:
            thread.join(SECONDS)
        self.assertEqual(sorted(map(str, ended)), ['stopped'] * 4 + ['talk'])


class Answering(Room):
    """The server over HTTP."""

    def setUp(self) -> None:
        super().setUp()
        self.enterContext(stand_in.program())
        self.file = self.put('net.toml', NET)
        self.put('net.expect.toml', EXPECTED)
        self.server = Server(Session(Desk(self.file), LIMITS))
        threading.Thread(target=self.server.serve_forever, kwargs={'poll_interval': 0.05}, daemon=True).start()
        self.addCleanup(self.server.server_close)
        self.addCleanup(self.server.shutdown)

    def request(self, method: str, path: str, body: Any = None, **headers: str) -> Any:
        connection = http.client.HTTPConnection('127.0.0.1', self.server.port, timeout=SECONDS)
        names = {name.replace('_', '-'): value for name, value in headers.items()}
        if body is not None:
            names.setdefault('Content-Type', 'application/json')
        connection.request(method, path, None if body is None else json.dumps(body), names)
        answer = connection.getresponse()
        data = answer.read()
        connection.close()
        return answer.status, answer.headers, data

    def ask(self, what: str, **asked: Any) -> Any:
        status, _, data = self.request('POST', '/%s/%s' % (self.server.token, what), asked)
        self.assertEqual(status, 200)
        return data

    def answer(self, what: str, text: str, **words: Any) -> Any:
        return json.loads(self.ask(what, text=text, where='folder', name='net.toml', saved=NET, **words))

    def test_an_error_of_the_studio_itself_is_an_answer_too(self) -> None:
        """Without an answer the page would take the studio for lost, connect again, and ask the same, for ever."""
        with mock.patch.object(self.server.session, 'answer', side_effect=KeyError('x')), \
                mock.patch('sys.stderr') as said:
            found = json.loads(self.ask('begin'))
        self.assertEqual(found, {'refused': "This is an error in the studio itself: KeyError: 'x'"})
        self.assertIn("KeyError: 'x'", ''.join(str(it.args[0]) for it in said.write.call_args_list))
        self.assertIn('document', json.loads(self.ask('begin')))

    def test_it_listens_on_the_loopback_address_alone(self) -> None:
        self.assertEqual(self.server.server_address[0], '127.0.0.1')
        self.assertGreaterEqual(len(self.server.token), 32)

    def test_only_its_own_page_with_the_token_is_answered(self) -> None:
        own, port = '/%s/' % self.server.token, self.server.port
        self.assertEqual(self.request('GET', own)[0], 200)
        self.assertEqual(self.request('GET', own, Host='localhost:%d' % port)[0], 200)
        wrong: list[tuple[str, dict[str, str]]] = [
                 ('/', {}), ('/studio.js', {}), ('/x' + own, {}), (own[:-2] + '/', {}),
                 (own, {'Host': 'evil.example'}), (own, {'Host': '127.0.0.1:1'}), (own, {'Host': '0.0.0.0:%d' % port}),
                 (own, {'Origin': 'http://evil.example'}), (own, {'Origin': 'null'}),
                 (own, {'Sec_Fetch_Site': 'cross-site', 'Sec_Fetch_Mode': 'no-cors'})]
        for path, headers in wrong:
            status, _, data = self.request('GET', path, **headers)
            self.assertEqual(status, 403, (path, headers))
            self.assertNotIn(self.server.token.encode(), data)
        for path, headers in wrong[:-1]:
            self.assertEqual(self.request('POST', path + 'begin', {}, **headers)[0], 403, (path, headers))
        self.assertEqual(self.request('POST', own + 'begin', {}, Content_Type='text/plain')[0], 403)

    def test_pages_say_that_nothing_else_may_be_fetched(self) -> None:
        _, headers, data = self.request('GET', '/%s/' % self.server.token)
        self.assertIn("default-src 'none'", headers['Content-Security-Policy'])
        self.assertEqual(headers['Referrer-Policy'], 'no-referrer')
        for word in (b'http:', b'https:'):
            self.assertNotIn(word, data)

    def test_files_that_are_not_the_pages_are_not_there(self) -> None:
        for name in ('web.html', '../server.py', 'web/page/../../x', 'web/page/worker.js', 'net.toml'):
            self.assertEqual(self.request('GET', '/%s/%s' % (self.server.token, name))[0], 404, name)

    def test_places_are_counted_as_browsers_do(self) -> None:
        self.assertEqual(answers.column16('a\n\U0001f600b', 3), 4)

    def test_questions_that_are_none_are_told_so(self) -> None:
        path = '/%s/' % self.server.token
        self.assertEqual(self.request('POST', path + 'warn', ['x'])[0], 400)
        for what in 'nothing', 'warn', 'export':
            self.assertIn('refused', json.loads(self.ask(what)))
        self.assertIn('refused', json.loads(self.ask('warn', text='\ud800', name='x')))

    def test_a_run_has_warnings(self) -> None:
        said = self.answer('warn', NET)
        self.assertIn('timer-never-set', [it['name'] for it in said['warnings']])
        self.assertEqual(said['fields'], {})
        self.assertIn('refused', self.answer('warn', NET.replace('print 1', 'print none')))

    def test_a_run_has_the_fields_of_its_declared_format(self) -> None:
        self.put('net.expect.toml', 'expect = ["mote 1 receives with seq 2"]\nfields = { seq = "value / 3" }')
        self.assertEqual(self.answer('warn', NET)['fields'], {'1': ' (seq 0)', '5': ' (seq 1)', '6': ' (seq 2)'})
        claims = self.answer('expectations', NET)['items'][0]['claims']
        self.assertEqual(claims, ['mote 1: at least 1 line "recv value 6 to 8"'])

    def test_advice_on_a_stopped_run_ends_at_the_limit(self) -> None:
        session = self.server.session
        with mock.patch('motesim.studio.session.busiest', return_value=' It loops.') as busiest:
            self.assertEqual(self.answer('advise', NET), {'does': ' It loops.'})
            self.assertTrue(busiest.call_args.kwargs['goes_on']())
            session.limits = LIMITS._replace(seconds=0)
            self.answer('advise', NET)
            self.assertFalse(busiest.call_args.kwargs['goes_on']())

    def test_a_fault_has_its_place_the_words_of_explain_and_the_corrected_text(self) -> None:
        fault = self.answer('explain', NET.replace('print 1', 'print nothing'),
                            line='motesim: program talk fault 3 line 8')
        self.assertEqual(fault['place'], [17, 10, 17])
        self.assertTrue(any(line.startswith('UnknownName: ') for line in fault['words']))
        self.assertTrue(any(line.startswith('Allowed here: ') for line in fault['words']))
        for new, corrected in ('print (1);', NET), ('goto out;', None):
            fault = self.answer('explain', NET.replace('print 1;', new), line='motesim: program talk fault 2 line 8')
            self.assertEqual(fault['corrected'], corrected)

    def test_a_text_has_the_expectations_of_its_change_with_their_claims(self) -> None:
        said = self.answer('expectations', NET)
        self.assertEqual([(it['words'], it['claims']) for it in said['items'][:1]], [
            ('mote 1 prints talker 1', ['mote 1: at least 1 line "print process talker value 1"'])])
        self.assertEqual((said['about'], said['file']['name']), ('', 'net.expect.toml'))
        said = self.answer('expectations', NET.replace('print 1', 'print 9'))
        self.assertEqual(([it['words'] for it in said['items']], said['about']),
                         (['mote 1 prints talker 9'], '(another value)'))
        self.put('net.expect.toml', 'expect = ["the medium writes \'4 0\'"]')
        item, = self.answer('expectations', NET)['items']
        self.assertEqual((item['claims'], item['remark']),
                         ([], 'tools/expect decides this: no claim: claims have no whole lines of the medium'))
        self.put('net.expect.toml', 'no TOML')
        self.assertIn('TOML', self.answer('expectations', NET)['items'][0]['remark'])

    def test_expectations_are_written_beside_the_file_if_they_can_be_read(self) -> None:
        file = self.answer('expectations', NET)['file']
        source = file['text'].replace('expect = [', 'expect = ["no mote halts", ', 1)
        words = {'source': source, 'stamp': file['stamp'], 'returns': False, 'mark': False}
        self.assertIn('nonsense', self.answer('expect', NET, **{**words, 'source': 'expect = ["nonsense"]'})['refused'])
        self.assertEqual(self.answer('expect', NET, **words), {})
        self.assertEqual((self.room / 'net.expect.toml').read_text(), source)
        self.assertIn('changed elsewhere', self.answer('expect', NET, **words)['refused'])


class Shrunk(unittest.TestCase):
    def test_a_small_scenario_has_the_faults_that_break_it(self) -> None:
        skips.need_built('motesim', 'motecheck')
        small = small_text('# a\n# fault: link 0 to 1 is broken\n' + NET, 'mote 1 receives exactly 2', LIMITS)
        self.assertTrue(small.startswith('# fault: link 0 to 1 is broken\n'), small)
        self.assertEqual(small.count('[[mote]]'), 2)
        with self.assertRaisesRegex(Fault, 'prints none'):
            small_text(NET, 'mote 1 prints none', LIMITS)


class Command(Room):
    def test_a_plan_is_refused_as_the_other_scenario(self) -> None:
        plan = self.put('net.plan.toml', 'end = 20\n[places]\nrule = "line"\ncount = 3\nstep = 10\n')
        with self.assertRaisesRegex(Fault, 'is a plan, not a scenario: tools/scenario .* makes a scenario of it'):
            pinned(str(plan))

    def start(self, *words: str, **variables: str) -> Any:
        return subprocess.Popen([sys.executable, '-B', str(TOOLS / 'studio'), '--no-open', *words], text=True,
                                stdout=subprocess.PIPE, stderr=subprocess.PIPE, env={**os.environ, **variables},
                                start_new_session=True)

    def test_ctrl_c_ends_it_cleanly(self) -> None:
        with stand_in.program() as path:
            process = self.start(str(TOP / 'examples/counter.toml'), MOTESIM=str(path))
            self.assertRegex(process.stdout.readline(), r'\Ahttp://127\.0\.0\.1:\d+/[\w-]{32,}/\n\Z')
            process.send_signal(signal.SIGINT)
            _, said = process.communicate(timeout=SECONDS)
        self.assertEqual(process.returncode, 0)
        self.assertNotIn('Traceback', said)
        self.assertTrue(said.endswith('studio: ended\n'), said)

    def test_what_is_missing_is_said_in_one_line(self) -> None:
        tried: list[tuple[list[str], dict[str, str]]] = [
            ([], {'MOTESIM': '/nowhere/motesim'}), (['/nowhere/x.toml'], {}), (['x.txt'], {}), (['.'], {})]
        for words, variables in tried:
            with stand_in.program() as path:
                process = self.start(*words, **{'MOTESIM': str(path), **variables})
                said, fault = process.communicate(timeout=SECONDS)
            self.assertEqual((process.returncode, said), (2, ''), words)
            self.assertRegex(fault, r'\Astudio: .+\n\Z')
