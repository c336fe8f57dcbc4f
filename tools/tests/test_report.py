"""The reader's results for reports and scenarios, and its errors for texts that are none."""
import os
import random
import re
import unittest
from unittest import mock

from here import TOP, Room, rows_of, text_of
from motesim.faults import Fault
from motesim.report import Copy, Packet, Report, ReportFault
from motesim.report.run import ProgramFault, check_scenario, read_run
from motesim.scenario import Scenario, ScenarioFault

# Two motes: the second one halts at 9, when its neighbour's last packet but one is on its way.
SMALL = text_of('halting.report')


def report_in(page: str) -> str:
    """The first report that a page of docs/ shows."""
    begin = page.index('\nmote 0 ') + 1
    return page[begin:page.index('```', begin)]


EXAMPLE = re.sub(r'\A(#.*\n)+', '', (TOP / 'examples/small_network.toml').read_text(encoding='utf-8'))
EXAMPLE_REPORT = report_in((TOP / 'docs/use/REPORT.md').read_text(encoding='utf-8'))


class Reports(unittest.TestCase):
    def test_each_report_of_the_cases_comes_back_byte_for_byte(self) -> None:
        count = 0
        for path in (TOP / 'tests/cases').rglob('*.expected'):
            data = path.read_bytes()
            if data.startswith(b'mote '):
                self.assertEqual(Report.parse(data).text().encode(), data, path)
                count += 1
        self.assertGreater(count, 30)

    def test_lines_have_their_parts(self) -> None:
        report = Report.parse(SMALL)
        talker, hearer = report.motes
        self.assertEqual((talker.number, talker.program, talker.row, hearer.row), (0, 'talker', 1, 9))
        post = talker.lines[2]
        self.assertEqual((post.mote, post.at, post.kind, post.serial, post.process, post.event, post.word),
                         (0, 3, 'post', 0, 'talker', 'timer', 0))
        self.assertEqual((post.sender, post.number, post.value, post.packet), (None, None, None, None))
        received = hearer.lines[0]
        self.assertEqual((received.sender, received.number, received.value, received.packet), (0, 0, 7, (0, 0)))
        self.assertEqual(talker.lines[1].packet, (0, 0))
        self.assertEqual(str(hearer.lines[3]), '4 print hearer 65535')
        self.assertEqual((talker.halted(), hearer.halted()), (None, 9))
        self.assertEqual((report.left, report.medium_row), (1, 15))
        self.assertEqual(report.packet(0, 1), Packet(3, 0, 1, 8, (Copy(1, None),)))
        self.assertEqual(SMALL.split('\n')[report.medium_row:report.medium_row + 4], [str(it) for it in report.medium])

    def test_lines_of_different_kinds_are_never_the_same(self) -> None:
        taken, dropped = (Report.parse(SMALL.replace('take', kind)).motes[0].lines[3] for kind in ('take', 'drop'))
        self.assertNotEqual(taken, dropped)
        self.assertEqual(taken, Report.parse(SMALL).motes[0].lines[3])

    def test_what_became_of_each_copy(self) -> None:
        found = [(it.packet.number, it.copy.to, it.what) for it in Report.parse(SMALL).outcomes()]
        self.assertEqual(found, [(0, 1, 'received'), (1, 1, 'lost'), (2, 1, 'halted'), (3, 1, 'left')])
        found = [(it.packet.sender, it.packet.number, it.what) for it in Report.parse(EXAMPLE_REPORT).outcomes()]
        self.assertEqual(found, [(0, 0, 'collided'), (2, 0, 'collided'), (0, 1, 'lost'), (0, 2, 'received'),
                                 (2, 1, 'left')])

    def fault(self, text: str | bytes) -> tuple[int, str]:
        with self.assertRaises(ReportFault) as raised:
            Report.parse(text)
        return raised.exception.row, str(raised.exception)

    def test_outcomes_are_those_that_the_lines_say(self) -> None:
        """Runs of many motes, with losses, collisions, full rings and halted motes, looked at mote by mote."""
        chance = random.Random(7)
        for turn in range(40):
            motes, left = chance.randrange(2, 9), chance.randrange(3)
            lines: list[list[str]] = [[] for _ in range(motes)]
            rows, wanted, silent = [], {}, []
            for number in range(12):
                sender = chance.randrange(motes)
                copies = []
                for to in range(motes):
                    if to == sender:
                        continue
                    what = chance.choice(['received', 'received', 'lost', 'overflowed', 'collided', 'silent'])
                    wanted[number, to] = what
                    copies.append('%d@%s' % (to, 'lost' if what == 'lost' else number + 1 + to))
                    if what == 'silent':
                        silent.append((number + 1 + to, number, to))
                    elif what != 'lost':
                        kind = {'received': 'recv %d %d 5', 'overflowed': 'lost %d %d',
                                'collided': 'collide %d %d'}[what]
                        lines[to].append('%d %s' % (number, kind % (sender, number)))
                rows.append('%d %d %d 5 %s' % (number, sender, number, ' '.join(copies)))
            for place, (_, number, to) in enumerate(sorted(silent)):
                wanted[number, to] = 'halted' if place < len(silent) - left else 'left'
            text = ''.join('mote %d p\n%s' % (mote, ''.join(it + '\n' for it in its)) for mote, its in enumerate(lines))
            text += 'medium\n%s\nleft %d\n' % ('\n'.join(rows), left)
            found = {(it.packet.number, it.copy.to): it.what for it in Report.parse(text).outcomes()}
            self.assertEqual(found, wanted, text)

    def test_a_changed_line_has_its_fault(self) -> None:
        for row, line, expected, where in rows_of('report_faults.tsv'):
            rows = SMALL.split('\n')
            rows[int(row) - 1] = line
            found = self.fault('\n'.join(rows))
            self.assertEqual((found[0], 'expected ' + expected in found[1]), (int(where), True), found)

    def test_a_text_that_is_cut_off_or_goes_on_has_its_fault(self) -> None:
        for text, row in (('', 1), ('mote 0 a\n', 2), (SMALL[:SMALL.index('left')], 20),
                          (SMALL.replace('\n', '\r\n'), 1)):
            self.assertEqual(self.fault(text)[0], row)
        for cut in range(SMALL.index('\n') + 1, len(SMALL)):
            self.assertIn('the report is cut off at line ', self.fault(SMALL[:cut])[1])
        self.assertEqual(self.fault(SMALL[:-1]), (
            21, "the report is cut off at line 21: expected a line end after 'left', but the text ends"))
        self.assertEqual(self.fault(SMALL + '\n'), (21, "line 21: expected nothing more, but there is ''"))
        self.assertEqual(self.fault(b'mote 0 a\n0 halt\xff\n'),
                         (2, "line 2: expected text in ASCII, but there is '0 halt\\\\xff'"))


class Scenarios(unittest.TestCase):
    def test_the_example_has_its_tables(self) -> None:
        for mark in '', '\ufeff':
            found = Scenario.parse((mark + EXAMPLE).encode())
            self.assertEqual((found.version, found.end, found.range, found.base, found.per), (2, 20, 5, 2, 100))
            self.assertEqual((found.collide, found.queue, found.losses), (True, {'listener': 1}, {(0, 1): 2}))
            self.assertEqual([tuple(it) for it in found.places],
                             [(0, 0, 'sender'), (5, 0, 'listener'), (10, 0, 'sender')])
            self.assertTrue(found.programs['sender'].startswith('process sender;\n'))

    def test_who_hears_whom_and_when(self) -> None:
        found = Scenario.parse(EXAMPLE)
        self.assertEqual([found.hearers(it) for it in range(3)], [[1], [0, 2], [1]])
        self.assertEqual(found.delay(0, 1), 2)
        alone = Scenario.parse(EXAMPLE.replace('range = 5', 'range = 4'))
        self.assertEqual(alone.hearers(1), [])
        # (3, 4) is 5 away: 25 / 10, rounded down
        near = Scenario.parse(EXAMPLE.replace('x = 5\ny = 0', 'x = 3\ny = 4').replace('per = 100', 'per = 10'))
        self.assertEqual((near.hearers(0), near.delay(0, 1)), ([1], 4))

    def test_the_medium_of_the_cases_is_the_scenarios(self) -> None:
        for path in (TOP / 'tests/cases/nets').glob('*.toml'):
            noted = path.with_suffix('.expected')
            if noted.is_file() and noted.read_bytes().startswith(b'mote '):
                check_scenario(Report.parse(noted.read_bytes()), Scenario.parse(path.read_bytes()))

    def test_a_text_that_is_no_scenario_has_its_fault(self) -> None:
        for old, new, said in rows_of('broken_scenarios.tsv'):
            with self.assertRaisesRegex(ScenarioFault, said):
                Scenario.parse(EXAMPLE.replace(old, new))
        with self.assertRaisesRegex(ScenarioFault, 'UTF-8'):
            Scenario.parse(b'\xff')

    def test_a_report_of_other_motes_or_of_another_medium_has_a_fault(self) -> None:
        with self.assertRaisesRegex(ScenarioFault, 'the scenario has 3 motes, the report 2'):
            check_scenario(Report.parse(SMALL), Scenario.parse(EXAMPLE))
        for old, new, said in rows_of('other_scenarios.tsv'):
            with self.assertRaisesRegex(ScenarioFault, said):
                check_scenario(Report.parse(EXAMPLE_REPORT), Scenario.parse(EXAMPLE.replace(old, new)))


class Runs(Room):
    def as_program(self, text: str) -> mock._patch_dict:
        """As if the program were this script."""
        return mock.patch.dict(os.environ, {'MOTESIM': str(self.put_program('motesim', text))})

    def test_a_report_is_read_and_a_scenario_is_run(self) -> None:
        report = self.put('a.report', EXAMPLE_REPORT)
        scenario = self.put('a.toml', EXAMPLE)
        found = read_run(report)
        self.assertEqual((found.report.text(), found.scenario), (EXAMPLE_REPORT, None))
        found = read_run(report, scenario)
        self.assertEqual(found.scenario and found.scenario.end, 20)
        with self.as_program('cat >/dev/null\ncat %s' % report):
            found = read_run(scenario)
        self.assertEqual((found.report.text(), found.scenario and found.scenario.end), (EXAMPLE_REPORT, 20))

    def test_a_scenario_and_a_report_are_told_by_their_first_line(self) -> None:
        report = self.put('r.toml', EXAMPLE_REPORT)
        self.assertIsNone(read_run(report).scenario)
        with self.as_program('cat >/dev/null\ncat %s' % report):
            for begin in '', '# A net\n', '\n\n  ', '\ufeff':
                for name in 'net', 'net.txt', 'net.toml':
                    scenario = read_run(self.put(name, begin + EXAMPLE)).scenario
                    self.assertEqual(scenario and scenario.end, 20)
        for text in '[medium]\n', '"end" = 5\n', 'end=5\n':
            with self.assertRaisesRegex(ScenarioFault,
                                        r'net.txt: scenario fault 2: .* the key .* tools/explain .*net.txt says more'):
                read_run(self.put('net.txt', text))
        for text in 'mote 1 a\n', '0 start etimer\n':
            with self.assertRaisesRegex(ReportFault, 'net.txt: line 1: expected'):
                read_run(self.put('net.txt', text))
        with self.assertRaisesRegex(ReportFault, 'net.txt: line 1: .* ends with only LF, not as on Windows'):
            read_run(self.put('net.txt', EXAMPLE_REPORT.replace('\n', '\r\n')))
        self.put('net.txt', '').write_bytes(EXAMPLE_REPORT.encode('utf-16'))
        with self.assertRaisesRegex(Fault, 'net.txt is not UTF-8, because of a byte in line 1. Save it as UTF-8'):
            read_run(self.room / 'net.txt')
        with self.assertRaisesRegex(Fault, 'net.txt is empty: expected a report or a scenario'):
            read_run(self.put('net.txt', '\n'))

    def test_what_can_not_be_run_or_read_has_a_fault(self) -> None:
        scenario = self.put('a.toml', EXAMPLE)
        with self.as_program('echo motesim: medium fault 2 >&2\nexit 1'):
            with self.assertRaisesRegex(ProgramFault, 'a.toml: the scenario has no report: motesim: medium fault 2'):
                read_run(scenario)
        with mock.patch.dict(os.environ, {'MOTESIM': '/nowhere/motesim'}):
            with self.assertRaisesRegex(ProgramFault, 'there is no program /nowhere/motesim'):
                read_run(scenario)
        with self.assertRaisesRegex(Fault, 'no.report: No such file'):
            read_run('no.report')
        for name in 'a.toml', 'a.txt':
            with self.assertRaisesRegex(Fault, '%s is a scenario itself' % name):
                read_run(self.put(name, EXAMPLE), scenario)
        for name, said in (('a.c', 'is a program in C'), ('a.mote', 'is the text of a program'),
                           ('a.plan.toml', 'is a plan, not a scenario'), ('a.csv', 'has results, not a report')):
            with self.assertRaisesRegex(Fault, '%s %s.*: tools/.*%s' % (name, said, name)):
                read_run(self.put(name, 'x\n'))
        with self.assertRaisesRegex(ReportFault, 'b.report: line 1: expected'):
            read_run(self.put('b.report', 'x\n'))
