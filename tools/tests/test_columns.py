"""Reports as columns: the text is made again from them, and texts that are no reports are refused."""
import random
import unittest

from here import text_of
from motesim.report import LOST, Report, ReportFault

SMALL = text_of('each_kind.report')
WORDS = ['', ' ', '\n', '-', '0', '00', '1', '65535', '65536', '4611686018427387904', '1000001', 'take', 'halt', 'lost',
         'a', 'A', 'send', 'all', 'true', 'null', '1@6', '@', '1@lost', 'medium', 'left 0', 'mote 3 x', 'mote 1 hearer',
         '\t', '\r', 'é']


class Reading(unittest.TestCase):
    def check(self, data: bytes) -> bool:
        """Returns whether a text is a report. If so, the same text is made again from the columns."""
        try:
            report = Report.parse(data)
        except ReportFault:
            return False
        rows = data.decode().split('\n')
        self.assertEqual(report.text().encode(), data)
        self.assertEqual([rows[mote.row - 1] for mote in report.motes], list(map(str, report.motes)))
        self.assertEqual(rows[report.medium_row - 1], 'medium')
        return True

    def test_every_kind_of_line_is_read(self) -> None:
        self.assertTrue(self.check(SMALL.encode()))

    def test_texts_that_are_changed_at_random(self) -> None:
        chance = random.Random(5)
        kept = 0
        for _ in range(2000):
            text = chance.choice([SMALL,
                                  SMALL.replace('talk', 't4lk').replace(' busy\n', ' b1\n').replace('msg', 'm5g')])
            for _ in range(chance.choice([1, 1, 2])):
                rows = text.split('\n')
                one, other = chance.randrange(len(rows)), chance.randrange(len(rows))
                words = rows[one].split(' ')
                how = chance.randrange(5)
                if how == 0:
                    words[chance.randrange(len(words))] = chance.choice(WORDS)
                elif how == 1:
                    words.insert(chance.randrange(len(words) + 1), chance.choice(WORDS))
                elif how == 2:
                    del words[chance.randrange(len(words))]
                rows[one] = ' '.join(words)
                if how == 3:
                    rows[one], rows[other] = rows[other], rows[one]
                elif how == 4:
                    rows.insert(one, rows[other])
                text = '\n'.join(rows)
            kept += self.check(text.encode('utf-8'))
        # (not all changes make the text a wrong one)
        self.assertGreater(kept, 100)

    def test_numbers_at_their_limits(self) -> None:
        for number, is_one in ((2 ** 62 - 1, True), (2 ** 62, False), (2 ** 64 - 1, False), (10 ** 18, True)):
            for form in '7 deaf 0 %d', '7 lost 0 %d':
                text = SMALL.replace('7 deaf 0 4611686018427387903', form % number)
                self.assertEqual(self.check(text.encode()), is_one, number)
            self.assertEqual(self.check(SMALL.replace('1@12', '1@%d' % number).encode()), is_one, number)
            self.assertEqual(self.check(SMALL.replace('9 0 1 3', '9 0 %d 3' % number).encode()), is_one, number)
        for moment, is_one in ((1_000_000, True), (1_000_001, False)):
            self.assertEqual(self.check(SMALL.replace('8 halt', '%d halt' % moment).encode()), is_one)


class Columns(unittest.TestCase):
    def setUp(self) -> None:
        self.report = Report.parse(SMALL)

    def test_the_columns_are_those_of_the_lines(self) -> None:
        report, trace = self.report, self.report.trace
        lines = [line for mote in report.motes for line in mote.lines]
        self.assertEqual((len(trace), list(trace.starts)), (len(lines), [0, 13, 20, 20]))
        for index, line in enumerate(lines):
            names = [report.names[it] if it != 0xFFFF else None for it in (trace.process[index], trace.event[index])]
            self.assertEqual((trace.at[index], names), (line.at, [line.process, line.event]), line)
            self.assertEqual(trace.number[index], line.serial or line.number or 0, line)
            self.assertEqual(trace.sender[index], line.sender or 0, line)
            self.assertEqual(trace.value[index], line.word or line.value or 0, line)
            self.assertEqual((trace.line(index), trace.mote_of(index)), (line, line.mote))

    def test_rows_of_a_kind(self) -> None:
        trace = self.report.trace
        self.assertEqual(trace.rows(0, 'start'), [0, 1, 2, 3, 4])
        self.assertEqual((trace.rows(1, 'start'), trace.rows(2, 'start')), ([13], []))
        self.assertEqual(trace.place(1, 'start'), slice(5, 6))
        self.assertEqual(list(trace.all_rows('start')), [0, 1, 2, 3, 4, 13])

    def test_lines_of_a_mote_are_a_sequence(self) -> None:
        lines = self.report.motes[0].lines
        self.assertEqual([str(it) for it in lines[4:6]], ['0 start busy', '4 post 0 talk timer 1'])
        self.assertEqual([str(it) for it in lines[::6]], ['0 start etimer', '4 full all msg 65535', '9 busy busy'])
        self.assertEqual((str(lines[-1]), len(lines), lines[9:2]), ('9 busy busy', 13, []))
        self.assertEqual([str(it) for it in reversed(lines)][0], '9 busy busy')
        for index in 13, -14:
            with self.assertRaises(IndexError):
                lines[index]
        self.assertEqual(lines, list(lines))
        self.assertNotEqual(lines, self.report.motes[1].lines)

    def test_the_log(self) -> None:
        log = self.report.log
        self.assertEqual((list(log.at), list(log.first), list(log.to)), ([4, 4, 9], [0, 2, 2, 3], [1, 2, 1]))
        self.assertEqual(list(log.arrival), [6, LOST, 12])
        self.assertEqual([str(it) for it in log[1:]], ['4 2 0 9', '9 0 1 3 1@12'])
        self.assertEqual(str(log[-1]), '9 0 1 3 1@12')
        with self.assertRaises(IndexError):
            log[3]
