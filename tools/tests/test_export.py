"""Tables of a run, read by pandas. test_from_contiki.py and test_contiki_host.py are about programs in C."""
import subprocess

from here import Room, text_of
from skips import interpreter_with
from test_report import EXAMPLE_REPORT

# The report of examples/small_network.toml, with a mote that halts, and one packet more.
REPORT = EXAMPLE_REPORT.replace('10 print echo 30\n', '10 print echo 30\n11 halt\n').replace(
    '19 post', '9 send 1 70\n19 post').replace('19 send 1', '19 send 2').replace(
    '19 2 1 40', '9 2 1 70 1@12\n19 2 2 40')
PANDAS = text_of('tables.py.txt')


class ExportTest(Room):
    def test_pandas_reads_the_tables(self) -> None:
        self.put('a.report', REPORT)
        done = self.tool('export', 'a.report', '--to', 'csv')
        self.assertEqual((done.stdout, done.stderr), ('a.lines.csv\na.packets.csv\na.copies.csv\n', ''))
        read = subprocess.run(
            [interpreter_with(self, 'pandas'), '-c', PANDAS], cwd=self.room, capture_output=True, text=True)
        self.assertEqual(read.stdout.split('\n'), [
            '38 [5, 6, 13]', "182 {'collided': 2, 'halted': 1, 'left': 1, 'lost': 1, 'received': 1}", '[[1, 10, 22]]',
            ''], read.stderr)
