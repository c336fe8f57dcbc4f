"""The host, tools/contiki_host: its reports of two exported scenarios, and that each of its rules is noticed."""
import subprocess
import tomllib
from pathlib import Path

from here import SECONDS, TOOLS, TOP, Room, call
from skips import long, need, need_built

from motesim.report.run import program_path

HOST = TOOLS / 'contiki_host'
OWN = Path(__file__).resolve().parent / 'contiki_host'
SCENARIOS = [OWN / 'rules.toml', TOP / 'examples/small_network.toml']
CHECKED = '-g -pedantic -fsanitize=address,undefined -fno-sanitize-recover=all'


@long
class Host(Room):
    def setUp(self) -> None:
        for name in 'make', 'gcc', 'tcc':
            need(name, name)
        super().setUp()
        for path in SCENARIOS:
            call('export', str(path), '--to', 'contiki', '--host', '-o', str(self.room / path.stem), check=True)

    def report(self, name: str, compiler: str, flags: str = '') -> str:
        """The report of an exported scenario by the host."""
        folder = self.room / name
        subprocess.run(['make', '-s', '-C', str(folder), 'host', 'HOSTCC=' + compiler, 'HOSTFLAGS=' + flags],
                       check=True, capture_output=True)
        return subprocess.run([str(folder / 'host')], check=True, capture_output=True, text=True,
                              timeout=SECONDS).stdout

    def reports(self) -> list[str]:
        return [self.report(path.stem, 'tcc') for path in SCENARIOS]

    def test_a_report_is_that_of_the_page_without_an_access_out_of_place(self) -> None:
        page = (TOP / 'docs/use/REPORT.md').read_text()
        for flags in '-O0', '-O2', CHECKED:
            report = self.report('small_network', 'gcc', flags)
            self.assertIn('```\n%s' % report, page)
            self.assertRegex(report, r'\Amote 0 (?s:.*)\nleft \d+\n\Z')
        with open('/dev/full', 'w') as full:
            done = subprocess.run([self.room / 'small_network/host'], stdout=full, stderr=subprocess.PIPE, text=True)
        self.assertEqual((done.returncode, done.stderr), (1, 'host: write fault\n'))

    def test_the_radio_over_rime_compiles(self) -> None:
        """Against declarations of Rime: there is no Contiki tree here to compile with."""
        subprocess.run(['gcc', '-Wall', '-Wextra', '-Werror', '-std=c99', '-pedantic', '-I%s' % OWN, '-I%s' % HOST,
                        '-DMOTESIM_FOR_CONTIKI', '-c', str(HOST / 'rime/motesim_radio.c'), '-o',
                        str(self.room / 'radio.o')], check=True)

    def test_the_reports_are_those_of_motesim(self) -> None:
        need_built()
        self.assertEqual(self.reports(), [subprocess.run([str(program_path()), str(path)], check=True,
                                                         capture_output=True, text=True).stdout for path in SCENARIOS])

    def test_each_rule_that_is_broken_changes_a_report(self) -> None:
        right = self.reports()
        for mutant in tomllib.loads((OWN / 'mutants.toml').read_text())['mutant']:
            text = (HOST / mutant['file']).read_text()
            self.assertEqual(text.count(mutant['from']), 1, mutant)
            copies = [self.room / path.stem / 'contiki_host' / mutant['file'] for path in SCENARIOS]
            for copy in copies:
                copy.write_text(text.replace(mutant['from'], mutant['to']))
            with self.subTest(mutant['rule']):
                self.assertNotEqual(self.reports(), right)
            for copy in copies:
                copy.write_text(text)
