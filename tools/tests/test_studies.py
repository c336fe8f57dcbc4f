"""The worked studies in a small form, which still show what examples/studies/README.md says."""
import csv
import unittest
from pathlib import Path

from here import TOP, call, Room
from motesim.analysis.command import table_path
from motesim.analysis.of_plan import plots_of
from motesim.plan.plan import Plan
from skips import interpreter_with, long, need_built

STUDIES = TOP / 'examples/studies'


class PageTest(unittest.TestCase):
    def test_every_study_is_on_the_page(self) -> None:
        page = (STUDIES / 'README.md').read_text('utf-8')
        for plan in STUDIES.glob('*.plan.toml'):
            plots = plots_of(Plan.read(plan))
            self.assertIn('tools/sweep examples/studies/%s' % plan.name + ' --plot' * bool(plots), page)
            for it in plots:
                self.assertIn('(%s)' % it.file, page)
                self.assertTrue((STUDIES / it.file).is_file(), it.file)


@long
class StudiesTest(Room):
    def study(self, name: str, *words: str) -> list[dict[str, str]]:
        """The rows of a study with fewer values. Its pictures are drawn too, or shown as tables."""
        need_built()
        interpreter_with(self, 'matplotlib')
        plan = STUDIES / (name + '.plan.toml')
        done = call('sweep', str(plan), '--plot', '--seconds', '500', *words, cwd=self.room)
        self.assertEqual(done.returncode, 0, done)
        pictures = {it.file for it in plots_of(Plan.read(plan))}
        made = {it.name for it in self.room.iterdir()} - {name + '.csv'}
        self.assertEqual(made, pictures | {str(table_path(Path(it))) for it in pictures})
        return self.rows(name)

    def rows(self, name: str) -> list[dict[str, str]]:
        with open(self.room / (name + '.csv'), newline='') as file:
            file.readline()
            return list(csv.DictReader(file))

    def test_density(self) -> None:
        rows = self.study('density', '--param', 'seed=1,2', '--param', 'motes=20,50', '--param', 'period=20,40')
        found = {(int(row['motes']), int(row['period']), int(row['seed'])): row for row in rows}
        self.assertEqual((len(found), {row['error'] for row in rows}), (8, {''}))
        for (motes, period, seed), row in found.items():
            # In a denser net less arrives, and with a longer period more.
            if motes == 20:
                self.assertGreater(float(row['delivered']), float(found[50, period, seed]['delivered']))
            if period == 20:
                self.assertLess(float(row['delivered']), float(found[motes, 40, seed]['delivered']))
            self.assertAlmostEqual(float(row['delivered']), float(row['aloha']), delta=0.04)

    def test_trickle(self) -> None:
        rows = self.study('trickle', '--param', 'seed=1,2', '--param', 'enough=1,4', '--param', 'step=20,8')
        found = {(int(row['step']), int(row['enough']), int(row['seed'])): row for row in rows}
        self.assertEqual((len(found), {row['error'] for row in rows}), (8, {''}))
        for seed in (1, 2):
            def of(step: int, enough: int, name: str) -> int:
                return int(found[step, enough, seed][name])

            # More are silent where more are heard, and where one of them is enough.
            self.assertLess(of(20, 1, 'messages'), of(20, 4, 'messages'))
            self.assertLess(of(8, 1, 'messages'), of(8, 4, 'messages'))
            self.assertLess(of(8, 1, 'messages'), of(20, 1, 'messages'))
            # What that costs is delay, in the thin net.
            self.assertGreater(of(20, 1, 'delay'), of(20, 4, 'delay'))

    def test_trickle_in_phase_collides_more(self) -> None:
        need_built()
        words = [it for name in ('phases=1,256', 'seed=1,2', 'enough=1', 'step=20') for it in ('--param', name)]
        done = call('sweep', str(STUDIES / 'trickle.plan.toml'), *words, cwd=self.room)
        self.assertEqual(done.returncode, 0, done)
        found = {(int(row['phases']), row['seed']): int(row['collided']) for row in self.rows('trickle')}
        for seed in '1', '2':
            self.assertGreater(found[1, seed], 1.5 * found[256, seed])

    def test_flooding(self) -> None:
        rows = self.study('flooding', '--param', 'seed=1,2', '--param', 'jitter=1,32', '--param', 'range=10,25')
        found = {(int(row['range']), int(row['jitter']), int(row['seed'])): row for row in rows}
        self.assertEqual((len(found), {row['error'] for row in rows}), (8, {''}))
        for reach in (10, 25):
            for seed in (1, 2):
                soon, late = found[reach, 1, seed], found[reach, 32, seed]
                self.assertGreater(int(soon['collided']), 2 * int(late['collided']))
                self.assertLess(int(soon['reached']), int(late['reached']))
                self.assertLess(int(soon['delay']), int(late['delay']))
