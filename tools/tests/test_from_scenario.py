"""A plan from a scenario makes the same net."""
import subprocess

from here import TOP, call, Room
from motesim.plan.plan import Plan
from motesim.scenario import Scenario


class FromScenario(Room):
    def made(self, *words: str, status: int = 0) -> subprocess.CompletedProcess[str]:
        done = call('scenario', *words, cwd=self.room)
        self.assertEqual(done.returncode, status, done)
        return done

    def test_each_example_comes_back(self) -> None:
        for path in sorted((TOP / 'examples').glob('*.toml')):
            if path.name.endswith('.expect.toml') or path.name == 'wrong.toml':
                continue
            with self.subTest(path.name):
                folder = self.room / path.stem
                folder.mkdir()
                plan = folder / (path.stem + '.plan.toml')
                self.made('--from', str(path), '-o', str(plan))
                before, after = Scenario.parse(path.read_bytes()), Scenario.parse(Plan.read(plan).scenario({}))
                for name in 'end', 'range', 'base', 'per', 'collide', 'places', 'losses':
                    self.assertEqual(getattr(before, name), getattr(after, name), name)
                used = {place.program for place in before.places}
                self.assertEqual({name: before.programs[name] for name in used}, after.programs)
                self.assertEqual({name: before.queue[name] for name in before.queue if name in used}, after.queue)

    def test_its_numbers_are_parameters(self) -> None:
        (self.room / 'net.toml').write_bytes((TOP / 'examples/flooding.toml').read_bytes())
        self.assertEqual(self.made('--from', 'net.toml').stdout.split(),
                         ['flood.mote', 'net.places.csv', 'net.losses.csv', 'net.plan.toml'])
        made = Scenario.parse(self.made('net.plan.toml', '--param', 'range=15', '--param', 'end=50').stdout)
        self.assertEqual((made.range, made.end), (15, 50))

    def test_nothing_is_written_over(self) -> None:
        (self.room / 'net.toml').write_bytes((TOP / 'examples/flooding.toml').read_bytes())
        (self.room / 'flood.mote').write_text('mine')
        self.assertIn('flood.mote is there already', self.made('--from', 'net.toml', status=2).stderr)
        self.assertEqual((self.room / 'flood.mote').read_text(), 'mine')
        self.assertFalse((self.room / 'net.plan.toml').exists())

    def test_what_cannot_be_done_is_told(self) -> None:
        self.assertIn('name a PLAN', self.made(status=2).stderr)
        self.assertIn('No such file', self.made('--from', 'no.toml', status=2).stderr)
        (self.room / 'net.toml').write_text('version = 1')
        self.assertIn('scenario fault 2', self.made('--from', 'net.toml', status=2).stderr)
