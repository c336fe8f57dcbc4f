"""Work by a real Dask scheduler with two workers: what tools/sweep finds is the same as without it."""
import os
import subprocess
import tempfile
from pathlib import Path

from here import text_of
import test_sweep
from skips import interpreter_with, long

# A scheduler with two workers. It prints its address, and then runs each line that it gets.
CLUSTER = text_of('cluster.py.txt')


# Dask's own measurements wake each process fifty times a second.
IDLE = {'DASK_DISTRIBUTED__ADMIN__TICK__INTERVAL': '1s', 'DASK_DISTRIBUTED__WORKER__PROFILE__INTERVAL': '10s',
        'DASK_DISTRIBUTED__ADMIN__SYSTEM_MONITOR__INTERVAL': '10s'}


@long
class Cluster(test_sweep.Bed):
    process: 'subprocess.Popen[str]'
    address: str

    @classmethod
    def setUpClass(cls) -> None:
        folder = tempfile.TemporaryDirectory()
        cls.addClassCleanup(folder.cleanup)
        (Path(folder.name) / 'cluster.py').write_text(CLUSTER)
        cls.process = subprocess.Popen([interpreter_with(cls, 'distributed'), 'cluster.py'], cwd=folder.name, text=True,
                                       env={**os.environ, **IDLE},
                                       stdin=subprocess.PIPE, stdout=subprocess.PIPE, stderr=subprocess.DEVNULL)
        cls.addClassCleanup(cls.process.communicate)
        assert cls.process.stdout
        cls.address = cls.process.stdout.readline().strip()

    def tell(self, line: str) -> None:
        assert self.process.stdin and self.process.stdout
        print(line, file=self.process.stdin, flush=True)
        self.assertEqual(self.process.stdout.readline(), 'done\n')

    def tell_program(self, path: Path) -> None:
        self.tell('client.run(name, %r)' % str(path))

    def test_the_rows_are_the_same(self) -> None:
        self.tell_program(self.stub)
        self.sweep(*self.words)
        done = self.sweep(*self.words, '-o', 'dask.csv', '--dask', self.address)
        # (standard error may show the progress, on a busy machine)
        self.assertEqual((done.returncode, done.stdout), (0, 'dask.csv: 6 runs, 6 of them now, 0 with an error\n'))
        self.assertEqual((self.room / 'dask.csv').read_bytes(), (self.room / 'net.csv').read_bytes())

    def test_what_the_cluster_lacks_is_reported(self) -> None:
        """The built program, workers, and a scheduler."""
        other = self.room / 'other'
        other.write_text(self.stub.read_text() + '# another\n')
        other.chmod(0o755)
        self.tell_program(other)
        done = self.sweep(*self.words, '--dask', self.address)
        self.assertEqual((done.returncode, done.stdout.split('\n')[0]),
                         (1, 'net.csv: 6 runs, 6 of them now, 6 with an error'))
        self.assertIn('differs from the motesim of the command', done.stdout)
        self.tell('cluster.scale(0)')
        for address, seen in (self.address, 'has no workers'), ('tcp://127.0.0.1:9', 'no Dask scheduler answers at'):
            done = self.sweep(*self.words, '-o', 'none.csv', '--dask', address)
            self.assertEqual(done.returncode, 2)
            self.assertIn(seen, done.stderr)
