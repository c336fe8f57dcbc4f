"""The installation: pip makes it from this tree and nothing else, and `motesim` runs the tools in it."""
import os
import re
import subprocess
import sys
import zipfile
from pathlib import Path

from here import SECONDS, TOOLS, TOP, Room, call
from motesim.home import VERBS
from project.package import build_wheel
from skips import long


class Package(Room):
    def test_the_wheel_has_the_package_and_what_it_reads(self) -> None:
        wheel = self.room / build_wheel(str(self.room))
        its = {it.filename: it for it in zipfile.ZipFile(wheel).infolist()}
        for path in (TOOLS / 'motesim').rglob('*'):
            name = path.relative_to(TOOLS).as_posix()
            self.assertEqual(name in its, path.is_file() and '__pycache__' not in name, name)
        for name in 'web/motesim.wasm', 'web/motecheck', 'examples/news.toml', 'docs/use/TUTORIAL.md', 'LICENSE':
            entry = its['motesim/share/' + name]
            self.assertEqual(bool(entry.external_attr >> 16 & 0o100), os.access(TOP / name, os.X_OK), name)
        self.assertEqual([it for it in its if 'share' in it and re.search('solution|hidden|[.]pyc', it)], [])
        first = wheel.read_bytes()
        build_wheel(str(self.room))
        self.assertEqual(wheel.read_bytes(), first)

    @long
    def test_pip_installs_one_command_without_a_network(self) -> None:
        """In a fresh virtual environment, without an index and without a variable of this environment."""
        def run(*words: str) -> tuple[int, str, str]:
            done = subprocess.run(words, cwd=self.room, capture_output=True, text=True, timeout=SECONDS, env={
                'PATH': os.environ['PATH'], 'HOME': str(self.room), 'MOTESIM_SEEN': os.environ['MOTESIM_SEEN']})
            return done.returncode, done.stdout, done.stderr

        made = run(sys.executable, '-m', 'venv', 'there')
        if made[0]:
            self.skipTest('venv: ' + made[2])
        python, motesim = 'there/bin/python', 'there/bin/motesim'
        self.assertEqual(run(python, '-m', 'pip', 'install', '-q', '--no-index', '--disable-pip-version-check',
                             str(TOP)), (0, '', ''))
        inside = run(python, '-c', 'import motesim; print(motesim.__file__)')[1]
        self.assertTrue(inside.startswith(str(self.room / 'there')), inside)
        help = run(motesim)[1]
        self.assertEqual(re.findall('^  ([a-z]+) ', help, re.M), VERBS)
        examples = re.findall('examples are in (.*),', help)[0]
        report = run(motesim, examples + '/two_motes.toml')
        self.assertEqual((report[0], report[1].startswith('mote 0 hello\n0 start etimer\n')), (0, True))
        self.assertEqual(run(motesim, 'run', examples + '/two_motes.toml')[:2], report[:2])
        self.assertEqual(run(motesim, 'expect', examples + '/news.toml')[1].splitlines()[-1], '2 passed, 0 failed')
        found = run(motesim, 'search', examples + '/news.toml', '--links', '--at-most', '2', '-o', 'found')
        self.assertIn('link 1 to 2 is broken; link 4 to 2 is broken', found[1])
        self.assertEqual(found[0], 1)
        self.assertIn('usage: motesim why ', run(motesim, 'why', '--help')[1])
        self.assertEqual([it for it in Path(examples).rglob('*') if it.name.endswith('.search')], [])


class OneCommand(Room):
    """What the command `motesim` does with its words; in a clone python3 -m motesim is the same."""

    def run_it(self, *words: str) -> tuple[int, str, str]:
        done = call('motesim/__main__.py', *words, cwd=self.room)
        return done.returncode, done.stdout, done.stderr

    def test_messages_have_the_names_that_one_types(self) -> None:
        self.put('net.toml', 'version = 1\n')
        status, _, said = self.run_it('summary', 'net.toml')
        self.assertEqual(status, 2)
        self.assertIn('motesim explain net.toml', said)
        self.assertIn('tools/explain net.toml', call('summary', 'net.toml', cwd=self.room).stderr)
        usage = 'usage: %s SCENARIO [EXPECTATIONS] [options]\n'
        self.assertTrue(self.run_it('expect', '--help')[1].startswith(usage % 'motesim expect'))
        self.assertTrue(call('expect', '--help').stdout.startswith(usage % 'tools/expect'))

    def test_a_file_is_run_and_an_error_is_explained(self) -> None:
        self.put('net.toml', 'version = 1\n')
        for words in ['net.toml'], ['run', 'net.toml']:
            status, out, said = self.run_it(*words)
            self.assertEqual((status, out), (2, ''))
            self.assertIn('net.toml has no `end`.', said)
        self.assertEqual(self.run_it('two.toml')[0], 2)
        self.assertEqual(self.run_it('serch'),
                         (2, '', 'motesim: there is no command and no file serch; did you mean search?\n'))
        self.assertRegex(self.run_it('--version')[1], 'motesim [0-9]')

    def test_bash_completes_verbs_options_and_values(self) -> None:
        script = self.put('completion', self.run_it('completion')[1])
        for typed, found in ((['se'], 'search'), (['export', '--to', 'con'], 'contiki'),
                             (['sweep', '--rene'], '--renew'), (['why', 'compl'], 'completion')):
            shell = 'source %s; COMP_WORDS=(motesim %s); COMP_CWORD=%d; _motesim; echo "${COMPREPLY[@]}"' % (
                script, ' '.join(typed), len(typed))
            done = subprocess.run(['bash', '-c', shell], cwd=self.room, capture_output=True, text=True)
            self.assertEqual((done.stdout, done.stderr), (found + '\n', ''))
