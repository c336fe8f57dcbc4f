"""The layers of the tools: imports lead only to the packages that ARCHITECTURE allows, and those are lower ones. And
the times in tests, which are those of here.py."""
import ast
import re
import unittest
from collections.abc import Iterator
from pathlib import Path

from here import TOOLS, TOP

HOME = TOOLS / 'motesim'
ROW = re.compile(r'\| `(\w+)` \| [^|]+ \| ([\w, ]*)\|')
# The edges of commands, which import modules when they need them, and the package, whose names are those of modules.
EDGES = ('commands', 'command.py', '__init__.py')


def imports(path: Path) -> Iterator[tuple[str, bool]]:
    """The packages (or modules at the top) that a module imports, and whether a function does it."""
    tree = ast.parse(path.read_text('utf-8'))
    inner = {id(it) for part in ast.walk(tree) if isinstance(part, ast.FunctionDef) for it in ast.walk(part)}
    for it in ast.walk(tree):
        if isinstance(it, ast.ImportFrom) and (it.module or '').partition('.')[0] == 'motesim':
            for name in [str(it.module).split('.')[1]] if it.module != 'motesim' else [part.name for part in it.names]:
                yield name, id(it) in inner


class Layers(unittest.TestCase):
    def test_imports_have_one_direction(self) -> None:
        rows = ROW.findall((TOP / 'docs/dev/ARCHITECTURE.md').read_text('utf-8').partition('## The tools')[2])
        may = {name: [it.strip() for it in its.split(',') if it.strip()] for name, its in rows}
        self.assertEqual(sorted(may), sorted(it.parent.name for it in HOME.glob('*/__init__.py')))
        for place, (name, below) in enumerate(may.items()):
            self.assertLessEqual({*below} - {'all'}, {*[*may][:place]}, name)
        for path in sorted(HOME.rglob('*.py')):
            own = path.relative_to(HOME).parts[0]
            for package, is_inner in imports(path):
                self.assertFalse(is_inner and own not in EDGES, '%s imports in a function' % path)
                if package in may and own not in EDGES:
                    self.assertIn(package, [own, *may.get(own, [])], path)

    def test_a_line_has_at_most_120_characters(self) -> None:
        for folder in 'tools', 'tests', 'examples':
            for path in sorted((TOP / folder).rglob('*.py')):
                self.assertLessEqual(max(map(len, ['', *path.read_text('utf-8').split('\n')])), 120, path)

    def test_no_test_waits_for_a_time(self) -> None:
        time = re.compile(
            r'\b(sleep|setTimeout|time\.(monotonic|process_time|perf_counter))\b|\b(timeout=|wait\(|join\()[0-9]')
        for path in sorted([*TOP.glob('tests/*.py'), *TOOLS.glob('tests/*.py'), *TOOLS.glob('tests/*/*.js'),
                            *TOOLS.glob('tests/texts/*.txt')]):
            if path.name != 'here.py':
                self.assertIsNone(time.search(path.read_text('utf-8').replace(time.pattern, '')), path)


class Crates(unittest.TestCase):
    def test_the_list_of_crates_has_each_below_those_that_it_uses(self) -> None:
        uses = dict(re.findall(r'(?m)^(\w+)[^:#\n]*:(.*)$', (TOP / 'crates.txt').read_text('utf-8')))
        listed = re.findall(r'(?m)^- `(\w+)`: ', (TOP / 'crates/README.md').read_text('utf-8'))
        self.assertEqual(sorted(listed), sorted(uses))
        for place, name in enumerate(listed):
            self.assertLessEqual({*uses[name].split()} & {*uses}, {*listed[:place]}, name)
