"""The modules of the pages without a browser: how they are joined into one script, their types, and their tests in
node, which compare what they find in runs of examples, cases and random scenarios with what the tools find."""
import base64
import json
import re
import subprocess
from collections.abc import Iterator
from pathlib import Path
from typing import Any

import pytest
from here import TOOLS, TOP
import skips
import test_summary
import test_timeline
import test_why
from motesim.comparison.reports import MEDIUM, compared, differences, packet_of
from motesim.explain.rules import rules
from motesim.judge import expectations
from motesim.notation.grammar import COLOURS, NAMING
from motesim.report import KINDS, Report
from motesim.report.run import Run
from motesim.runner import Runner
from motesim.scenario import Scenario
from motesim.studio import answers
from motesim.summary.counts import LINK_NAMES, summary
from motesim.timeline.bundle import BundleFault, bundle, imports_of, modules_of
from motesim.timeline.columns import data_of
from motesim.toml import read_toml
from motesim.causes.chain import chain
from motesim.causes.pages import causes_of
from motesim.causes.say import because
from motesim.causes.source import At, source_of
from project.differential.random_scenario import random_scenario

# The folders of modules, each of which imports only from those before it and from itself.
PAGES = [TOOLS / 'motesim' / name / 'page' for name in ('timeline', 'web', 'studio')]
ENTRIES = [PAGES[0] / 'open.js', PAGES[1] / 'lone.js', PAGES[1] / 'worker.js', PAGES[2] / 'studio.js']
MODULES = [path for folder in PAGES for path in sorted(folder.glob('*.js'))]
OPTIONS = '--allowJs --checkJs --noEmit --noUnusedLocals --target es2022 --module es2022 --moduleResolution node ' \
          '--skipLibCheck --lib es2022,dom,dom.iterable'
TESTS = sorted((TOOLS / 'tests/page').glob('*.test.js'))
EXAMPLES = sorted(path for path in (TOP / 'examples').glob('*.toml') if not path.name.endswith('.expect.toml'))
CASES = 'ring_overflows', 'nine_copies_collide', 'copy_past_the_end', 'broadcast_walk', 'runaway_beside_another'
# How many random scenarios are run, and the longest report whose differences are compared.
RANDOM, LONGEST = 20, 2_000_000
# Lines whose chains are compared: mote and place in its trace. In broadcast_walk.toml, it is a line `drop`.
CHAINS = {'small': [(0, 12), (0, 9), (0, 17), (0, 15), (1, 7), (1, 4)], 'broadcast_walk': [(0, 10)]}
# Tables in brackets, dots and quotes in keys, tables between others, and a comment at each place that may have one.
SPELLED = (TOOLS / 'tests/texts/spelled.toml').read_text()
TELL = "const own = '%s';\nexport function tell() { return own; }\n"
PART = "import {log} from './log.js';\nlog.push('%s');\nexport const %s = 1;\n"
# Modules, and what they print when they are joined.
JOINED = [
    ({'log': 'export const log = [];\n', 'a': PART % ('a', 'a'), 'b': PART % ('b', 'b'),
      'main': "import {a} from './a.js';\nimport {b} from './b.js';\nimport {log} from './log.js';\n"
              'console.log(log.join(), a + b);\n'}, 'a,b 2\n'),
    ({'one': TELL % 'one', 'two': TELL % 'two',
      'main': "import {tell} from './one.js';\nimport {tell as other} from './two.js';\nconst own = 'main';\n"
              'console.log(tell(), other(), own);\n'}, 'one two main\n'),
    ({'one': TELL % 'one', 'main': "import {tell} from './one.js';\ntell();\nconsole.log(typeof own);\n"},
     'undefined\n'),
    ({'forms': 'export const [A, B] = [1, 2];\nexport const c = 3;\nexport class D {}\nexport async function e() {}\n'
               'export function f() {}\n',
      'main': "import {\n  A, B, c,\n  D, e, f} from './forms.js';\n"
              'console.log(A, B, c, [D, e, f].map(it => it.name).join());\n'}, '1 2 3 D,e,f\n')]
A = "import {a} from './a.js';\n"
# Modules that can't be joined, and why.
REFUSED = [(A, A.replace('./a', './main'), 'modules import one another: main.js, a.js'),
           (A, 'const a = 1;\n', 'main.js imports a, which a.js does not export'),
           ("import {b} from './nowhere.js';\n", '', 'is not there'),
           *((form + '\n', 'export const a = 1;\n', 'main.js has a form that no page may use: ' + form)
             for form in ('export default 1;', 'export let a = 1;', "import './a.js';",
                          "import * as a from './a.js';"))]


def node(*words: str, **variables: str) -> str:
    """The output of node."""
    done = subprocess.run(['node', *words], capture_output=True, text=True, env={'PATH': '/usr/bin:/bin', **variables})
    assert done.returncode == 0, done.stdout + done.stderr
    return done.stdout


def written(room: Path, modules: dict[str, str]) -> Path:
    """Writes modules, and returns the path of `main`."""
    for name, text in modules.items():
        (room / (name + '.js')).write_text(text)
    return room / 'main.js'


@pytest.mark.parametrize('modules, printed', JOINED)
def test_modules_are_joined(modules: dict[str, str], printed: str, tmp_path: Path) -> None:
    skips.need('node', 'nodejs')
    script = tmp_path / 'bundle.cjs'
    script.write_text(bundle(written(tmp_path, modules)))
    assert node(str(script)) == printed


@pytest.mark.parametrize('main, a, why', REFUSED)
def test_what_can_not_be_joined_is_refused(main: str, a: str, why: str, tmp_path: Path) -> None:
    with pytest.raises(BundleFault, match=re.escape(why)):
        bundle(written(tmp_path, {'main': main, 'a': a}))


def test_every_module_is_used_and_imports_in_one_direction() -> None:
    assert {path for entry in ENTRIES for path in modules_of(entry)} == set(MODULES)
    for path in MODULES:
        for _, file in imports_of(path.read_text()):
            assert (path.parent / file).resolve().parent in PAGES[:PAGES.index(path.parent) + 1], path


def test_the_pages_parse(tmp_path: Path) -> None:
    skips.need('node', 'nodejs')
    for page in ENTRIES:
        script = tmp_path / 'page.cjs'
        script.write_text(bundle(page))
        node('--check', str(script))


def test_types_fit_in_all_modules() -> None:
    skips.need('tsc', 'node-typescript')
    done = subprocess.run(['tsc', *OPTIONS.split(), str(PAGES[0] / 'browser.d.ts'), *map(str, ENTRIES)],
                          capture_output=True, text=True)
    assert done.returncode == 0, done.stdout + done.stderr


def run_of(name: str, text: str) -> Run | None:
    """The run of a text; none if motesim refuses it."""
    got = Runner().answer(text.encode())
    return None if got.status else answers.finished(text, got.report, name).run


def changed(path: Path, text: str) -> list[str]:
    """Texts near that of an example: with the changes of its expectations, with another end, and without a mote."""
    expected = path.with_suffix('.expect.toml')
    found = [re.sub(r'(?m)^end = \d+', 'end = 7', text)]
    for part in expectations.parts_of(expected.read_text(), expected.name) if expected.exists() else ():
        one = text
        for old, new in (part.replace or {}).items():
            one = one.replace(old, new)
        found += [one] * bool(part.replace)
    head, *motes = text.split('[[mote]]')
    return found if len(motes) < 2 or '[[loss]]' in text else [*found, '[[mote]]'.join([head, *motes[1:]])]


def built_runs() -> Iterator[tuple[str, str, list[str]]]:
    """Scenarios that the built motesim runs: name, text, and other texts whose runs are compared with this one."""
    for path in [*EXAMPLES, *(path for name in CASES for path in (TOP / 'tests/cases').glob('*/%s.toml' % name))]:
        yield path.stem, path.read_text(), changed(path, path.read_text()) if path in EXAMPLES else []
    for seed in range(RANDOM):
        text = random_scenario('pages %d' % seed).decode()
        yield 'random %d' % seed, text, [re.sub(r'(?m)^end = \d+', 'end = 7', text)]


def run_given(run: Run, scenario: str | None) -> dict[str, Any]:
    """A run as a page has it, with its text, its totals and the fates of its copies."""
    table, columns = data_of(run)
    motes, net, links = summary(run)
    return {'table': {**table, 'why': causes_of(run)}, 'columns': base64.b64encode(columns).decode(),
            'name': run.name, 'report': run.report.text(), 'scenario': scenario,
            'outcomes': [it.what for it in run.report.outcomes()], 'sums': scenario and {
                'motes': [list(net), *(list(row.values()) for row in [*motes, net])],
                'links': [LINK_NAMES, *(list(row.values()) for row in links)]}}


def difference(before: Run, after: Run) -> dict[str, Any]:
    """What tools/compare finds."""
    _, first, is_same = compared(before, after, 12)
    reports = before.report, after.report
    found: dict[str, Any] = {'same': is_same, 'first': None, 'parts': []}
    if first:
        in_medium = first.mote == MEDIUM
        found['first'] = {'at': first.at, 'mote': packet_of(reports, first).sender if in_medium else first.mote,
                          'index': -1 if in_medium else first.place, 'inMedium': in_medium}
        found['parts'] = [[it.mote, it.at] for it in differences(*reports) if it.mote != MEDIUM]
    return found


def chains_of(run: Run, places: list[tuple[int, int]]) -> list[dict[str, Any]]:
    """The reasons that tools/why reports for the lines at these places."""
    source = source_of(run)
    return [{'name': run.name, 'row': source.traces.row(At(*where)),
             'because': ['mote %d: %s' % (hop.where.mote, because(source, hop)) for hop in chain(source, At(*where))]}
            for where in places]


@pytest.fixture(scope='module')
def data(tmp_path_factory: pytest.TempPathFactory) -> str:
    """The file with the wanted results for the tests in node."""
    skips.need('node', 'nodejs')
    skips.need_built()
    program = 'process t; code t { body { } }'
    scenario = test_summary.SCENARIO.replace('talker = ""', 'talker = "%s"' % program).replace(
        'hearer = ""', 'hearer = "%s"' % program)
    own = [(Run(name, Report.parse(report), Scenario.parse(text) if text else None), text) for name, report, text in (
        ('small', test_why.REPORT, test_why.SCENARIO), ('sums', test_summary.REPORT, scenario),
        ('many', test_timeline.many(60, 20), None), ('silent', test_timeline.SILENT, None))]
    runs = {run.name: (run, text) for run, text in own}
    found = []
    for name, text, others in built_runs():
        run = run_of(name, text)
        if run is None:
            continue
        runs[name] = run, text
        for other in [text, *others]:
            after = run if other == text else run_of(name, other)
            if after and len(after.report.text()) < LONGEST:
                found.append({'name': name, 'report': after.report.text(), 'scenario': other,
                              'found': difference(run, after)})
    path = tmp_path_factory.mktemp('page') / 'data.json'
    path.write_text(json.dumps({
        'kinds': list(KINDS), 'words': {'colours': COLOURS, 'naming': NAMING}, 'corrections': rules(),
        'differences': found,
        'runs': {name: run_given(*it) for name, it in runs.items()},
        'chains': [it for name, places in CHAINS.items() for it in chains_of(runs[name][0], places)],
        'texts': [{'text': text, 'tables': read_toml(text)} for text in
                  [*(path.read_text() for path in EXAMPLES), SPELLED]]}))
    return str(path)


def test_in_node(data: str, tmp_path: Path) -> None:
    """All in one process, because the wanted results are long."""
    script = tmp_path / 'all.mjs'
    script.write_text(''.join('await import(%s);\n' % json.dumps(path.as_uri()) for path in TESTS))
    node(str(script), MOTESIM_PAGE_DATA=data)
