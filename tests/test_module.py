"""Tests web/motesim.wasm and web/motecheck.wasm: tools/dev/check_module [--build]

Node runs the first module on the scenarios of all cases, on all examples, and on 300 random scenarios. It has to write
the expected texts of the cases, and for the other scenarios what the built program writes. If its memory has a limit,
it has to write the report or `motesim: out of memory`. The second module has to give the answers of the built motecheck
to the claims of all examples, to some that can't be read, and about scenarios that are refused, and its surveys. The
files web/NAME.json have to name the sources of this tree.

With --build, the modules are also made again, from the intermediate code of the proved programs if `rt ci` has proved
the libraries here. If the same kit and version of binaryen made a committed module from the same kind of code, both
have to be the same, byte for byte; in any case the new one has to pass the same tests. tools/dev/build_web replaces a
module that fails.
"""
from __future__ import annotations

import contextlib
import subprocess
from collections.abc import Callable, Iterator
from pathlib import Path

import pytest
from differences import answer, check_answer
from project.differential.random_scenario import random_scenario
from motesim.runner import Answer
from motesim.judge.claims import Claims, NoClaim
from motesim.judge.expectations import parts_of
from motesim.judge.names import names_of
from motesim.judge.sentences import read_sentence
from motesim.runner.module import SOURCES, about_of, file_of, read_about, script_of
from motesim.runner.programs import CODE, TOP, digest
from motesim.scenario import Scenario
from project import web
from project.tree import commit
from test_cases import Case, all_cases

COUNT = 300
RENEW = 'tools/dev/build_web makes the module again'
SCRIPT, CHECKER = map(script_of, ('motesim', 'motecheck'))
RUNS = Path(__file__).with_name('run_module.js')
# A scenario with a small report, whose run needs memory beyond that which the module has at its start.
SMALL = TOP / 'tests/cases/nets/two_senders.toml'
OUT_OF_MEMORY = b'motesim: out of memory\n'


def pytest_generate_tests(metafunc: pytest.Metafunc) -> None:
    if 'kind' in metafunc.fixturenames:
        kinds = ['committed', *(['built'] if metafunc.config.getoption('build') else [])]
        metafunc.parametrize('kind', [pytest.param(it, marks=pytest.mark.xdist_group(it)) for it in kinds])


@pytest.fixture(scope='session')
def built() -> dict[str, web.Made]:
    """The modules of the sources of this tree."""
    return {name: web.build(name) for name in SOURCES}


@pytest.fixture
def modules(kind: str, request: pytest.FixtureRequest, tmp_path: Path) -> dict[str, Path]:
    if kind == 'committed':
        return {name: file_of(name) for name in SOURCES}
    made: dict[str, web.Made] = request.getfixturevalue('built')
    for name, one in made.items():
        (tmp_path / (name + '.wasm')).write_bytes(one.module)
    return {name: tmp_path / (name + '.wasm') for name in made}


@pytest.fixture
def module(modules: dict[str, Path]) -> Path:
    return modules['motesim']


def answers(module: Path, scenarios: dict[str, bytes], room: Path) -> dict[str, Answer]:
    """The answers of a module to scenarios."""
    for name, scenario in scenarios.items():
        (room / (name + '.toml')).write_bytes(scenario)
    subprocess.run(['node', RUNS, module, room], check=True, stdin=subprocess.DEVNULL)
    return {name: answer_in(room / name) for name in scenarios}


def answer_in(path: Path) -> Answer:
    report, fault, status = (path.with_name(path.name + it).read_bytes() for it in ('.1', '.2', '.status'))
    # (an exception has no number)
    return Answer(int(status), report, fault) if status.isdigit() else Answer(-1, report, fault + status)


def cases() -> Iterator[tuple[str, bytes, Answer]]:
    """Each scenario of the cases, with its name and the expected answer."""
    for case in map(Case, all_cases()):
        if case.path.parent.name != 'command' and 'command' not in case.path.parts:
            for name, scenario, expected in case.scenarios():
                yield ' '.join([str(case.path.relative_to(TOP)), name]), scenario, expected


# (one process builds the module, for all tests)
@pytest.mark.xdist_group('built')
def test_they_are_made_from_the_sources_of_this_tree(request: pytest.FixtureRequest) -> None:
    for name, source in SOURCES.items():
        about = read_about(name)
        assert about, '%s doesn\'t say from what the module is made' % about_of(name)
        assert about.sources == digest(TOP, CODE, source), 'the crates have changed since it was made: ' + RENEW
        if request.config.getoption('build'):
            made: dict[str, web.Made] = request.getfixturevalue('built')
            assert web.difference(about, made[name].about) is None, RENEW


def test_it_writes_what_cases_expect(module: Path, tmp_path: Path) -> None:
    expected = {'%d' % number: it for number, it in enumerate(cases())}
    found = answers(module, {number: scenario for number, (_, scenario, _) in expected.items()}, tmp_path)
    for number, (name, _, one) in expected.items():
        check_answer(name, one, found[number])


def test_it_writes_what_the_program_writes(module: Path, program: Path, tmp_path: Path) -> None:
    examples = {'-'.join(it.relative_to(TOP).parts): it.read_bytes() for it in TOP.glob('examples/**/*.toml')}
    texts = {**examples, **{'random-%d' % seed: random_scenario('%s %d' % (commit(), seed)) for seed in range(COUNT)}}
    found = answers(module, texts, tmp_path)
    for name, scenario in texts.items():
        check_answer(name, answer(program, scenario), found[name])


def with_limit(module: bytes, pages: int) -> bytes:
    """The module with a limit of its memory, which has the number of pages that it has at its start, and more."""
    begin, end = next((begin, end) for kind, begin, end in web.sections(module) if kind == 5)
    assert module[begin:begin + 2] == b'\x01\x00' and 128 <= pages < 1 << 14
    limited = b'\x01\x01' + module[begin + 2:end] + bytes([pages & 127 | 128, pages >> 7])
    return module[:begin - 1] + bytes([len(limited)]) + limited + module[end:]


def test_it_says_that_memory_is_out(module: Path, tmp_path: Path) -> None:
    data, scenario = module.read_bytes(), SMALL.read_bytes()
    begin = next(begin for kind, begin, _ in web.sections(data) if kind == 5)
    least, _ = web.leb128(data, begin + 2)
    whole = answers(module, {'whole': scenario}, tmp_path)['whole']
    refused = 0
    for more in range(0, 64):
        limited, room = tmp_path / 'limited.wasm', tmp_path / str(more)
        room.mkdir()
        limited.write_bytes(with_limit(data, least + more))
        got = answers(limited, {'small': scenario}, room)['small']
        if got == whole:
            break
        refused += 1
        assert (got.status, got.fault) == (1, OUT_OF_MEMORY) and whole.report.startswith(got.report)
    assert got == whole and refused


def alone(script: Path, scenario: bytes, *words: str) -> Answer:
    """The answer of a script in a process of its own."""
    done = subprocess.run([script, *words], input=scenario, capture_output=True)
    return Answer(done.returncode, done.stdout, done.stderr)


# (the tools run the module without its script)
@pytest.mark.parametrize('run', [alone, answer])
def test_the_script_is_a_program(run: Callable[..., Answer], program: Path, tmp_path: Path) -> None:
    scenario = SMALL.read_bytes()
    expected = answer(program, scenario)
    check_answer('from standard input', expected, run(SCRIPT, scenario))
    for words in [str(SMALL)], ['--', str(SMALL)]:
        check_answer('from a file', expected, run(SCRIPT, b'', *words))
    for words in ['/nowhere'], [str(tmp_path)]:
        check_answer('without a file', answer(program, b'', *words), run(SCRIPT, b'', *words))
    check_answer('too long', answer(program, b'#' * 5_000_000), run(SCRIPT, b'#' * 5_000_000))
    assert run(SCRIPT, scenario, '--workers', '2').status == 2


def test_the_script_writes_to_a_file_and_to_a_pipe(tmp_path: Path) -> None:
    words = 'cd %s; "$0" "$1" >whole; "$0" "$1" | head -n 1; "$0" "$1" >/dev/full' % tmp_path
    done = subprocess.run(['bash', '-c', words, SCRIPT, TOP / 'examples/flooding.toml'], capture_output=True)
    first = (tmp_path / 'whole').read_bytes().split(b'\n')[0] + b'\n'
    assert (done.stdout, done.stderr, done.returncode) == (first, b'motesim: write fault\n', 1)


def claims_of(scenario: Path) -> str:
    """The claims that the expectations next to a scenario mean."""
    known = Scenario.parse(scenario.read_bytes())
    part, found, claims = parts_of(scenario.with_suffix('.expect.toml').read_text('utf-8'), '')[0], '', Claims(known)
    known.fields = part.fields
    for sentence in part.sentences:
        with contextlib.suppress(NoClaim):
            found += ''.join(row.text + '\n' for row in claims.of(read_sentence(sentence, names_of(known))))
    return found


# Options of surveys and of runs with faults.
OPTIONS = [
    ['--links'], ['--silent', '--at-most', '2', '--runs', '5'],
    ['--runs', '0', '--at-most', '2', '--silent', '--links'], ['--lost', '--late=1,4', '--runs=40'],
    ['--fault=packet 0 of mote 0 is lost', '--fault', 'mote 0 is silent']]
REFUSED_OPTIONS = [
    ['--at-most', '2'], ['--runs=5'], ['--links', '--at-most', '256'], ['--links', '--runs', '18446744073709551616'],
    ['--links', '--runs', 'x'], ['--late', '1,x'], ['--lost', '--report'], ['--silent', '--fault=mote 0 is silent']]


def input_of(options: list[str], claims: str, scenario: Path) -> bytes:
    """The input of the second module: the arguments, one a line, the claims and the scenario."""
    return b'\0'.join(['\n'.join(['motecheck', *options]).encode(), claims.encode(), scenario.read_bytes()])


def test_the_second_module_has_the_answers_of_motecheck(
        modules: dict[str, Path], checker: Path, tmp_path: Path) -> None:
    inputs: list[tuple[list[str], str, Path]] = [
        ([], claims_of(it), it) for it in sorted(TOP.glob('examples/*.toml'))
        if it.with_suffix('.expect.toml').is_file() and not it.name.endswith('.expect.toml')]
    refused = sorted(TOP.glob('tests/cases/faults/*.toml'))[:20]
    inputs += [([], 'the net: always\n', it) for it in refused]
    inputs += [([], it, SMALL) for it in ('', 'the net: never', 'x\ny')]
    news = TOP / 'examples/news.toml'
    inputs += [(options, claims_of(news), it) for it in [news, SMALL, *refused[:2]] for options in OPTIONS]
    inputs += [(options, '', SMALL) for options in REFUSED_OPTIONS]
    found = answers(modules['motecheck'], {str(place): input_of(*it) for place, it in enumerate(inputs)}, tmp_path)
    for place, (options, claims, scenario) in enumerate(inputs):
        (tmp_path / 'claims').write_text(claims, 'utf-8')
        expected = answer(checker, b'', *options, str(scenario), str(tmp_path / 'claims'))
        # (motecheck tells the progress of a survey)
        fault = b''.join(it for it in expected.fault.splitlines(True) if not it.startswith(b'motecheck: sets of '))
        check_answer(' '.join([scenario.name, *options]), expected._replace(fault=fault), found[str(place)])


def test_the_second_module_writes_the_report_of_a_run_with_faults(
        modules: dict[str, Path], checker: Path, tmp_path: Path) -> None:
    options = ['--report', '--fault=packet 0 of mote 0 is lost']
    inputs = {'report': input_of(options, '', SMALL), 'word': input_of(['x'], '', SMALL)}
    found = answers(modules['motecheck'], inputs, tmp_path)
    check_answer('a report', answer(checker, b'', *options, str(SMALL)), found['report'])
    assert (found['word'].status, found['word'].report) == (2, b'')


def test_the_second_script_is_a_program(checker: Path, tmp_path: Path) -> None:
    (tmp_path / 'claims').write_text('the net: exactly 0 packets sent\n')
    for words in ([str(SMALL), str(tmp_path / 'claims')], ['/dev/stdin', str(tmp_path / 'claims')],
                  ['/nowhere', str(tmp_path / 'claims')], [str(SMALL), '/nowhere']):
        check_answer('answers', answer(checker, SMALL.read_bytes(), *words),
                     answer(CHECKER, SMALL.read_bytes(), *words))
    survey = answer(checker, b'', '--links', str(SMALL), str(tmp_path / 'claims'))._replace(fault=b'')
    check_answer('a survey', survey, answer(CHECKER, b'', str(SMALL), '--links', '--at-most=1',
                                            str(tmp_path / 'claims')))
    for words in ['--at-most', '2'], ['--runs', '5'], ['--workers', '2'], ['--links', '--runs', 'x'], ['three']:
        assert answer(CHECKER, b'', *words, 'one', 'two').status == 2
