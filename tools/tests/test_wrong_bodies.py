"""The parts of tools/dev/wrong_bodies: edits, the lines of a check, and the choice of mutants."""
import re
import shutil
from collections.abc import Iterator, Sequence
from dataclasses import replace
from pathlib import Path
from types import SimpleNamespace
from typing import Any
from unittest import mock

import pytest
from here import TOP, rows_of, text_of
from motesim.faults import Fault
from project import kit, wrong_bodies
from project.mutants import checks, log, public
from project.mutants.checks import ANSWER, CONTRACT, LIMIT, TWIN, Verdict, is_in, refused_in
from project.mutants.edits import Edit, applied, edits_of, function_around, groups

HAS_KIT = pytest.mark.skipif(not shutil.which('rt'), reason='the command rt of the Rattle kit is not here')
CODE = text_of('functions.txt')


def crate_at(room: Path, files: dict[str, str]) -> Any:
    for name, text in files.items():
        (room / name).parent.mkdir(parents=True, exist_ok=True)
        (room / name).write_text(text)
    return SimpleNamespace(name='low', folder=str(room), below=lambda: [])


# The function of an edit.

@pytest.mark.parametrize('old, new, name, file', [
    ('n == 3', 'n == 4', 'one', 'lib'), ('        4\n', '        9\n', 'one', 'lib'), ('        4\n', '', 'one', 'lib'),
    ('        5\n', '        9\n', 'Queue::two', 'lib'), ('        7\n', '        7 + 0\n', 'Queue::three', 'lib'),
    ('    8\n', '    9\n', 'four', 'lib'), ('    8\n', '    9\n', 'a::queue::four', 'a/queue'),
    ('        5\n', '        9\n', 'Queue::two', 'a/queue'),
    *((it, 'x', None, 'lib') for it in ('n: u8,', 'result = n', 'result = 1', 'result = 6', 'T: Copy,\n', 'fn start',
                                        "impl<'a")),
    # (two bodies)
    (CODE[CODE.index('        7'):CODE.index('    8')], '        9\n    }\n}\nfn four() -> u8 {\n    9', None, 'lib')])
def test_the_function_of_a_change_of_a_body(old: str, new: str, name: str | None, file: str) -> None:
    assert CODE.count(old) == 1
    assert function_around(CODE, CODE.replace(old, new), Path('src/%s.rt' % file)) == name


class Edits:
    """Edits of a crate."""

    def __init__(self, room: Path) -> None:
        self.room = room
        self.crate = crate_at(room, {'src/lib.rt': CODE, 'src/other.rt': 'fn four() -> u8 {\n    3\n}\n'})

    def read(self, *texts: str) -> list[Edit]:
        """Edits, each from pairs `OLD -> NEW`, and lines of its own."""
        for number, text in enumerate(texts):
            lines = ['old: %s\nnew: %s' % (old, new) for old, new in re.findall(r'(.*) -> (.*)', text)]
            lines += [it for it in text.split('\n') if ' -> ' not in it]
            crate_at(self.room, {'wrong-bodies/%d.edit' % number: '\n'.join(lines)})
        return edits_of(self.crate)


def edited(text: str, folder: str) -> tuple[dict[str, str], str | None]:
    changed = CODE
    for old, new in re.findall(r'(?m)^old: (.*)\nnew: (.*)$', text):
        if changed.count(old) != 1:
            return {}, 'there is no such text'
        changed = changed.replace(old, new)
    return {'src/lib.rt': changed}, None


@pytest.fixture
def edits(tmp_path: Path) -> Iterator[Edits]:
    with mock.patch('project.mutants.edits.edited', edited):
        yield Edits(tmp_path)


@pytest.mark.parametrize('text, function, may_share, trouble', [
    ('        5 -> 9', 'Queue::two', True, None),
    # (of a function with a name of another, or one of a module; one that changes more may name its function)
    ('    8 -> 9', 'four', False, None), ('        4 -> 9', 'one', False, None), ('n: u8 -> n: u16', None, False, None),
    ('n: u8 -> n: u16\nrefused: low::one', 'one', False, None), ('n == 5 -> n', None, False, 'there is no such text')])
def test_what_an_edit_changes_and_whether_it_shares_a_check(edits: Edits, text: str, function: str | None,
                                                            may_share: bool, trouble: str | None) -> None:
    crate_at(edits.room, {'src/one.rt': 'fn five() -> u8 {\n    5\n}\n'} if function == 'one' else {})
    [edit] = edits.read(text)
    assert (edit.name, edit.function, edit.may_share) == ('low/0', function, may_share)
    assert (edit.trouble, edit.twin) == (trouble, None)


def test_a_twin_has_other_new_texts(edits: Edits) -> None:
    [edit] = edits.read('old: n == 3\nnew: n == 7\ntwin: 3 == n\nold:     5\nnew:     9')
    assert (edit.function, edit.trouble) == (None, None)
    assert edit.twin == 'old: n == 3\nnew: 3 == n\nold:     5\nnew:     9'


def test_one_check_judges_each_function_once(edits: Edits) -> None:
    one, two, other, whole = edits.read('n == 3 -> n', '        5 -> 9', '        4 -> 9', 'n: u8 -> n: u16')
    assert groups([one, two, other, whole]) == [[one, two], [other], [whole]]


def test_one_check_judges_twins_of_one_function_that_change_other_lines(edits: Edits) -> None:
    one, two, other = edits.read(*('old: %s\nnew: 9\ntwin: %s' % it for it in (
        ('n == 3', '3 == n'), ('        4', '        4 + 0'), ('if n', 'if 0 + n'))))
    assert groups([one, two, other]) == [[one], [two], [other]]
    assert groups([one, two, other], twins=True) == [[one, two], [other]]
    text = applied([one, two], True)['src/lib.rt']
    assert '3 == n' in text and '4 + 0' in text


# What a check says.

WORDS = {'OPEN': 'fn c::q::post: no proof: expected answers in ./proofs/q/post/Answers.antt; `search` did not prove',
         'ANSWER': 'proofs/q/post/Answers.antt:4:2: error:',
         'NOTE': 'note: src/q.rt:2:1: it is not proved that it returns',
         'NOT': 'fn c::q::post: not proved'}


@pytest.mark.parametrize('said, kind, why', rows_of('check_lines.tsv'))
def test_the_verdict_of_a_check(said: str, kind: str, why: str, tmp_path: Path) -> None:
    crate_at(tmp_path, {'proofs/q/post/Answers.antt': 'pub returns : goal.returns\nreturns c = c.new\n'})
    lines = re.sub(r'\b(OPEN|ANSWER|NOTE|NOT)\b', lambda it: WORDS[it[1]], said).split('\n')
    found = next(iter(refused_in(lines, tmp_path).values()), None)
    assert found == (Verdict(kind, 'c::q::post', lines[int(why)] if why.isdecimal() else why) if kind else None)


def test_the_name_of_a_function() -> None:
    for name in 'q::queue::EventQueue::post', 'q::queue::post', 'q::queue::fn::EventQueue::post::map_err', \
            'q::queue::fn::post::map':
        assert is_in(name, 'post')
    assert is_in('q::queue::fn::EventQueue::post::map_err', 'EventQueue::post')
    assert not any(is_in('q::queue::EventQueue::post', it) for it in ('ost', 'queue::take', 'Event::post', None))


LOW: Any = SimpleNamespace(name='low', folder='')
ONE, TWO = Edit(LOW, Path('a'), 'one', True, None, 'a'), Edit(LOW, Path('b'), 'two', True, None, 'b')
TWINS = [replace(it, text='new: x\ntwin: ' + it.text) for it in (ONE, TWO)]
GOOD, BAD = 'fn c::a::%s: proved\n', 'fn c::a::%s: no proof: `search` did not prove `returns`\n'
BOTH, ALONE, BOTH_NEW = 'new: x\ntwin: a new: x\ntwin: b', 'new: x\ntwin: a', 'new: a new: b'
UNFIT = 'proofs/a/one/Answers.antt:4:2: error: `%s`: no proof\nfn c::a::one: not proved\n'


def applied_texts(edits: Sequence[Edit], twins: bool) -> dict[str, str]:
    return dict.fromkeys((twins and it.twin or it.text for it in edits), '')


def trial_of(kept: Path | None, *edits: Edit) -> checks.Trial:
    """A trial whose control keeps this, or isn't proved."""
    trial = checks.Trial(edits or [ONE])
    with mock.patch.object(checks, 'kept_by_check', lambda crate, flags: kept):
        trial.control(1)
    return trial


@pytest.mark.parametrize('said, edits, kinds', [
    ({'a b': BAD % 'one' + BAD % 'two'}, [ONE, TWO], [CONTRACT, CONTRACT]),
    # (what it leaves undecided is tried alone, also if the answer may be that of another edit's function)
    ({'a b': GOOD % 'one' + BAD % 'two', 'a': BAD % 'one'}, [ONE, TWO], [CONTRACT, CONTRACT]),
    ({'a b': GOOD % 'one' + BAD % 'two', 'a': GOOD % 'one'}, [ONE, TWO], [checks.NOT_REFUSED, CONTRACT]),
    ({'a b': 'fn c::a::one: no proof: an answer is gone\n' + BAD % 'two', 'a': BAD % 'one'}, [ONE, TWO],
     [CONTRACT, CONTRACT]),
    ({'a': 'x.rt:1:1: error: no proof\n'}, [ONE], [checks.UNKNOWN]),
    # (a twin must be accepted)
    *(({BOTH: BAD % 'one' + BAD % 'two', BOTH_NEW: BAD % 'one' + GOOD % 'two', 'new: a': alone % 'one'}, TWINS,
       [kind, CONTRACT])
      for alone, kind in ((GOOD, CONTRACT), (BAD, TWIN))),
    # (an answer that fits the twin alone fails for its value)
    *(({ALONE: UNFIT % goal, 'new: a': twin}, TWINS[:1], [kind]) for goal, twin, kind in (
        ('returns', GOOD % 'one', CONTRACT), ('returns', UNFIT % 'returns', TWIN),
        ('loop-a-init', GOOD % 'one', ANSWER),
        ('loop-a-init', UNFIT % 'loop-a-init', ANSWER)))], ids=range(11))
def test_the_verdicts_of_a_trial(said: dict[str, str], edits: list[Edit], kinds: list[str], tmp_path: Path) -> None:
    """The kinds of the verdicts, from the lines of checks by the names of their edits."""
    def checked(crate: Any, texts: dict[str, str], flags: list[str], kept: Path) -> Any:
        assert flags[3::2] == [{'a': 'one', 'b': 'two'}[it.split()[-1]] for it in texts]
        lines = said[' '.join(texts)]
        return SimpleNamespace(stdout=lines + 'logic=proved', returncode=0 if 'no proof' not in lines else 1)
    with mock.patch.multiple(checks, checked=checked, linked=lambda kept, to: to,
                             says_nothing=lambda lines, texts: False,
                             applied=applied_texts), mock.patch('project.mutants.edits.applied', applied_texts):
        trial = trial_of(tmp_path, *edits)
        trial.judge(edits)
        trial.end()
    assert [trial.found[it].kind for it in edits] == kinds and len(trial.seconds) > 1


def test_the_control(tmp_path: Path) -> None:
    """Nothing is known if it isn't proved; it checks the changed functions or the whole crate; what it keeps is
    deleted."""
    trial = trial_of(None)
    trial.judge([ONE, TWO])
    trial.end()
    assert {it.kind for it in trial.found.values()} == {checks.UNKNOWN}
    tried = []

    def kept(crate: Any, flags: list[str]) -> Path | None:
        tried.append(flags[2:])
        return None
    for edits in [ONE, TWO], [ONE, replace(ONE, file=Path('c'), may_share=False)]:
        with mock.patch.object(checks, 'kept_by_check', kept):
            checks.Trial(edits).control(1)
    assert tried == [['--only', 'one', '--only', 'two'], [], []]
    (tmp_path / 'kept').mkdir()
    trial_of(tmp_path / 'kept').end()
    assert not (tmp_path / 'kept').exists()


# The log of the last tries.

KEPT_CODE = ('"""Says more."""\nfrom project.kit import used\n\n\n'
             'class A:\n    """Says more."""\n    # More.\n    b: int\n')
# (an edit of a crate is one of the very same crate)
CRATES: Any = {name: SimpleNamespace(name=name) for name in ('low', 'gone')}


def edit_of(name: str) -> Edit:
    crate, _, file = name.partition('/')
    return Edit(CRATES[crate], Path(file), 'one', True, None)


class Log:
    """A log in a folder, of a kit."""
    kit = 'one'

    def __init__(self, room: Path) -> None:
        self.room = room

    def note(self, found: dict[Edit, Verdict], digest: str, edits: Sequence[Edit]) -> None:
        with mock.patch.object(log, 'digest', lambda edit: digest):
            log.note(found, edits, {'low': 7})

    def digest(self, crate: Any) -> str:
        log.code_of.cache_clear()
        log.definitions_in.cache_clear()
        log.digest.cache_clear()
        text = 'file: src/lib.rt\nold: 1\nnew: 2\n'
        return log.digest(Edit(crate, self.room / 'crates/high/a.edit', None, False, None, text))


@pytest.fixture
def kept(tmp_path: Path) -> Iterator[Log]:
    its = Log(tmp_path)
    with mock.patch.multiple(log, KEPT=tmp_path / 'log/kept.tsv', version=lambda: its.kit):
        yield its


def test_the_last_try_is_noted(kept: Log) -> None:
    first, last = Verdict(CONTRACT, 'c::f', 'returns'), Verdict(ANSWER, '', 'an\terror ' + 'x' * 999)
    a, b, gone = (edit_of(name) for name in ('low/a', 'low/b', 'gone/c'))
    kept.note({a: first, b: first, gone: first}, '1', [a, b, gone])
    kept.note({b: last}, '2', [a, b])
    found = log.noted()
    assert (list(found), found['low/a'].verdict, found['low/b'].digest) == (['low/a', 'low/b'], first, '2')
    assert found['low/b'].verdict.why.startswith('an error xxx')


HIGH = 'ghost use Rattle.high.specs.A.{a};\nfn b() {}\n'
# Changes of files in crates/ on which no verdict depends.
SAME = {'high/a.edit': '# A remark.\nfile: src/lib.rt\n', 'high/proofs/b/Answers.antt': 'returns c = c.new\n',
        'high/src/lib.rt': '    // A comment only.\nuse low::C;\n' + HIGH, 'high/src/other.rt': 'fn c() {}\n',
        'high/specs/A.antt': '-- Remark.\nuse Rattle.low.specs.In.B.{b}\na = 1\n', 'high/specs/Other.antt': 'c = 1\n'}
OTHER = 'high/a.edit', 'high/src/lib.rt', 'high/specs/A.antt', 'low/specs/In/B.antt'


def test_a_digest_has_the_edit_its_files_and_the_definitions_that_they_name(kept: Log) -> None:
    high = crate_at(kept.room / 'crates/high', {
        'src/lib.rt': '/// Says more.\n' + HIGH, 'a.edit': 'file: src/lib.rt\n',
        'specs/A.antt': 'use Rattle.low.specs.In.B as low\nuse Rattle.std.specs.List.{map}\na = 1\n'})
    crate_at(kept.room / 'crates/low', {'specs/In/B.antt': 'use Rattle.high.specs.A.{a}\nb = 1\n'})

    def changes(path: str, text: str) -> bool:
        before = kept.digest(high)
        crate_at(kept.room / 'crates', {path: text})
        return kept.digest(high) != before
    assert not any(changes(*it) for it in SAME.items())
    for path in reversed(OTHER):
        assert changes(path, 'x = 1\n'), path
    digests = [kept.digest(high) for kept.kit in ('one', 'kit-1 another', 'kit-2 another')]
    assert digests[0] != digests[1] == digests[2]


def test_what_is_noted_over_the_same_is_not_tried_again(kept: Log) -> None:
    kinds = {'low/a': CONTRACT, 'low/b': ANSWER, 'low/c': checks.NOT_REFUSED}
    chosen = [edit_of(name) for name in [*kinds, 'low/d', 'low/e']]
    kept.note({edit_of(name): Verdict(kind, 'f', 'g') for name, kind in kinds.items()}, '1', chosen)
    why = 'proofs/f/Answers.antt:1:5: error: `a`: as printed, the two differ'
    kept.note({edit_of('low/d'): Verdict(CONTRACT, 'f', why)}, '2', chosen)
    assert log.noted()['low/d'].verdict.why == 'a (by hand)'
    with mock.patch.object(log, 'digest', lambda edit: '1'):
        assert [it.name for it in log.changed(chosen)] == ['low/c', 'low/d', 'low/e']


# The mutants and the promises of this tree.

@HAS_KIT
def test_each_mutant_can_be_applied() -> None:
    edits = [it for crate in kit.crates_below(TOP) for it in edits_of(crate)]
    assert len(edits) > 200 and not ['%s: %s' % (it.name, it.trouble) for it in edits if it.trouble]


def test_promises_of_exported_functions(tmp_path: Path) -> None:
    lib = CODE_OF_A_CRATE.split('\n---\n')
    texts = dict(zip(('lib.rt', 'two.rt', 'three.rt', 'laws.rt'), [*lib, lib[1]]))
    crate_at(tmp_path, {'crates/one_tests/src/lib.rt': lib[1]} |
             {'crates/one/src/' + it: text for it, text in texts.items()})
    assert public.public_functions(tmp_path) == {
        'one::two::free', 'one::three::Kept::long', 'one::three::KeptTrait::of_trait'}


def test_each_has_a_mutant_that_shows_that_its_promise_binds_or_is_listed_with_its_reason() -> None:
    found = public.listed()
    assert sorted(public.public_functions() - public.with_evidence()) == sorted(found)
    assert not {name: why for name, why in found.items() if why != public.reason(name, why)}
    # (lower this when more functions have one)
    assert [*found.values()].count(public.OPEN) <= MOST_OPEN


def test_a_goal_of_a_contract_that_is_proved_by_hand(tmp_path: Path) -> None:
    crate_at(tmp_path, {'crates/one/proofs/two/%s/Answers.antt' % name: 'pub x : goal.%s\n' % goal
                        for name, goal in [('Kept/long', 'returns-then'), ('free', 'loop-init')]})
    assert [it for it in ('Kept::long', 'free', 'other') if public.is_by_hand('one::two::' + it, tmp_path)] == [
        'Kept::long']


MOST_OPEN = 7


CODE_OF_A_CRATE = text_of('crate.txt')


# Which mutants are tried.

THREE: Any = [SimpleNamespace(name=name) for name in ('low', 'high', 'other')]
EVERY = [Edit(crate, Path('%d.edit' % at), 'f%d' % (at % 20), True, None) for crate in THREE for at in range(40)]


def of_gate(seed: str, *changed: Edit, every: Sequence[Edit] = EVERY) -> list[Edit]:
    with mock.patch.multiple(log, noted=lambda: {}, changed=lambda edits: [it for it in edits if it in changed],
                             seconds=lambda: {'low': 40, 'high': 80}), \
            mock.patch('project.mutants.edits.applied', applied_texts), \
            mock.patch.object(wrong_bodies, 'commit', lambda: seed), mock.patch('builtins.print'):
        return wrong_bodies.of_gate(list(every))


def seconds_of(share: Sequence[Edit]) -> int:
    """The seconds that the batches of a share need; a crate of EVERY has two."""
    of_batch = {'low': 120, 'high': 240, 'other': 180}
    return sum(of_batch[crate] * len(groups([it for it in share if it.crate.name == crate])) for crate in of_batch)


def test_a_share_is_chosen_by_the_commit_and_each_is_tried_in_the_end() -> None:
    assert of_gate('one') == of_gate('one') != of_gate('two')
    shares = [of_gate(str(seed)) for seed in range(200)]
    assert {it.name for share in shares for it in share} == {it.name for it in EVERY}
    with mock.patch('project.mutants.edits.applied', applied_texts):
        assert {seconds_of(it) for it in shares} <= {*range(300, wrong_bodies.SECONDS + 1)}


def test_a_share_begins_with_the_batches_of_changed_mutants_of_the_gate() -> None:
    gate = [replace(it, file=Path('gate-bodies', it.file)) for it in EVERY]
    for seed in range(20):
        assert {*gate[80:83]} <= {*of_gate(str(seed), *gate[80:83], every=gate)}


def test_known_open_mutants_are_left_out() -> None:
    kept = {edit.name: log.Tried('', Verdict(kind), 'old' if at == 3 else 'now')
            for at, (edit, kind) in enumerate(zip(EVERY, [ANSWER, LIMIT, CONTRACT, ANSWER]))}
    with mock.patch.multiple(log, noted=lambda: kept, digest=lambda _: 'now'):
        assert wrong_bodies.without_open(EVERY[:5]) == EVERY[2:5]


def test_names_are_those_of_mutants_and_crates() -> None:
    assert [it.name for it in wrong_bodies.named(EVERY, ['low/3', 'high/7'])] == ['low/3', 'high/7']
    assert wrong_bodies.named(EVERY, ['high', 'high/1']) == EVERY[40:80] and wrong_bodies.named(EVERY, []) == EVERY
    for name in 'lower', 'low/40':
        with pytest.raises(Fault, match='there is no mutant ' + name):
            wrong_bodies.named(EVERY, [name])
