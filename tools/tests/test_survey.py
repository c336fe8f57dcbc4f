"""Surveys of small nets by motecheck. A brute force finds the same sets: it has motecheck report each run with at most
two faults, whatever copies they name, and judges the reports by itself. And surveys of protocols that repeat packets,
whose faults no fixed list has."""
import subprocess
import unittest
from collections.abc import Callable, Sequence
from itertools import combinations

from claim_judge import judge_of
from here import room_of, scenario_of, text_of
from motesim.report import Report
from motesim.runner import Runner
from motesim.scenario import Scenario
from motesim.surveys.survey import COVERED, SET, read_survey
from skips import long, need_built, workers
from test_claims import CHECK, answers, need_motecheck

# Each mote that hears a message for the first time prints it, and passes it on.
FLOOD = text_of('flood.mote')
# Mote 1 passes on what mote 0 asks mote 2, and the answer. Only mote 2 prints the question; mote 0 prints the answer.
ASK = text_of('ask.mote')
# Mote 0 sends numbers, each until a packet comes, at most so often; the others print what is new, and answer.
REPEAT = text_of('repeat.mote')
# Each mote but 0 sends its number twice, and mote 0 prints 7 for each packet of the mote with the greatest number.
TELL = text_of('tell.mote')
PAIR = (0, 0), (5, 0)
LINE = (0, 0), (10, 0), (20, 0)
TRIANGLE = (0, 0), (6, 0), (0, 6)
SQUARE = (0, 0), (10, 0), (0, 10), (10, 10)
# Each net: its places, its program, and the changes of the program.
NETS: dict[str, tuple[tuple[tuple[int, int], ...], str, tuple[str, str]]] = {
    'a flood along a line': (LINE, FLOOD, ('', '')),
    'two ways round': (SQUARE, FLOOD, ('', '')),
    'all hear one another': (TRIANGLE, FLOOD, ('', '')),
    'a question and its answer': (LINE, ASK, ('', '')),
    'a flood of two motes': (PAIR, FLOOD, ('', '')),
    'a flood that begins at its end': (LINE, FLOOD, ('self == 0', 'self == 2')),
    'a flood that begins at once': (TRIANGLE, FLOOD, ('set t 10; yield_until fired(t); ', '')),
    'a flood that is answered': (PAIR, FLOOD, ('print data;', 'print data; send 8;')),
    'a question in a triangle': (TRIANGLE, ASK, ('', '')),
    'a question that is repeated': (LINE, ASK, ('send 1;', 'send 1; set t 9; yield_until fired(t); send 1;')),
    'two numbers, each once': (PAIR, REPEAT, ('tries < 3', 'tries < 1')),
    'a number, three times': (PAIR, REPEAT, ('n < 2', 'n < 1')),
    'two numbers, each twice': (PAIR, REPEAT, ('tries < 3', 'tries < 2')),
    'two numbers, acknowledged by themselves': (PAIR, REPEAT, ('if is(packet)', 'if (is(packet) && (data == n))')),
    'two numbers with a long timeout': (PAIR, REPEAT, ('set t 3', 'set t 9')),
    'a number to two motes': (TRIANGLE, REPEAT.replace('n < 2', 'n < 1'), ('self != 0', 'self == 1')),
    'a number without an answer': (PAIR, REPEAT, ('send data;', '')),
    'two that tell': (PAIR, TELL, ('', '')),
    'three that tell': (TRIANGLE, TELL, ('', '')),
    'three in a line that tell': (LINE, TELL, ('', '')),
    'two that tell often': (PAIR, TELL, ('n < 2', 'n < 3')),
}
KINDS = ['--links', '--silent', '--lost', '--late=1,4', '--off=11', '--restarts=5,11', '--starts=11']
NEED = "error: '--at-most <K>' and '--runs <N>' need a survey"


def net_of(name: str) -> tuple[str, list[str]]:
    """A net, and the claims that each mote prints 7, and that it prints nothing else so often."""
    places, program, (old, new) = NETS[name]
    assert old in program
    claims = ['mote %d: at least 1 line "print value 7"' % mote for mote in range(len(places))]
    claims += ['mote %d: at most 2 lines "print"' % mote for mote in range(len(places))]
    return scenario_of(program.replace(old, new), *places, end=60), claims


class Runs:
    """The runs of a net with faults."""

    def __init__(self, text: str, claims: Sequence[str]) -> None:
        self.text, self.claims = text, claims
        self.scenario = Scenario.parse(text)

    def run(self, faults: frozenset[str]) -> tuple[set[int], set[str]]:
        """The claims that a run breaks, and the faults of the copies that arrive in it."""
        report = Runner(faults=sorted(faults)).report(self.text.encode()).decode()
        judge = judge_of(self.text.encode(), report)
        copies = [(it.number, it.sender, copy.to) for it in Report.parse(report).medium for copy in it.copies
                  if copy.at is not None]
        return {number for number, it in enumerate(self.claims) if not judge.holds(it)}, {
            'packet %d of mote %d is %s on the way to mote %d' % (number, sender, what, to)
            for number, sender, to in copies for what in ('lost', '1 late', '4 late')}

    def fixed(self) -> set[str]:
        """The faults of links and motes."""
        motes, of_mote = range(self.scenario.motes), ('is silent', 'is off from 11 on', 'restarts at 5',
                                                      'restarts at 11', 'is off from 0 to 11')
        return {'mote %d %s' % (it, what) for it in motes for what in of_mote} | {
            'link %d to %d is broken' % (s, r) for s in motes for r in self.scenario.hearers(s)}

    def smallest(self, most: int, is_wanted: Callable[[str], bool] = lambda fault: True) -> list[set[frozenset[str]]]:
        """For each claim, the smallest sets of at most so many faults that break it. (Each fault of such a set names a
        copy that arrives in the run with the others: without it, the run would be the same.)"""
        found: list[list[frozenset[str]]] = [[] for _ in self.claims]
        faults = self.fixed()
        for size in range(most + 1):
            for its in combinations(sorted(filter(is_wanted, faults)), size):
                chosen = frozenset(its)
                broken, copies = self.run(chosen)
                faults = faults | copies
                for number in broken:
                    if not any(it <= chosen for it in found[number]):
                        found[number].append(chosen)
        return [set(it) for it in found]


def is_lost(fault: str) -> bool:
    return ' is lost ' in fault


class SmallNets(unittest.TestCase):
    def check(self, name: str, most: int, options: Sequence[str], is_wanted: Callable[[str], bool]) -> None:
        text, claims = net_of(name)
        wanted = Runs(text, claims).smallest(most, is_wanted)
        for shared in list[str](), workers(3):
            with self.subTest(net=name, workers=shared):
                survey = read_survey(answers(self, text, claims, *options, '--at-most=%d' % most, *shared))
                for its in survey.sets:
                    self.assertEqual([len(it) for it in its], sorted(map(len, its)))
                    self.assertEqual(len({frozenset(it) for it in its}), len(its))
                self.assertEqual([{frozenset(it) for it in its} for its in survey.sets], wanted)
                self.assertEqual((survey.size, survey.is_whole), (most, True))

    def test_a_survey_lists_the_sets_that_a_brute_force_finds(self) -> None:
        need_built()
        for name in 'a flood along a line', 'two numbers, each twice':
            self.check(name, 2, KINDS, lambda fault: True)
        self.check('a number, three times', 3, ['--lost'], is_lost)

    @long
    def test_surveys_of_all_nets_list_the_sets_that_a_brute_force_finds(self) -> None:
        need_built()
        for name in NETS:
            self.check(name, 2, KINDS, lambda fault: True)
            self.check(name, 3, ['--lost'], is_lost)


class Options(unittest.TestCase):
    def test_options_of_a_survey_without_one_are_refused(self) -> None:
        need_motecheck(self)
        room = room_of(self)
        for name in 'net.toml', 'net.claims':
            (room / name).touch()
        for options in ('--at-most', '2'), ('--runs', '5'), (*workers(2), '--at-most', '1', '--runs', '5'):
            with self.subTest(options=options):
                done = subprocess.run([CHECK, *options, 'net.toml', 'net.claims'], cwd=room, capture_output=True,
                                      text=True)
                self.assertEqual((done.returncode, done.stdout), (2, ''))
                self.assertTrue(done.stderr.startswith(NEED), done.stderr)

    def test_what_is_covered_is_told_whether_a_survey_ends_or_not(self) -> None:
        text, claims = net_of('two numbers, each twice')
        for runs, size in (list[str](), 2), (['--runs=0'], -1), (['--runs=1'], 0), (['--runs=20'], 1):
            lines = answers(self, text, claims, '--lost', '--at-most=2', *runs)
            survey = read_survey(lines)
            self.assertEqual((survey.size, survey.is_whole, survey.said), (size, not runs, lines[-1]))
            self.assertTrue(COVERED.fullmatch(lines[-1]))
            holds = {it.partition(':')[0] for it in lines[:-1] if not it.startswith(SET)} - {'broken'}
            self.assertEqual(holds, {'not broken so far'} if runs else {'holds'})


class Repeated(unittest.TestCase):
    """Mote 0 sends 1 to 5, each up to three times, with a timeout below the round trip, and takes any packet for the
    acknowledgement. It prints 99 if all five were acknowledged."""
    CLAIM = ('at least 1 of these: mote 0: exactly 0 lines "print value 99"; mote 1: the lines "print" have in order '
             'of time exactly the values 1, 2, 3, 4, 5')

    def broken_by(self, program: str, *options: str) -> list[str]:
        text = scenario_of(program.replace('n < 2', 'n < 5').replace('done == 2', 'done == 5'), *PAIR, end=60)
        sets, = read_survey(answers(self, text, [self.CLAIM], *options)).sets
        return ['; '.join(it) for it in sets]

    def test_one_lost_packet_breaks_it_and_with_the_right_test_no_pattern_does(self) -> None:
        lost = ['packet %d of mote 0 is lost on the way to mote 1' % it for it in (2, 5, 6)]
        self.assertEqual(self.broken_by(REPEAT, '--lost'), lost)
        self.assertEqual(self.broken_by(REPEAT, '--lost', '--at-most=4')[:3], lost)
        right = REPEAT.replace('if is(packet)', 'if (is(packet) && (data == n))')
        self.assertEqual(self.broken_by(right, '--lost', '--late=1,4', '--at-most=2'), [])
        self.assertEqual(self.broken_by(right, '--lost', '--at-most=5'), [])

    def test_a_broken_filter_of_duplicates_needs_a_pair_that_only_some_run_has(self) -> None:
        # (it forgets the number after another duplicate: the second acknowledgement is that of the repeated packet)
        program = REPEAT.replace('set t 3', 'set t 9').replace(
            'if (data > last) { last = data; print data; }',
            'if (data == last) { last = 0; } else { last = data; print data; }')
        pairs = [it for it in self.broken_by(program, '--lost', '--at-most=2')]
        self.assertTrue(pairs and all('; ' in it for it in pairs), pairs)
        first = Runs(scenario_of(program.replace('n < 2', 'n < 5').replace('done == 2', 'done == 5'), *PAIR, end=60),
                     [])
        sent = {it for it in first.run(frozenset())[1]}
        self.assertTrue(any(not set(it.split('; ')) <= sent for it in pairs), pairs)
