"""Scenarios from plans: the same bytes everywhere, each rule, and each error with its place."""
import hashlib
import math
import random
from itertools import permutations
from pathlib import Path

import pytest
from here import TOP, rows_of
from motesim.faults import Fault
from motesim.plan import places
from motesim.plan.chance import Chance
from motesim.plan.files import Files
from motesim.plan.plan import Plan
from motesim.report.run import answer
from motesim.scenario import Scenario
from motesim.scenario import faults as scenario_faults
from sessions import TABLES, Table
from skips import need_built

TEXTS = Table(TABLES / 'plan.toml').texts
PLAN, MOTE = TEXTS['plan'], TEXTS['mote']
SINK = 'process b;\ncode b { body { } }\n'
FILES = {'flood.mote': MOTE, 'sink.mote': SINK, 'Bad Name.mote': SINK,
         'wrong.mote': 'process a;\ncode a { body { x = 1; } }\n',
         'places.csv': 'x,y,program\n0,0,flood.mote\n-3, 40 ,sink.mote\n', 'few.csv': 'x,y\n1,2\n3\n',
         'far.csv': 'y,x\n0,40000\n', 'losses.csv': 'from,to,every\n0,1,3\n1,0,4\n',
         'self.csv': 'from,to,every\n1,1,3\n'}

# Rules of places, each with the SHA-256 of the scenario that they make: it is the same on any machine.
RULES = {rule: digest for rule, digest in rows_of('place_rules.tsv')}
LINE = 'rule = "line"\ncount = 4\nstep = 5'


def plan(text: str = PLAN) -> Plan:
    return Plan('a.plan.toml', text, Files(Path('/nowhere'), {key: value.encode() for key, value in FILES.items()}))


def with_places(rule: str) -> str:
    return PLAN.split('[places]')[0] + '[places]\n%s\nprogram = "flood.mote"\n' % rule


def with_program(data: bytes) -> Plan:
    """The plan with another program."""
    there = plan(PLAN.replace('flood.mote', 'odd.mote'))
    there.files.known['odd.mote'] = data
    return there


def net(text: str = PLAN, **given: int | str) -> Scenario:
    return Scenario.parse(plan(text).scenario(given))


def refusal(text: str) -> str:
    with pytest.raises(Fault) as caught:
        plan(text).scenario({})
    return str(caught.value)


# Chance and places.

def test_the_numbers_are_those_of_splitmix64() -> None:
    chance = Chance(1234567)
    assert [chance.word() for _ in range(3)] == [6457827717110365317, 3203168211198807973, 9817491932198370423]
    assert {chance.below(3) for _ in range(100)} == {0, 1, 2} and Chance(1, 1).word() != Chance(1).word()


def test_a_ring_has_no_place_farther_away_than_its_radius() -> None:
    assert places.ring(4, 30_000) == [(30_000, 0), (0, 30_000), (-30_000, 0), (0, -30_000)]
    for count in range(1, 30):
        for radius in (0, 1, 7, 10, 12_345):
            for number, (x, y) in enumerate(places.ring(count, radius)):
                angle = math.tau * number / count
                assert x * x + y * y <= radius * radius
                assert math.hypot(x - radius * math.cos(angle), y - radius * math.sin(angle)) < 1.42


def test_the_least_distance_is_kept_and_a_connected_net_is_connected() -> None:
    found, _ = places.scattered(60, 100, 100, 3, 8, None)
    assert len(set(found)) == 60 and min(places.squared(a, b) for a, b in permutations(found, 2)) >= 64
    for seed in range(20):
        found, _ = places.scattered(20, 60, 60, seed, 0, 20)
        reached, front = {found[0]}, [found[0]]
        for point in front:
            near = [it for it in found if it not in reached and places.squared(point, it) <= 400]
            reached.update(near)
            front += near
        assert reached == set(found)


def test_a_larger_net_of_one_seed_contains_the_smaller_one() -> None:
    text = with_places('rule = "random"\ncount = "${step}"\nwidth = 99\nheight = 99\nseed = 1')
    assert net(text, step=40).places[:20] == net(text, step=20).places


@pytest.mark.parametrize('side, least, said',
                         [(1000, 1, 'more motes, a smaller area'), (2, 9, 'fewer motes, a larger area')])
def test_what_cannot_be_met_is_told(side: int, least: int, said: str) -> None:
    rule = 'rule = "random"\ncount = 9\nwidth = %d\nheight = %d\nseed = 1\nleast = %d\nconnected = true'
    seen = refusal(with_places(rule % (side, side, least)).replace('range = 10', 'range = 1'))
    assert said in ' '.join(seen.split())


# The scenario of a plan.

@pytest.mark.parametrize('rule, digest', RULES.items(), ids=range(len(RULES)))
def test_the_same_plan_gives_the_same_bytes_and_the_program_takes_them(rule: str, digest: str) -> None:
    text = plan(with_places(rule)).scenario({}).encode()
    assert hashlib.sha256(text).hexdigest()[:16] == digest
    assert scenario_faults.find_fault(text) is None
    need_built()
    assert b'medium\n' in answer(text).report


def test_the_head_says_from_what() -> None:
    head = plan().scenario({'period': 7}).split('\n')
    assert 'plan a.plan.toml' in head[0] and head[1:3] == ['# Parameters: period = 7, step = 10',
                                                           '# Files beside the plan: flood.mote']
    assert head[3].startswith('# SHA-256 of the plan and these files: ')


def test_parameters_fill_programs_and_numbers() -> None:
    scenario = net(period=7, step=3)
    assert 'print 7;' in scenario.programs['flood']
    assert (scenario.places[24][:2], scenario.losses) == ((12, 12), {(0, 1): 2})
    made = net(with_places('rule = "list"\nat = [["${step}", 2], [0, 0]]'), step=30)
    assert [it[:2] for it in made.places] == [(30, 2), (0, 0)]


def test_a_row_of_results_names_true_and_false_as_texts_too() -> None:
    plan = Plan('p', '[parameters]\ncollide = false\nname = "a"\n', Files(Path('.')))
    pairs: list[tuple[int | str, int | str]] = [
        (True, True), ('True', True), ('true', True), ('False', False), ('maybe', 'maybe'), (1, 1)]
    for value, seen in pairs:
        found = plan.with_given({'collide': value})['collide']
        assert (type(found), found) == (type(seen), seen)
    # (a parameter that is a text stays one)
    assert plan.with_given({'name': 'True'})['name'] == 'True'


def test_it_is_the_net_of_the_flooding_example() -> None:
    example, made = Scenario.parse((TOP / 'examples/flooding.toml').read_bytes()), net()
    assert ([it[:2] for it in made.places], made.losses) == ([it[:2] for it in example.places], example.losses)


@pytest.mark.parametrize('motes', ['0, 3 to 4', '0 and 3 to 4'])
def test_groups_stand_in_order_and_others_run_what_they_are_told(motes: str) -> None:
    scenario = net(PLAN.replace('[places]', '[[places]]') +
                   '[[places]]\nrule = "line"\ncount = 2\nstep = 1\nprogram = "sink.mote"'
                   '\n[[other]]\nmotes = "%s"\nprogram = "sink.mote"\n[queue]\nflood = 5\n' % motes)
    assert [number for number, place in enumerate(scenario.places) if place.program == 'sink'] == [0, 3, 4, 25, 26]
    assert scenario.queue == {'flood': 5}


def test_tables_with_one_seed_are_drawn_independently() -> None:
    first = '[[places]]\nrule = "random"\nprogram = "sink.mote"\ncount = 40\nwidth = 99\nheight = 99\nseed = 7\n'
    fixed = '[[places]]\nrule = "line"\nprogram = "sink.mote"\ncount = 2\nstep = 1\n'
    head = PLAN[:PLAN.index('[places]')].replace('range = 10', 'range = 200')

    def motes_of(*groups: str) -> list[tuple[int, int]]:
        return [(it.x, it.y) for it in net(head + ''.join(groups)).places]

    # (the first of them is drawn as by itself, also below a table that draws nothing)
    both = motes_of(first, first)
    assert both[:40] == motes_of(first) == motes_of(fixed, first)[2:]
    assert len(set(both[:40]) & set(both[40:])) < 3
    loss = '[[loss]]\nrule = "random"\none_in = 2\nevery = %d\nseed = 7\n'
    its = net(head + first + loss % 3 + loss % 4).losses
    for every, part in (3, 4), (4, 2):
        assert abs(sum(it == every for it in its.values()) / (40 * 39) - 1 / part) < 0.05


def test_places_and_programs_from_a_table() -> None:
    text = with_places('rule = "csv"\nfile = "places.csv"')
    assert [tuple(it) for it in net(text).places] == [(0, 0, 'flood'), (-3, 40, 'sink')]
    assert plan(text).used_files({}) == ['flood.mote', 'places.csv', 'sink.mote']


ALL, CSV = '[[loss]]\nrule = "all"\nevery = 7\n', '[[loss]]\nrule = "csv"\nfile = "losses.csv"\n'
EACH = {(s, r): 7 for s, r in permutations(range(4), 2) if abs(s - r) < 3}


@pytest.mark.parametrize('text, losses', [
    (ALL, EACH), (CSV, {(0, 1): 3, (1, 0): 4}), (ALL + CSV, {**EACH, (0, 1): 3, (1, 0): 4}),
    ('[[loss]]\nrule = "longer"\nthan = 5\nevery = 3\n', {(0, 2): 3, (2, 0): 3, (1, 3): 3, (3, 1): 3})])
def test_losses_by_rule(text: str, losses: dict[tuple[int, int], int]) -> None:
    assert net(with_places(LINE) + text).losses == losses


def test_a_program_of_any_signs_comes_through() -> None:
    odd = SINK.replace('\n', '\r\n') + '// "\\ \x01\n'
    for source in SINK + "// it's '''quoted'''\n", SINK + '// no end', odd:
        for mark in b'', b'\xef\xbb\xbf':
            assert Scenario.parse(with_program(mark + source.encode()).scenario({})).programs == {'odd': source}


def test_the_scenario_of_a_plan_is_that_of_its_text() -> None:
    for text in PLAN, PLAN.replace('[places]', '[queue]\nflood = 4\n[places]', 1):
        known, made = plan(text).builder({}).with_text()
        assert {**vars(known), 'text': made} == vars(Scenario.parse(made))


# Errors.

@pytest.mark.parametrize('old, new, line, marked, words', rows_of('plan_faults.tsv'))
def test_each_error_has_its_place(old: str, new: str, line: str, marked: str, words: str) -> None:
    seen = refusal(PLAN.replace(old, new, 1))
    where, shown, mark, *rest = seen.split('\n')
    assert where == 'a.plan.toml, line %s:' % line
    assert shown[mark.find('^'):mark.rfind('^') + 1].strip() == marked
    assert words in ' '.join(it.strip() for it in rest)


@pytest.mark.parametrize('old, new, seen', rows_of('files_beside.tsv'), ids=range(5))
def test_errors_of_files_beside(old: str, new: str, seen: str) -> None:
    text = PLAN.replace('columns = 5\nrows = 5\nstep = "${step}"\n', '') if 'grid' in old else PLAN
    assert refusal(text.replace(old, new, 1)).startswith(seen)


def test_a_program_with_an_error_or_in_another_encoding() -> None:
    source = 'process a;\nautostart a;\ncode a {\n  var n = 0;\n  body {\n    n = n + 1;\n  }\n}\n'
    for data, words in ((source.encode(), 'tools/explain odd.mote says more.\nAllowed here: `;`'),
                        (source.encode('utf-16'), 'odd.mote is not UTF-8, because of a byte in line 1. Save it')):
        with pytest.raises(Fault) as seen:
            with_program(data).scenario({})
        assert words in str(seen.value)


def test_whatever_stands_there_is_an_error_or_a_scenario() -> None:
    text = PLAN.replace('[places]',
                        '[[places]]') + ('[[other]]\nmotes = 3\nprogram = "sink.mote"\n[queue]\nsink = 3\n[sweep]\n'
                                                     'measure = ["sent"]\n[[plot]]\nfile = "a.svg"\n')
    lines = (text + ''.join('[[places]]\nprogram = "sink.mote"\n%s\n' % rule for rule in RULES)).split('\n')
    values = ['-1', '0', '3', '99999999999999999999', '1.5', 'nan', '"x"', '"${step}"', '"${"', 'true', '[]',
              '[1]', '[[1, 2], [3]]', '{}', '{ a = 1 }', '1979-05-27', '', '"\u0000"']
    chance = random.Random(1)
    for number, line in enumerate(lines):
        for value in chance.sample(values, 6):
            changed = [*lines[:number], line.partition(' = ')[0] + ' = ' + value, *lines[number + 1:]]
            try:
                plan('\n'.join(changed)).scenario({})
            except Fault as fault:
                assert 'line ' in str(fault)
