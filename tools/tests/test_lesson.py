"""The lesson's sentences: the solutions meet them in all nets, and programs that don't solve a task earn nothing."""
import re

from here import TOP, Room, text_of
from motesim.grading.entries import Entry
from motesim.grading.marking import Task
from motesim.grading.marks import Marks
from motesim.grading.nets import Net, nets_of
from motesim.judge.expectations import parts_of
from motesim.runner import Limits
from skips import need_built

LESSON = TOP / 'examples/lesson'
NETS = {1: 'start.toml', 2: 'start.toml', 3: 'collisions.toml'}
HIDDEN = {1: 'hidden.toml', 2: 'hidden.toml', 3: 'hidden_collisions.toml'}
ANSWERS = text_of('answers.mote')
AT_BOOT = ANSWERS % ''
AT_BOOT_BUT_SENDS_LATER = ANSWERS % 'yield_until is(packet); set turn (10 * self); yield_until fired(turn);'
AFTER_A_WHILE = (ANSWERS % '').replace('if (self == 0)', 'set turn 5; yield_until fired(turn); if (self == 0)')
IDLE = 'process wave, hops;\ncode wave { body { pause; } }\ncode hops { body { print 0; } }\n'
# Programs that print the right answers in the nets that students know.
BY_NUMBER = text_of('by_number.mote')
EVE = BY_NUMBER % 'if (self < 3) { print 1; } else { print (self - 1); }'
BY_CLOCK = BY_NUMBER % 'print (now / 3);'

# The page for teachers, which has a plan of nets, and sentences for a lab with a sink.
PAGE = (TOP / 'docs/use/TEACHING.md').read_text('utf-8')
# A lab: mote 0 asks for readings, motes 1 to 7 run the students' program, and mote 8 runs one of the teacher's.
LAB = text_of('lab.toml') + ''.join('[[mote]]\nx = %d\ny = 0\nprogram = "%s"\n' % (8 * at, it)
              for at, it in enumerate(['sink', *['sensor'] * 7, 'ours']))
SENSOR = text_of('sensor.mote')
FORWARDS = SENSOR % 'send self; while 1 { yield_until is(packet); if (from > self) { send data; } }'
SPEAKS_FOR_ALL = SENSOR % 'while (value < 8) { value = (value + 1); send value; }'

# Each mote prints all values on its first packet, and forwards it once, at a moment at which nothing collides.
EVERY_VALUE = text_of('every_value.mote')


class Lesson(Room):
    def setUp(self) -> None:
        super().setUp()
        need_built()

    def marks(self, task: int, program: str, *hidden: str) -> Marks:
        """The marks of a program, or of a solution named by its file."""
        nets = [LESSON / NETS[task], *(LESSON / 'solutions' / it for it in hidden)]
        return self.marks_in(nets_of(nets, [], None), (LESSON / ('task%d.expect.toml' % task)).read_text(), program)

    def marks_in(self, nets: list[Net], sentences: str, program: str) -> Marks:
        """The marks for a file of sentences in some nets."""
        its = Task(parts_of(sentences, 'task')[0], tuple(nets), Limits())
        path = LESSON / 'solutions' / program
        if not program.endswith('.toml'):
            path = self.put('a.mote', program)
        found = its.of((1, Entry('a', path)))
        self.assertEqual(found.why, '')
        return found

    def test_the_solutions_meet_all_sentences(self) -> None:
        for task in NETS:
            found = self.marks(task, 'task%d.toml' % task, HIDDEN[task])
            self.assertEqual((task, found.first_failed), (task, None))

    def test_the_answers_at_boot_or_by_a_clock_and_doing_nothing_earn_nothing(self) -> None:
        for task in NETS:
            for program in AT_BOOT, AT_BOOT_BUT_SENDS_LATER, AFTER_A_WHILE, IDLE:
                with self.subTest(task=task, program=program):
                    self.assertEqual(self.marks(task, program).held, 0)

    def test_a_solution_whose_motes_halt_lacks_one_sentence(self) -> None:
        for task in NETS:
            solution = (LESSON / ('solutions/task%d.toml' % task)).read_text().split("'''")[1]
            halting = solution.replace('yield_until is(packet)', 'wait_until is(packet)').replace(
                '        send distance;', '        send distance; while 1 { wait_until 1; }')
            broken = [it.sentence for it in self.marks(task, halting).marks if not it.holds]
            self.assertEqual((task, broken), (task, ['no mote halts']))

    def test_printing_every_value_earns_nothing(self) -> None:
        values = {1: 'prints hops at most 1 times as often as it receives',
                  2: 'finally prints hops its distance from mote 0'}
        for task in NETS:
            with self.subTest(task=task):
                program = EVERY_VALUE if task == 3 else EVERY_VALUE.replace('10 * self', '0 * self')
                found = self.marks(task, program, HIDDEN[task])
                broken = [it.sentence for it in found.marks if not it.holds]
                self.assertEqual(found.held, 0)
                self.assertEqual(broken, ['every mote but 0 ' + values[min(task, 2)],
                                          *['every mote but 0 prints hops exactly once'] * (task > 1)])

    def test_a_solution_of_the_task_before_earns_nothing(self) -> None:
        solution = (LESSON / 'solutions/task2.toml').read_text().split("'''")[1]
        self.assertEqual(self.marks(2, 'task1.toml').held, 0)
        self.assertEqual(self.marks(2, solution.replace('print data', 'print 7')).held, 0)
        self.assertEqual(self.marks(3, 'task2.toml').held, 0)

    def test_programs_that_know_the_net_earn_nothing_in_a_hidden_one(self) -> None:
        solution = (LESSON / 'solutions/task2.toml').read_text().split("'''")[1]
        without_two = solution.replace('send (data + 1);', 'if (self != 2) { send (data + 1); }')
        for task, program in (2, EVE), (2, BY_CLOCK), (3, without_two):
            with self.subTest(task=task, program=program):
                self.assertEqual(self.marks(task, program).first_failed, None)
                self.assertEqual(self.marks(task, program, HIDDEN[task]).held, 0)

    def test_in_the_nets_of_the_pages_plan_a_clock_earns_nothing(self) -> None:
        plan = self.put('wave.plan.toml', PAGE.split("cat >wave.plan.toml <<'END'\n")[1].split('END\n')[0])
        self.put('wave.mote', EVE)
        sentences = (LESSON / 'task2.expect.toml').read_text()
        shown, hidden = (nets_of([plan], ['seed=' + it], None) for it in (
            *re.findall(r'--param seed=(\S+)', PAGE), *re.findall(r'vary = { seed = "(\S+)" }', PAGE)))
        for nets in shown, nets_of([plan], ['seed=1..30'], None):
            self.assertEqual(self.marks_in(nets, sentences, BY_NUMBER % 'print (now / 4);').held, 0)
        for nets in shown, hidden:
            self.assertEqual(self.marks_in(nets, sentences, 'task2.toml').first_failed, None)
        for divisor in 4, 7:
            for more in range(0, divisor, 2):
                with self.subTest(divisor=divisor, more=more):
                    program = BY_NUMBER % 'print ((now + %d) / %d);' % (more, divisor)
                    self.assertEqual(self.marks_in(hidden, sentences, program).held, 0)

    def test_each_of_the_pages_sentences_reveals_a_mote_that_speaks_for_others(self) -> None:
        for value, sentence in ((8, 'every mote but motes 0 and 8 never sends 8 before receiving 8'), (64773,
                'mote 0 prints sink 64773 exactly 1 times as often as mote 8 sends 64773')):
            with self.subTest(sentence):
                self.assertIn('`%s`' % sentence, ' '.join(PAGE.split()))
                for reading, program, held in (
                        (value, FORWARDS, 1), (value, SPEAKS_FOR_ALL, 0), (8, FORWARDS, 1)):
                    nets = nets_of([self.put('lab.toml', LAB % reading)], [], 'sensor')
                    found = self.marks_in(nets, 'expect = ["%s"]' % sentence, program)
                    self.assertEqual((reading, program, found.held), (reading, program, held))
