"""Programs as C files for Contiki: their text, their compilation, and what they do on the host."""
import random
import re
import shutil
import subprocess
import unittest
from pathlib import Path

from here import TOOLS, TOP, Room
from motesim.contiki.expressions import Expressions
from motesim.contiki.folder import folder_files
from motesim.contiki.names import Names, file_names
from motesim.contiki.program_file import ProgramFile
from motesim.notation.operators import calculated
from motesim.notation.reader import read_program
from motesim.notation.tree import Expression, Not, Operation, Value, word
from motesim.scenario import Scenario
from skips import long

STRICT = ['-std=c99', '-Wall', '-Wextra', '-Werror']
OPERATORS = ['+', '-', '*', '/', '%', '==', '!=', '<', '<=', '>', '>=', '&&', '||']

# One of each construct, and the C file that a Contiki programmer would write for it.
PROGRAM, FILE = ((Path(__file__).parent / 'contiki' / name).read_text('utf-8')
                 for name in ('construct.mote', 'construct.c'))

TOKEN = re.compile(r'\s*(\d+U?|[a-z]\w*|==|!=|<=|>=|&&|\|\||[-+*/%<>!(),])')
BINDING = [['||'], ['&&'], ['==', '!='], ['<', '<=', '>', '>='], ['+', '-'], ['*', '/', '%']]


class Overflow(Exception):
    """An operation on int whose result has no value in C."""


class CValue:
    """Calculates an expression as C does where int has so many bits: each part is a value and its type."""

    def __init__(self, text: str, variables: dict[str, int], bits: int):
        self.tokens = [found[1] for found in TOKEN.finditer(text)] + ['']
        self.variables = variables
        self.bits = bits
        self.next = 0

    def take(self) -> str:
        self.next += 1
        return self.tokens[self.next - 1]

    def value(self) -> int:
        value, _ = self.level(0)
        assert self.tokens[self.next] == '', self.tokens
        return value

    def level(self, level: int) -> tuple[int, bool]:
        """A value and whether it is unsigned."""
        if level == len(BINDING):
            return self.unary()
        left = self.level(level + 1)
        while self.tokens[self.next] in BINDING[level]:
            left = self.operation(self.take(), left, self.level(level + 1))
        return left

    def operation(self, operator: str, left: tuple[int, bool], right: tuple[int, bool]) -> tuple[int, bool]:
        if operator in ('&&', '||'):
            return calculated(operator, int(left[0] != 0), int(right[0] != 0)), False
        unsigned = left[1] or right[1]
        one, other = (self.fitted(it[0], unsigned) for it in (left, right))
        if operator in ('==', '!=', '<', '<=', '>', '>='):
            return int({'==': one == other, '!=': one != other, '<': one < other, '<=': one <= other,
                        '>': one > other, '>=': one >= other}[operator]), False
        if operator in ('/', '%'):
            assert one >= 0 and other > 0
            return (one // other if operator == '/' else one % other), unsigned
        return self.fitted({'+': one + other, '-': one - other, '*': one * other}[operator], unsigned), unsigned

    def fitted(self, value: int, unsigned: bool) -> int:
        if unsigned:
            return value % (1 << self.bits)
        if not -(1 << self.bits - 1) <= value < 1 << self.bits - 1:
            raise Overflow
        return value

    def short(self, value: int) -> tuple[int, bool]:
        """A uint16_t, which is promoted to int if int has all its values."""
        return value % 65536, self.bits == 16

    def unary(self) -> tuple[int, bool]:
        token = self.take()
        if token == '!':
            return int(not self.unary()[0]), False
        if token == '(' and self.tokens[self.next] in ('uint16_t', 'unsigned'):
            kind = self.take()
            self.take()
            value = self.unary()[0]
            return self.short(value) if kind == 'uint16_t' else (value % (1 << self.bits), True)
        if token == '(':
            inner = self.level(0)
            self.take()
            return inner
        if token[0].isdigit():
            value = int(token.rstrip('U'))
            assert value < (1 << 15) or token.endswith('U'), token
            return value, token.endswith('U')
        if token.startswith('motesim_'):
            self.take()
            one = self.short(self.level(0)[0])[0]
            self.take()
            other = self.short(self.level(0)[0])[0]
            self.take()
            return self.short(calculated('/' if token == 'motesim_divide' else '%', one, other))
        return self.short(self.variables[token])


def some_expression(chance: random.Random, depth: int) -> Expression:
    if depth == 0 or chance.random() < 0.1:
        value = chance.choice([0, 1, 2, 3, 7, 255, 256, 32767, 32768, 65535, chance.randrange(65536)])
        return Value(word(value if chance.random() < 0.4 else chance.choice('abc')))
    if chance.random() < 0.15:
        return Not(word('!'), some_expression(chance, depth - 1))
    return Operation(word(chance.choice(OPERATORS)), some_expression(chance, depth - 1),
                     some_expression(chance, depth - 1))


def value_of(expression: Expression, variables: dict[str, int]) -> int:
    """The value by the rules of the notation."""
    if isinstance(expression, Value):
        return int(expression.token.text) if expression.is_number else variables[expression.token.text]
    if isinstance(expression, Not):
        return int(not value_of(expression.inner, variables))
    assert isinstance(expression, Operation)
    return calculated(expression.token.text, value_of(expression.left, variables),
                      value_of(expression.right, variables))


def file_of(text: str, counts_work: bool = False) -> list[str]:
    return ProgramFile('p', read_program(text), counts_work).lines()


def without_header(lines: list[str]) -> str:
    return '\n'.join(lines[lines.index('#include "contiki.h"'):]) + '\n'


class ExpressionTest(unittest.TestCase):
    def test_exact_where_int_has_16_or_32_bits(self) -> None:
        chance = random.Random(61)
        names = Names(read_program('process p; code p { var a = 0; var b = 0; var c = 0; body { } }'))
        writer = Expressions(names, 'p', {}, set(), ['p'])
        for _ in range(4_000):
            expression = some_expression(chance, chance.randrange(1, 5))
            variables = {it: chance.choice([0, 1, 2, 255, 32768, 65535, chance.randrange(65536)]) for it in 'abc'}
            wanted = value_of(expression, variables)
            texts = [it(expression).text for it in (writer.value, writer.loose, writer.condition)]
            for bits in 16, 32:
                value, loose, test = (CValue(it, variables, bits).value() for it in texts)
                self.assertEqual((value, loose % 65536, test != 0), (wanted, wanted, wanted != 0),
                                 (bits, texts, variables))

    def test_no_cast_without_need(self) -> None:
        names = Names(read_program('process p; code p { var a = 0; body { } }'))
        writer = Expressions(names, 'p', {}, set(), ['p'])
        a, add = Value(word('a')), Operation(word('+'), Value(word('a')), Value(word(1)))
        self.assertEqual(writer.loose(add).text, 'a + 1')
        self.assertEqual(writer.value(add).text, '(uint16_t)(a + 1)')
        self.assertEqual(writer.value(Operation(word('%'), add, Value(word(10)))).text, '(uint16_t)(a + 1) % 10')
        self.assertEqual(writer.value(Operation(word('/'), a, Value(word(0)))).text, 'motesim_divide(a, 0)')


class ProgramFileTest(unittest.TestCase):
    maxDiff = None

    def test_each_construct(self) -> None:
        self.assertEqual(without_header(file_of(PROGRAM)), FILE)

    def test_work_is_all_that_the_host_adds(self) -> None:
        counted = [line for line in file_of(PROGRAM, True) if line.strip() != 'WORK();']
        self.assertEqual(counted, file_of(PROGRAM))
        self.assertGreater(len(file_of(PROGRAM, True)), len(counted))

    def test_comments_are_kept(self) -> None:
        lines = file_of('// one */ two\nprocess p; // three\ncode p { // four\nbody {\n// five\nprint 1; // six ??/\n'
                        'if 1 { // seven\n} else { // eight\n}\n// nine\n} } // ten\n// eleven\n')
        text = '\n'.join(lines)
        for word in 'two three four five six seven eight nine ten eleven'.split():
            self.assertEqual(len(re.findall(r'\b%s\b' % word, text)), 1, word)
        self.assertNotIn('one */', text)
        self.assertNotIn('??', text)

    def test_names_that_c_has(self) -> None:
        text = without_header(file_of('semaphore int = 1; process main; autostart main; code main { var double = 1; '
                                      'var main_process = 0; var ev = 3; body { main_process = (double + ev); '
                                      'acquire int; } }'.replace('main_process', 'other')))
        self.assertIn('static struct pt_sem int_semaphore;      /* "int" in the notation */'.replace('      ', '  '),
                      text.replace('      ', '  '))
        self.assertIn('double_variable + ev_variable', text)
        self.assertIn('PROCESS(main_process, "main");', text)
        program = read_program('process a, a_process; code a { body { pause; } } code a_process { body { pause; } }')
        names = Names(program)
        self.assertEqual([names.of(it) for it in ('a', 'a_process')], ['a_process', 'a_process_2'])

    def test_one_name_in_two_codes(self) -> None:
        text = without_header(file_of('process a, b; code a { var n = 0; body { n = 1; } } '
                                      'code b { var n = 0; body { n = 2; } }'))
        self.assertIn('a_n = 1;', text)
        self.assertIn('b_n = 2;', text)

    def test_who_sends_opens_the_radio(self) -> None:
        for statement, opens in ('send 1;', True), ('post a packet 1;', True), ('print 1;', False):
            text = without_header(file_of('process a; autostart a; code a { body { %s } }' % statement))
            self.assertEqual('    motesim_radio_open(NULL);\n' in text, opens, statement)

    def test_a_callback_timer_that_is_never_set(self) -> None:
        text = without_header(file_of('process a; autostart a; code a { ctimer c { } body { reset c; } }'))
        self.assertIn('    c.p = &a_process;\n    c.f = c_callback;\n', text)


class FolderTest(Room):
    def export(self, *arguments: str) -> subprocess.CompletedProcess[str]:
        return self.tool('export', *arguments)

    def compilers(self) -> list[str]:
        found = [it for it in ('gcc', 'clang', 'tcc') if shutil.which(it)]
        if not found:
            self.skipTest('no C compiler is installed: on Debian `apt-get install tcc` installs one')
        return found

    @long
    def test_each_example_compiles_without_warnings(self) -> None:
        compilers = self.compilers()
        for example in sorted((TOP / 'examples').glob('*.toml')):
            if example.name.endswith('.expect.toml') or example.name == 'wrong.toml':
                continue
            scenario = Scenario.parse(example.read_bytes())
            for name, text in folder_files(example.stem, scenario, True):
                path = self.room / example.stem / name
                path.parent.mkdir(parents=True, exist_ok=True)
                path.write_text(text, 'utf-8')
            for compiler in compilers:
                for source in sorted((self.room / example.stem / 'contiki_host').glob('*_host.c')):
                    done = subprocess.run([compiler, *STRICT, '-I..', '-I.', '-c', source.name, '-o', 'x.o'],
                                          cwd=source.parent, capture_output=True, text=True)
                    self.assertEqual((done.returncode, done.stderr), (0, ''), (example.name, compiler))

    def test_files_have_names_of_their_own(self) -> None:
        """Not those of Contiki or of the host, nor one name twice, nor one that looks like an option."""
        self.assertEqual(file_names(['net', 'a', 'A', 'list', 'list_program', '-o', 'flood']), {
            'net': 'net_program', 'A': 'A', 'a': 'a_program', 'list': 'list_program_2', 'list_program': 'list_program',
            '-o': 'o_program', 'flood': 'flood'})
        for path in (TOOLS / 'contiki_host').glob('*.c'):
            self.assertNotEqual(file_names([path.stem])[path.stem], path.stem)

    @long
    def test_the_makefile_builds_all_programs(self) -> None:
        """With a stand-in for the Makefile of a Contiki tree, which has the rule that makes a program."""
        (self.room / 'Makefile.include').write_text('%: %.c; @echo $@ $(TARGET) $(PROJECT_SOURCEFILES)\n')
        for more in ((), ('--host',)):
            self.export(str(TOP / 'examples/small_network.toml'), '--to', 'contiki', '-o', 'out', *more)
            done = subprocess.run(['make', '-s', '-C', 'out', 'CONTIKI=%s' % self.room, 'TARGET=sky'],
                                  capture_output=True, text=True, cwd=self.room)
            self.assertEqual(done.stdout, 'listener sky motesim_radio.c\nsender sky motesim_radio.c\n', done.stderr)
        done = subprocess.run(['make', '-s', '-C', 'out'], capture_output=True, text=True, cwd=self.room)
        self.assertIn('CONTIKI has to be the folder of a Contiki 2.x tree', done.stderr)

    def test_another_queue_is_named(self) -> None:
        scenario = Scenario.parse((TOP / 'examples/small_network.toml').read_bytes())
        files = dict(folder_files('net', scenario, False))
        self.assertIn('make DEFINES=PROCESS_CONF_NUMEVENTS=1 listener', files['Makefile'])
        self.assertIn('`DEFINES=PROCESS_CONF_NUMEVENTS=1`', files['README.md'])
