"""Program texts, each with the number and the line of its fault, or None without a fault: see docs/use/LANGUAGE.md."""
import json

FAULTS = [
    ('', (9, 1)),
    ('process A;', (1, 1)),
    ('process a, a;', (4, 1)),
    ('process a;\ncode a { }', (2, 2)),
    ('process a;\ncode a { body { x = 1; } }', (3, 2)),
    ('process a;\ncode a { body { print 65536; } }', (5, 2)),
    ('process a;\ncode a { ctimer c { yield; } body { } }', (6, 2)),
    ('process a;\ncode a { thread t { spawn t; } body { } }', (10, 2)),
]

WHERE_A_PROGRAM_ENDS = [
    ('// nothing\n', (9, 2)),
    ('event e;\nsemaphore s = 1;\n', (9, 3)),
    ('event e;\nevent', (2, 2)),
    ('semaphore s =\n', (2, 2)),
    ('process', (2, 1)),
    ('process a, b;', (2, 1)),
    ('process a;\ncode a { body { } }\ncode', (2, 3)),
    ('process a, b;\ncode a { body { } }\n', (2, 3)),
    ('process a, b;\ncode\nb { body { } }', (2, 3)),
    ('process a;\ncode\nzz { body { } }', (2, 3)),
    ('process a;\ncode a { body { print 1; } } // end', None),
]

NAMES_IN_SCOPE = [
    ('process etimer;', (2, 1)),
    ('process a;\nautostart b;', (3, 2)),
    ('process a;\nautostart a,\na;', (4, 3)),
    ('event e;\nprocess a;\nautostart e;', (10, 3)),
    ('semaphore s = 0;\nprocess a;\nreceiver s;', (10, 3)),
    ('event e;\nsemaphore e = 0;', (4, 2)),
    ('process a;\ncode a { var a = 1; body { } }', (4, 2)),
    ('process a;\ncode a { var x = 1; etimer\nx; body { } }', (4, 3)),
    ('process a;\ncode a { body { a = 1; } }', (10, 2)),
    ('process a;\ncode a { body { print\na; } }', (10, 3)),
    ('process a;\ncode a { body {\nzz\n; } }', (3, 3)),
    ('process a, b;\ncode a { var x = 1; body { } }\ncode b { body { print x; } }', (3, 3)),
    ('process a, b;\ncode a { var x = 1; body { } }\ncode b { var x = 2; body { } }', None),
    ('process a;\ncode a { thread t { spawn u; } thread u { } body { } }', (3, 2)),
    ('process a;\ncode a { thread t { } thread u { spawn t; } body { spawn u; spawn t; } }', None),
    ('process a;\ncode a { etimer t; onpoll { spawn t; } body { } }', (6, 2)),
    ('process a;\ncode a { onpoll { yield; } body { } }', (6, 2)),
    ('process a;\ncode a { etimer t; body { set t t; } }', (10, 2)),
    ('process a;\ncode a { body { post a timer 0; } }', (2, 2)),
    ('process a;\ncode a { body { broadcast exit 0; } }', (2, 2)),
    ('process a;\ncode a { body { post a exit 0; } }', None),
    ('process a;\ncode a { body { broadcast a 0 into a; } }', (10, 2)),
]

TOKENS_AND_NUMBERS = [
    ('process a;\ncode a { var x = 70000; body { } }', (5, 2)),
    ('semaphore s = 65536;', (5, 1)),
    ('process a;\ncode a { body { \u00e9 = 1; } }', (1, 2)),
    ('process a; // \u00e9\ncode a { body { } }', None),
    ('process a;\ncode a { body { print 00; } }', (1, 2)),
    ('process a;\ncode a { body { print 1a; } }', (1, 2)),
    ('process abcdefghijklmnop;', (2, 1)),
    ('process abcdefghijklmnopq;', (1, 1)),
    ('process _a;', (1, 1)),
    ('process radio;', (2, 1)),
    ('process a;\ncode a { body { print (1 !== 1); } }', (2, 2)),
    ('process a;\ncode a { body { print (1 &&& 1); } }', (1, 2)),
    ('process a; // b\r c\ncode a { body { print 1; } } d', (2, 2)),
    ('process a;\r\ncode a {\rbody { @', (1, 2)),
]

# One part 4,500 times: as an expression, as a statement, or after a whole program.
LONG_RUNS = [('process a;code a{body{print ' + front + part * 4500, want) for front, part, want in [
    ('', '(', (7, 1)),
    ('', '!', (7, 1)),
    ('', '(1+', (7, 1)),
    ('', '{', (2, 1)),
    ('', ';', (2, 1)),
    ('', '9', (5, 1)),
    ('', '0', (1, 1)),
    ('', 'a', (1, 1)),
    ('', '//', (2, 1)),
    ('', '\r\n', (2, 4501)),
    ('', '\0', (1, 1)),
    ('', '\ufeff', (1, 1)),
    ('', '\u00e9', (1, 1)),
    ('1;', 'if 1{', (7, 1)),
    ('1;', 'if 1{}else{', (7, 1)),
    ('1;', 'yield;\n', (8, 4096)),
    ('1;}}', '}', (2, 1)),
    ('1;}}', '//', None),
    ('1;}}//', '\u00e9', None),
    ('1;}}', '\t', None),
]]


def levels_and_statements():
    """As deep as may be and one level deeper, and as many statements as may be and one more."""
    for times, want in [(31, None), (32, (7, 1))]:
        yield 'process a;code a{body{print ' + '!' * times + '1;}}', want
        yield 'process a;code a{body{' + 'if 1 {' * times + '}' * times + '}}', want
        yield 'process a;code a{body{print ' + '(' * times + '1' + '+1)' * times + ';}}', want
    for times, want in [(4096, None), (4097, (8, 4097))]:
        yield 'process a;code a{body{' + 'yield;\n' * times + '}}', want


def declared(before, count, after):
    """A declaration of many names, each on a line of its own."""
    return ''.join('%sn%d%s\n' % (before, number, after) for number in range(count))


def numbers_of_names():
    """As many names of a kind as may be, and one more. The timers of both kinds are counted together, over all processes."""
    for before, after, most in [('event ', ';', 117), ('semaphore ', ' = 1;', 64)]:
        for count, want in [(most, None), (most + 1, (8, most + 1))]:
            yield declared(before, count, after) + 'process a;code a{body{}}', want
    for before, after, most in [
            ('var ', ' = 1;', 64), ('etimer ', ';', 64), ('ctimer ', '{}', 64), ('thread ', '{}', 7)]:
        for count, want in [(most, None), (most + 1, (8, most + 1))]:
            yield 'process a;code a{' + declared(before, count, after) + 'body{}}', want
    for count, want in [(24, None), (25, (8, 65))]:
        yield ('process a,b;code a{' + declared('etimer ', 40, ';') + 'body{}}code b{' + declared('ctimer ', count, '{}')
               + 'body{}}'), want


def processes():
    """As many processes as may be, and one more."""
    full = ('process ' + ', '.join('n%d' % number for number in range(64)) + ';\n'
            + ''.join('code n%d { body { } }\n' % number for number in range(64)))
    return [(full, None), (full.replace(';\n', ',\nn64;\n', 1), (8, 2))]


# A mote that runs another program, so its report only shows that the text has no fault.
SCENARIO = """version = 1
end = 0
[medium]
range = 1
base = 1
per = 100
[programs]
p = %s
q = "process a; code a { body { } }"
[[mote]]
x = 0
y = 0
program = "q"
"""

REPORT = 'mote 0 q\n0 start etimer\n0 start ctimer\n0 start radio\nmedium\nleft 0\n'


def table():
    texts = [
        *FAULTS, *WHERE_A_PROGRAM_ENDS, *NAMES_IN_SCOPE, *TOKENS_AND_NUMBERS, *LONG_RUNS, *levels_and_statements(),
        *numbers_of_names(), *processes()]
    for text, fault in texts:
        # (a text of JSON is one of TOML)
        shown = json.dumps(text)
        scenario = SCENARIO % shown
        if fault:
            yield shown[:60], scenario, 1, '', 'motesim: program p fault %d line %d\n' % fault
        else:
            yield shown[:60], scenario, 0, REPORT, ''
