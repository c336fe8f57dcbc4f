"""The greatest allowed number of motes, all at one place."""


def scenario():
    text = """version = 1
end = 5
[medium]
range = 10
base = 1
per = 100
[programs]
p = "process a; autostart a; code a { body { print 1; yield; print 2; } }"
[[mote]]
x = 0
y = 0
program = "p"
"""
    return text + 999 * '[[mote]]\nx = 0\ny = 0\nprogram = "p"\n'


def expected():
    starts = '0 start etimer\n0 start ctimer\n0 start radio\n0 start a\n0 print a 1\n'
    return ''.join('mote %d p\n' % mote + starts for mote in range(1000)) + 'medium\nleft 0\n'
