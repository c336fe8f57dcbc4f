"""The greatest allowed number of programs."""


def scenario():
    text = """version = 1
end = 5
[medium]
range = 10
base = 1
per = 100
[programs]
p = "process a; autostart a; code a { body { print 1; yield; print 2; } }"
[[mote]]
x = 0
y = 0
program = "p"
"""
    more = ''.join('p%d = "process a; code a { body { } }"\n' % number for number in range(1, 100))
    return text.replace('[[mote]]', more + '[[mote]]')
