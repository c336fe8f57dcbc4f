"""The greatest allowed number of losses, which lack all their keys."""


def scenario():
    text = """version = 1
end = 5
[medium]
range = 10
base = 1
per = 100
[programs]
p = "process a; autostart a; code a { body { print 1; yield; print 2; } }"
[[mote]]
x = 0
y = 0
program = "p"
"""
    return text + 10000 * '[[loss]]\n'
