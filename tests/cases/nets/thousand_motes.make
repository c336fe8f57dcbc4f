"""A thousand motes in a row. Each hears its neighbours, and sends one packet, for which there is no receiver."""


def neighbours(mote):
    return [other for other in (mote - 1, mote + 1) if 0 <= other < 1000]


def scenario():
    head = """version = 1
end = 20
[medium]
range = 25
base = 1
per = 100
[programs]
s = "process a; autostart a; code a { body { send (self + 5); } }"
"""
    return head + ''.join('[[mote]]\nx = %d\ny = 0\nprogram = "s"\n' % (20 * mote - 10000) for mote in range(1000))


def expected():
    lines = []
    for mote in range(1000):
        lines += ['mote %d s' % mote, '0 start etimer', '0 start ctimer', '0 start radio', '0 start a']
        lines += ['0 send 0 %d' % (mote + 5), '0 leave a']
        lines += ['5 recv %d 0 %d' % (other, other + 5) for other in neighbours(mote)]
        lines += ['5 deaf %d 0' % other for other in neighbours(mote)]
    lines += ['medium']
    for mote in range(1000):
        lines += [' '.join(['0 %d 0 %d' % (mote, mote + 5)] + ['%d@5' % other for other in neighbours(mote)])]
    return '\n'.join(lines + ['left 0', ''])
