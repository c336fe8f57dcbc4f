"""The deepest calls that are possible. During the walk of a broadcast a poll is due; the polled process kills the
second of 64 processes, whose EXIT handler kills the third, and so on: each process leaves after all later ones."""
MOST = 64
LATER = range(1, MOST)


def code(process):
    kills = 'onexit { kill p%d; } ' % (process + 1) if process + 1 < MOST else ''
    return 'code p%d { %sbody { while 1 { yield; } } }' % (process, kills)


def scenario():
    program = 'process %s;\n' % ', '.join('p%d' % process for process in range(MOST))
    program += 'autostart %s, p0;\n' % ', '.join('p%d' % process for process in LATER)
    program += 'code p0 { onpoll { kill p1; } body { broadcast msg 0; yield; poll p0; while 1 { yield; } } }\n'
    program += '\n'.join(code(process) for process in LATER)
    return """version = 1
end = 0
[medium]
range = 10
base = 1
per = 100
[programs]
p = '''
%s'''
[[mote]]
x = 0
y = 0
program = "p"
""" % program


def expected():
    lines = ['start etimer', 'start ctimer', 'start radio']
    lines += ['start p%d' % process for process in LATER] + ['start p0', 'post 0 all msg 0', 'take 0 p0']
    lines += ['leave p%d' % process for process in reversed(LATER)]
    lines += ['drop 0 p%d' % process for process in reversed(LATER)]
    lines += ['take 0 radio', 'take 0 ctimer', 'take 0 etimer']
    return 'mote 0 p\n' + ''.join('0 %s\n' % line for line in lines) + 'medium\nleft 0\n'
