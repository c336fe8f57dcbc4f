"""The longest queue keeps the order of its events at the end of the ring: 100 events are posted and taken, then 128
more are posted, and one more is refused before these are taken."""


def scenario():
    return """version = 2
end = 9
[medium]
range = 10
base = 1
per = 100
collide = false
[programs]
p = \"\"\"
process a; autostart a; code a { var i = 0; var r = 9; body {
while (i < 100) { post a msg i; i = (i + 1); }
yield_until (data == 99);
while (i < 229) { post a msg i into r; i = (i + 1); }
print r;
while 1 { yield; print data; } } }\"\"\"
[queue]
p = 128
[[mote]]
x = 0
y = 0
program = "p"
"""


def expected():
    # (a turn takes 64 events)
    lines = ['mote 0 p', '0 start etimer', '0 start ctimer', '0 start radio', '0 start a']
    lines += ['0 post %d a msg %d' % (number, number) for number in range(100)]
    lines += ['%d take %d a' % (number // 64, number) for number in range(100)]
    lines += ['1 post %d a msg %d' % (number, number) for number in range(100, 228)]
    lines += ['1 full a msg 228', '1 print a 1']
    for number in range(100, 228):
        lines += ['%d take %d a' % (number // 64, number), '%d print a %d' % (number // 64, number)]
    return '\n'.join(lines + ['medium', 'left 0', ''])
