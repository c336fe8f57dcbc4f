"""Two motes with so many lines that workers format the report. At moment 0 each mote has 64 kernel runs with 150 lines
each."""

LINES = 150


def scenario():
    return """version = 1
end = 0
[medium]
range = 1
base = 1
per = 100
[programs]
p = \"\"\"
process a;
autostart a;
code a {
  var i = 0;
  body {
    poll a;
    while 1 {
      yield;
      poll a;
      i = 0;
      while (i < %d) { print i; i = (i + 1); }
    }
  }
}
\"\"\"
[[mote]]
x = 0
y = 0
program = "p"
[[mote]]
x = 2
y = 0
program = "p"
""" % LINES


def expected():
    starts = '0 start etimer\n0 start ctimer\n0 start radio\n0 start a\n'
    lines = 64 * ''.join('0 print a %d\n' % line for line in range(LINES))
    return ''.join('mote %d p\n' % mote + starts + lines for mote in range(2)) + 'medium\nleft 0\n'
