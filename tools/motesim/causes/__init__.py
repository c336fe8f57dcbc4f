"""Explains why a line is in a report, or why it isn't: docs/use/DEBUGGING.md.

A mote's trace follows from its program and from the packets that arrive at it. So the replay (`replay`) runs the
program of one mote again, next to its trace, and notes which call wrote each line. The result is compared with the
trace line by line.
"""
