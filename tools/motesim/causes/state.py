"""The state of a mote at a moment or after a line: docs/use/DEBUGGING.md.

A report doesn't show at which statement a process waits, or which timers run. The replay of the mote knows both.
"""
from __future__ import annotations

import re
from typing import Any, NamedTuple

from motesim.faults import Fault
from motesim.causes.question import LINE, line_asked
from motesim.replay.mote import Replay
from motesim.causes.source import At, Source

ASKED = re.compile(r'\s*mote\s+(\d{1,9})\s+at\s+(\d{1,9})\s*')


class State(NamedTuple):
    """A mote after a line, if `where` names one, or at the end of a moment."""
    replay: Replay
    at: int
    where: At | None = None


class Wait(NamedTuple):
    """The state of a process: it has left, is unstarted, is called now, begins at its next call, or waits at a
    statement. The statements are those that called each other, from the outermost one on."""
    how: str
    statements: tuple[int, ...] = ()


def fresh(source: Source, mote: int) -> Replay:
    """A replay that hasn't run yet."""
    return Replay(*source.of_replay(mote))


def after_moment(source: Source, mote: int, at: int) -> State:
    """A mote at the end of a moment."""
    return State(fresh(source, mote).up_to(at), at)


def after_line(source: Source, where: At) -> State:
    """A mote after a line, before it writes the next one."""
    at = source.traces.moment(where)
    return State(fresh(source, where.mote).to_line(where.place + 1, at), at, where)


def read_state(source: Source, question: str) -> State:
    """The state for a question such as `mote 3 at 46` or `3:114`."""
    asked = ASKED.fullmatch(question)
    if asked:
        mote, at = source.traces.checked(int(asked[1])), int(asked[2])
        if at > source.scenario.end:
            raise Fault('the run ends at %d' % source.scenario.end)
        return after_moment(source, mote, at)
    where = line_asked(source.traces, question) if LINE.fullmatch(question) else None
    if where is None or where.place < 0:
        raise Fault("'%s' is not a state; write it as: mote 3 at 46, or as a line of a trace: 3:114" % question)
    return after_line(source, where)


def wait_of(replay: Replay, process: int) -> Wait:
    """The state of a process."""
    if process not in replay.list:
        return Wait('left' if replay.born[process] else 'unstarted')
    statements = replay.waiting_at(process)
    if not (statements and statements[-1]):
        statements = ()
    return Wait('called' if replay.state[process] == 2 else 'waits' if statements else 'begins', statements)


def call_now(replay: Replay) -> dict[str, Any] | None:
    """The innermost call that runs now."""
    frame = replay.frame
    if frame is None or replay.is_halted or frame.how == 'boot':
        return None
    return {'process': replay.name(frame.process), 'how': frame.how, 'event': frame.event, 'word': frame.word}
