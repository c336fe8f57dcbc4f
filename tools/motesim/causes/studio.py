"""The replies to the studio's questions about a run: the reason for a line, and a mote's state."""
from __future__ import annotations

from typing import Any

from motesim.faults import Fault
from motesim.causes.chain import chain
from motesim.causes.miss import misses
from motesim.causes.question import Asked, Asker
from motesim.causes.say import about, chain_as_json, misses_as_json, places_as_json, rows_of_state, state_as_json
from motesim.causes.source import At, Source
from motesim.causes.state import after_line

Said = dict[str, Any]


def _whole(asked: Said, name: str) -> int:
    value = asked.get(name)
    if type(value) is not int:
        raise Fault('the page asked without a number %s' % name)
    return value


def _line(source: Source, asked: Said) -> At:
    where = source.traces.at_row(_whole(asked, 'row'))
    if where is None or where.place < 0:
        raise Fault('this line is in no trace')
    return where


def answer(what: str, source: Source, asked: Said) -> Said:
    """Returns the answer to a question about a run, `why`, `state` or `statement`; if there is none, `said` has the
    reason."""
    try:
        found = {'why': why, 'state': state, 'statement': statement}[what](source, asked)
        return {**found, 'places': places_as_json(source)}
    except Fault as fault:
        return {'said': str(fault)}


def why(source: Source, asked: Said) -> Said:
    """The chain of a line or of a sentence, or the near misses."""
    if 'row' in asked:
        where = source.traces.at_row(_whole(asked, 'row'))
        if where is None:
            raise Fault('this line is in no trace')
        return chain_as_json(source, chain(source, where))
    asker = Asker(source)
    found = asker.about(str(asked.get('question', '')))
    if isinstance(found, Asked):
        return {**chain_as_json(source, chain(source, found.where)), 'holds': found.holds,
                'about': about(source, found)}
    return misses_as_json(source, found, misses(asker, found))


def state(source: Source, asked: Said) -> Said:
    """The state of a mote after a line, in words, with a mark at the variables that the step of the line changed."""
    where = _line(source, asked)
    found = state_as_json(after_line(source, where))
    return {'rows': [it._asdict() for it in rows_of_state(found, changed(source, where))]}


def changed(source: Source, where: At) -> list[str]:
    """The variables that got a value between this line and the next one, or up to the end of the line's moment."""
    processes, at = source.program(where.mote).processes, source.traces.moment(where)
    return sorted({'%s.%s' % (processes[it.process].name, it.variable) for it in source.replay(where.mote).changes
                   if it.lines == where.place + 1 and it.at == at})


def statement(source: Source, asked: Said) -> Said:
    """The row of the text, from 0, with the statement that wrote a line or that set its timer; -1 if none did."""
    where = _line(source, asked)
    number, program = source.replay(where.mote).links[where.place].row, source.program(where.mote)
    if not number or program.place is None:
        return {'statement': -1}
    return {'statement': program.place.above + program.statement(number).line - 1}
