"""The causes of a run, for the pages of timeline and studio: for each line, its cause and the reason."""
from __future__ import annotations

import base64
import sys
import zlib
from array import array
from typing import Any

from motesim.faults import Fault
from motesim.report.run import Run
from motesim.causes.chain import cause_of, wait_of
from motesim.causes.say import Reasons
from motesim.causes.source import At, Source, source_of

# A page with more lines than this doesn't have their causes: the search for them would last longer than making the
# page.
MOST_LINES = 100_000
MOST_REASONS = 65_535


def _packed(column: array[int]) -> str:
    if sys.byteorder == 'big':
        column = column[:]
        column.byteswap()
    return base64.b64encode(zlib.compress(column.tobytes(), 6)).decode('ascii')


class Causes:
    """The cause of each line of all traces; the lines are numbered from the first trace to the last."""

    def __init__(self, source: Source):
        self.source, self.begins = source, [0]
        for mote in range(source.traces.motes):
            self.begins.append(self.begins[-1] + len(source.traces.lines(mote)))
        # (for each line, the number of lines between it and its cause, because that number is small; 0 for the head of
        # the trace)
        self.causes, self.reasons = array('I'), array('H')
        self.texts: dict[tuple[str, str], int] = {('', ''): 0}
        for mote in range(source.traces.motes):
            self.add(mote)

    def add(self, mote: int) -> None:
        source, begin = self.source, self.begins[mote]
        reasons, links = Reasons(source, mote), source.replay(mote).links
        for place, link in enumerate(links):
            cause = cause_of(source, At(mote, place))
            assert cause is not None
            if cause.place < 0:
                self.causes.append(0)
            else:
                back = begin + place - self.begins[cause.mote] - cause.place
                self.causes.append(2 * back if back > 0 else -2 * back + 1)
            if link.how in ('call', 'timer', 'boot', 'boots'):
                at = source.traces.moment(At(mote, place))
                text = reasons.because(place, link), wait_of(link, at, at - 1) if link.how == 'timer' else ''
                known = self.texts.get(text)
                if known is None and len(self.texts) < MOST_REASONS:
                    known = self.texts[text] = len(self.texts)
                self.reasons.append(known or 0)
            else:
                self.reasons.append(0)

    def said(self) -> dict[str, Any]:
        return {'causes': _packed(self.causes), 'reasons': _packed(self.reasons), 'texts': list(self.texts)}


def causes_of(run: Run) -> dict[str, Any]:
    """The causes for a page, or the reason why it has none."""
    lines = sum(len(mote.lines) for mote in run.report.motes)
    if lines > MOST_LINES:
        return {'none': 'A page of more than %s lines does not have their causes: tools/why finds them.' % format(
            MOST_LINES, ',')}
    if run.scenario is None:
        return {'none': 'Without its scenario, a report doesn\'t say what caused its lines.'}
    try:
        return Causes(source_of(run)).said()
    except Fault as fault:
        return {'none': str(fault)}
