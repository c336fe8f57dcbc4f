"""The warnings about a run: codes in the column `warnings` of results. docs/use/EXPERIMENTS.md says what to do."""
from __future__ import annotations

from collections.abc import Iterator, Mapping
from typing import Any

from motesim.report import Report

SAME_VALUE, OWN_MESSAGE, OWN_LINE = 'same-value', 'own-message', 'own-line'
RECEIVER_FULL, QUEUE_FULL = 'receiver-full', 'queue-full'
MEANINGS = {
    SAME_VALUE: 'two messages have the same value, so a measure can\'t tell them apart',
    OWN_MESSAGE: 'in a measure, a mote has to receive its own messages',
    OWN_LINE: 'in a measure, a line counts as the delivery of its own message',
    RECEIVER_FULL: 'copies were lost because eight packets were waiting at the receiver',
    QUEUE_FULL: 'received packets were refused because an event queue was full',
}


def of_full(net: Mapping[str, Any], report: Report) -> Iterator[str]:
    """Yields the codes about copies and packets for which there was no room; `net` is the run's row of tools/summary
    for the net."""
    if net['overflowed']:
        yield RECEIVER_FULL
    if net['refused'] and any(line.event == 'packet' for mote in report.motes for line in mote.lines
                              if line.kind == 'full'):
        yield QUEUE_FULL
