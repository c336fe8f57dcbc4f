"""Remarks on sentences that say nothing about a run: about a time after its end, about the order of an event that
doesn't occur, about copies that can't collide or don't exist, or about no mote at all; and on those that only the tools
decide."""
from __future__ import annotations

from dataclasses import replace

from motesim.judge.claims import OF_TEXT
from motesim.judge.finder import Finder
from motesim.judge.links import Apart
from motesim.judge.meaning import Copies, Does, Packets, Sentence

NOT_PROVED = 'not proved: no claim can say it, so the tool compares texts'
AFTER_THE_END = 'the run ends at %d, before the interval of this expectation, which begins at %d'
OF_NO_MOTE = 'this expectation is about no mote, because `but` leaves out all of its motes, so it is %s in every run'
NO_EVENT = '`%s` doesn\'t occur in this run, so this expectation checks no order'
NO_VALUE = 'there is no value in this run with which this expectation compares, so it checks nothing'
NO_COLLISIONS = 'the scenario has no `collide = true`, so no copy collides in any run'
NO_LOSSES = 'no link of the scenario loses a packet, so no copy is lost in any run'
NO_COPIES = 'no copy was due in this run, so this expectation checks nothing'


def remark_of(sentence: Sentence, finder: Finder, holds: bool) -> str:
    """The remark on a sentence; an empty text if there is none."""
    if type(sentence) in OF_TEXT:
        return NOT_PROVED
    if isinstance(sentence, Copies) and (never := outcome_never(sentence, finder)):
        return never
    if isinstance(sentence, Does) and not finder.chosen(sentence.motes) and sentence.motes.count is None:
        return OF_NO_MOTE % ('false' if sentence.motes.kind == 'some' else 'true')
    if not holds:
        return of_events(sentence, finder) if isinstance(sentence, Does) else ''
    return remark_on(sentence, finder)


def remark_on(sentence: Sentence, finder: Finder) -> str:
    """The remark on a sentence that holds; an empty text if there is none."""
    if isinstance(sentence, (Does, Copies, Packets)) and sentence.window.begin > finder.scenario.end:
        return AFTER_THE_END % (finder.scenario.end, sentence.window.begin)
    if isinstance(sentence, Copies) and sentence.count is None and not finder.due(sentence.motes):
        return NO_COPIES
    if isinstance(sentence, Does) and sentence.than and sentence.than.is_each and not has_values(sentence, finder):
        return NO_VALUE
    return of_events(sentence, finder) if isinstance(sentence, Does) else ''


def outcome_never(it: Copies, finder: Finder) -> str:
    """The remark that no copy can have the outcome of a sentence in any run of the scenario."""
    if it.outcome == 'collided' and not finder.scenario.collide:
        return NO_COLLISIONS
    is_lossless = not (finder.scenario.losses or finder.scenario.faults)
    return NO_LOSSES if it.outcome == 'lost' and is_lossless else ''


def of_events(it: Does, finder: Finder) -> str:
    """The remark that the run has no event with which a sentence compares the order of its lines."""
    motes = finder.chosen(it.motes)
    units = [motes] if it.motes.kind == 'together' else [(mote,) for mote in motes]
    if not it.relation or any(events_of(it, finder, unit) for unit in units):
        return ''
    return NO_EVENT % it.relation.words


def has_values(it: Does, finder: Finder) -> bool:
    """True if there are lines of which a sentence counts those with the same value."""
    assert it.than
    than = replace(it, motes=it.than.motes or it.motes, deed=it.than.deed or it.deed,
                   window=it.than.window or it.window)
    try:
        return any(finder.lines_of(than, (mote,)) for mote in finder.chosen(than.motes))
    except Apart:
        return False


def events_of(it: Does, finder: Finder, motes: tuple[int, ...]) -> bool:
    """True if the event of a sentence occurs for these motes."""
    assert it.relation
    others = finder.chosen(it.relation.motes) if it.relation.motes else motes
    try:
        return bool(finder.done(it.relation.deed.patterns, others))
    except Apart:
        return False
