"""Explains why a line is in a report, or why it isn't: docs/use/DEBUGGING.md."""
from __future__ import annotations

import argparse
import json
import sys
from pathlib import Path

from motesim.faults import Fault
from motesim.judge.expectations import beside, parts_of, text_of
from motesim.judge.names import names_of
from motesim.judge.several import read_all
from motesim.judge.verdicts import breaks
from motesim.scenario.fault_text import faults_asked
from motesim.causes.chain import Hop, chain, path_of
from motesim.causes.miss import misses
from motesim.causes.question import Asked, Asker, Unasked
from motesim.causes.say import (about, chain_as_json, heading, misses_as_json, of_path, on_values, rows_of_chain,
                                rows_of_misses, rows_of_state, rows_of_values, state_as_json, values_as_json, words_of)
from motesim.causes.source import Source, read_with_fields, source_of
from motesim.causes.state import read_state
from motesim.causes.watch import read_watch, replayed


def short(hops: list[Hop]) -> list[Hop]:
    """The first hop, the last hop, and the hops that waited for something."""
    return [hop for place, hop in enumerate(hops) if hop.waited or place in (0, len(hops) - 1)]


def rows_of_asked(source: Source, asked: Asked, is_short: bool = False) -> list[str]:
    """A chain as text."""
    hops = chain(source, asked.where)
    first = hops[0]
    rows = ['mote %d, line %d of the report: %d %s' % (
        first.where.mote, first.row, first.at, words_of(source, first.where))]
    rows += filter(None, [about(source, asked)])
    rows += ['', *rows_of_chain(source, short(hops) if is_short else hops, source.scenario.fields), '',
             of_path(path_of(hops))]
    return [*rows, *filter(None, [on_values(source, hops)])]


def answer_of(asker: Asker, question: str) -> str:
    """The answer to a question, as text."""
    try:
        found = asker.about(question)
    except Unasked as unasked:
        if not unasked.holds:
            raise
        return str(unasked)
    rows = rows_of_asked(asker.source, found) if isinstance(found, Asked) else rows_of_misses(
        asker.source, found, misses(asker, found))
    return '\n'.join(rows)


def show_watch(source: Source, asked: argparse.Namespace) -> int:
    """Shows the values of variables."""
    values = replayed(source, *read_watch(source, ' '.join(asked.watch)))
    print(json.dumps(values_as_json(values), indent=1) if asked.json else '\n'.join(rows_of_values(values)))
    return 0


def show_state(source: Source, asked: argparse.Namespace) -> int:
    """Shows the state of a mote."""
    found = read_state(source, ' '.join(asked.state))
    state = state_as_json(found)
    print(json.dumps(state, indent=1) if asked.json else
          '\n'.join([heading(source, found), *(it.text for it in rows_of_state(state))]))
    return 0


def show_why(source: Source, asked: argparse.Namespace) -> int:
    """Shows a chain, or the near misses."""
    asker = Asker(source)
    try:
        found = asker.about(asked.question)
    except Unasked as unasked:
        if not unasked.holds:
            raise
        print(json.dumps({'question': asked.question, 'holds': True, 'about': str(unasked)}, indent=1) if asked.json
              else unasked)
        return 0
    if not isinstance(found, Asked):
        near = misses(asker, found)
        print(json.dumps({'question': asked.question, **misses_as_json(source, found, near)}, indent=1) if asked.json
              else '\n'.join(rows_of_misses(source, found, near)))
        return 1
    if asked.json:
        hops = chain(source, found.where)
        print(json.dumps({'question': asked.question, 'holds': found.holds, 'about': about(source, found) or None,
                          **chain_as_json(source, hops)}, indent=1))
    else:
        print('\n'.join(rows_of_asked(source, found, asked.short)))
    return 0


def broken_beside(source: Source, path: Path) -> str:
    """The first sentence of the file of expectations next to a scenario that its run breaks."""
    if not path.exists():
        raise Fault('a question is needed: an expectation, a line, --watch or --state; or a file %s' % path)
    texts = parts_of(text_of(path), str(path))[0].sentences
    found = breaks(read_all(texts, names_of(source.scenario)), Asker(source).finder)
    for text, broken in zip(texts, found):
        if broken:
            return text
    raise Fault('all of %s hold, so a question is needed: an expectation, a line, --watch or --state' % path)


def status_of(asked: argparse.Namespace) -> int:
    """The work of tools/why; returns the status."""
    given = [it for it in (asked.question, asked.watch, asked.state) if it is not None]
    if len(given) > 1:
        raise Fault('only one question is allowed: an expectation, a line, --watch or --state')
    source = source_of(read_with_fields(asked.file, asked.scenario, faults_asked(asked)))
    if not given:
        asked.question = broken_beside(source, beside(Path(asked.scenario or asked.file)))
        print(asked.question, end='\n\n', file=sys.stderr if asked.json else sys.stdout)
    if asked.watch is not None:
        return show_watch(source, asked)
    if asked.state is not None:
        return show_state(source, asked)
    return show_why(source, asked)
