"""Handles the requests of the page.

`Session(desk, limits).answer('run', {...})` returns an `Answered`, or raises a `Fault` whose text the page shows.
"""
from __future__ import annotations

import functools
import json
import threading
import time
from collections import OrderedDict
from collections.abc import Sequence
from typing import Any, Callable, NamedTuple

from motesim.causes.studio import answer
from motesim.explain.within import busiest
from motesim.faults import Fault
from motesim.judge.expectations import parts_of
from motesim.runner import LimitMet, Limits, Runner, Stopped
from motesim.studio import answers
from motesim.studio.desk import Changed, Desk, Document, stamp_of
from motesim.studio.examples import offered
from motesim.studio.shrinking import small_text
from motesim.timeline.columns import fields_of
from motesim.timeline.html import page_of

MOST_KEPT = 4
RAISE = 'The run was stopped: %s. Start tools/studio with a larger %s.'
JSON, HTML = 'application/json', 'text/html; charset=utf-8'


class Answered(NamedTuple):
    """An answer: its media type for HTTP, and its bytes."""
    kind: str
    data: bytes


def as_json(value: object) -> Answered:
    return Answered(JSON, json.dumps(value).encode('utf-8'))


def _text(asked: dict[str, Any], name: str) -> str:
    value = asked.get(name)
    if type(value) is not str:
        raise Fault('the page asked without a text %s' % name)
    try:
        value.encode('utf-8')
    except UnicodeEncodeError:
        raise Fault('the text has half a character, which no file can hold') from None
    return value


class Session:
    """Runs and files for the page."""

    def __init__(self, desk: Desk, limits: Limits, against: str | None = None, faults: Sequence[str] = ()):
        self.desk, self.limits = desk, limits
        self.against, self.faults = against, faults
        self.kept: OrderedDict[str, answers.Finished] = OrderedDict()
        self.newest: str | None = None
        self.work = threading.Lock()
        self.does: dict[str, Callable[[dict[str, Any]], Answered]] = {
            'begin': self.begin, 'open': self.open, 'explain': self.explain, 'advise': self.advise, 'warn': self.warn,
            'expectations': self.expected, 'expect': self.expect, 'save': self.save, 'export': self.export,
            'shrink': self.shrink}
        for what in 'why', 'state', 'statement':
            self.does[what] = functools.partial(self.cause, what)

    def answer(self, what: str, asked: dict[str, Any]) -> Answered:
        if what not in self.does:
            raise Fault('there is nothing called %s' % what)
        return self.does[what](asked)

    # Files.

    def opened(self, it: Document) -> dict[str, Any]:
        """A document for the page, with the first change that its expectations name."""
        expected, document = self.desk.expectations(it.where, it.name) if it.stamp else None, it._asdict()
        return {'document': {**document, 'maySave': self.desk.may_save(document)},
                'example': answers.change_of(expected)}

    def begin(self, asked: dict[str, Any]) -> Answered:
        """The content of the page when it opens."""
        files = [] if self.desk.folder == self.desk.examples else self.desk.names('folder')
        return as_json({**self.opened(self.desk.first()), **offered(), 'files': files, 'folder': str(self.desk.folder),
                        'against': self.against, 'faults': self.faults, 'seconds': self.limits.seconds})

    def open(self, asked: dict[str, Any]) -> Answered:
        return as_json(self.opened(self.desk.read(_text(asked, 'where'), _text(asked, 'name'))))

    def document(self, asked: dict[str, Any]) -> dict[str, Any]:
        it = {name: _text(asked, name) for name in ('where', 'name', 'text', 'stamp')}
        return {**it, 'returns': asked.get('returns') is True, 'mark': asked.get('mark') is True}

    def save(self, asked: dict[str, Any]) -> Answered:
        """Writes a document into its own file, or under a new name."""
        it, new = self.document(asked), asked.get('new')
        try:
            if new is not None:
                name = _text(asked, 'new')
                stamp = self.desk.save_new(it, name)
                name = name if name.endswith('.toml') else name + '.toml'
                return as_json({'stamp': stamp, 'name': name, 'where': 'folder'})
            stamp = self.desk.save(it, asked.get('over') is True)
            return as_json({'stamp': stamp, 'name': it['name'], 'where': 'folder'})
        except Changed as fault:
            return as_json({'changed': str(fault)})

    # Runs.

    def explain(self, asked: dict[str, Any]) -> Answered:
        """An error in words, with its place and the corrected text."""
        return as_json(answers.fault(_text(asked, 'text'), _text(asked, 'line')))

    def advise(self, asked: dict[str, Any]) -> Answered:
        """What a run that was stopped at a limit does so often."""
        until = time.monotonic() + self.limits.seconds
        return as_json({'does': busiest(_text(asked, 'text').encode('utf-8'),
                                        goes_on=lambda: time.monotonic() < until)})

    def done(self, asked: dict[str, Any]) -> answers.Finished:
        """The run of a text, which is kept; a run of another text is stopped."""
        text = self.newest = _text(asked, 'text')
        with self.work:
            if text not in self.kept:
                self.kept[text] = self.run(text, asked)
                while len(self.kept) > MOST_KEPT:
                    self.kept.popitem(last=False)
            self.kept.move_to_end(text)
            return self.kept[text]

    def run(self, text: str, asked: dict[str, Any]) -> answers.Finished:
        """Runs a text; raises `Stopped` once there is a newer one."""
        runner = Runner(limits=self.limits, asks_end=lambda: self.newest != text, faults=answers.faults_of(text))
        try:
            got = runner.answer(text.encode('utf-8'))
        except LimitMet as met:
            raise Fault(RAISE % (met, met.option)) from None
        if got.status:
            raise Fault('the text has no run: %s' % got.why)
        fields = answers.fields_of(self.expectations(asked))
        return answers.finished(text, got.report, str(asked.get('name', '')), fields)

    def stop(self) -> None:
        """Stops the run that runs now."""
        self.newest = None

    def warn(self, asked: dict[str, Any]) -> Answered:
        """The warnings about a run, and the fields of its values."""
        try:
            done = self.done(asked)
        except Stopped:
            return as_json({'gone': True})
        with self.work:
            return as_json({'warnings': answers.warned(done), 'fields': fields_of(done.run).get('fields', {})})

    def expected(self, asked: dict[str, Any]) -> Answered:
        """What a text must show, and the file that says so."""
        found = self.expectations(asked)
        file = None if found is None else {'name': found[0], 'text': found[1],
                                           'stamp': stamp_of(found[1].encode('utf-8'))}
        return as_json({**answers.expected_of(_text(asked, 'text'), _text(asked, 'saved'), found), 'file': file})

    def expect(self, asked: dict[str, Any]) -> Answered:
        """Writes the expectations of a document, if all of them can be read."""
        source, document = _text(asked, 'source'), self.document(asked)
        name = document['name'].removesuffix('.toml') + '.expect.toml'
        for part in parts_of(source, name)[:1]:
            answers.items_of(_text(asked, 'text'), part)
        self.desk.save_expectations(document, source, _text(asked, 'stamp'))
        return as_json({})

    def expectations(self, asked: dict[str, Any]) -> tuple[str, str] | None:
        try:
            return self.desk.expectations(_text(asked, 'where'), _text(asked, 'name'))
        except Fault:
            return None

    def cause(self, what: str, asked: dict[str, Any]) -> Answered:
        """The answer to a question about the causes of a run."""
        done = self.done(asked)
        with self.work:
            return as_json(answer(what, done.source, asked))

    def export(self, asked: dict[str, Any]) -> Answered:
        """The page of a run in one file, the same that tools/timeline writes."""
        title = _text(asked, 'title').removesuffix('.toml')
        return Answered(HTML, ''.join(page_of(title, [self.done(asked).run._replace(name=title)])).encode('utf-8'))

    def shrink(self, asked: dict[str, Any]) -> Answered:
        """A small scenario in which an expectation is broken by the same faults."""
        return as_json({'text': small_text(_text(asked, 'text'), _text(asked, 'sentence'), self.limits)})
