"""The marks of a class as a page: a row for each solution, with a link to the run that fails its first sentence."""
from __future__ import annotations

from collections.abc import Sequence
from html import escape
from pathlib import Path
from urllib.parse import quote

from motesim.grading.marks import Marks
from motesim.grading.tables import count_of, holds, required_of
from motesim.judge.expectations import REQUIRED

HEAD = """<!DOCTYPE html>
<html lang="en">
<head>
<meta charset="utf-8">
<meta name="viewport" content="width=device-width">
<meta http-equiv="Content-Security-Policy" content="default-src 'none'; style-src 'unsafe-inline'">
<title>%s</title>
<style>
:root { color-scheme: light dark; }
body { font: 15px/1.45 system-ui, "DejaVu Sans", sans-serif; margin: 24px auto; max-width: 1100px; padding: 0 16px; }
table { border-collapse: collapse; width: 100%%; }
th, td { text-align: left; vertical-align: top; padding: 4px 10px 4px 0; border-bottom: 1px solid #8884; }
td:first-child { white-space: nowrap; }
td.number, th.number { text-align: right; white-space: nowrap; font-variant-numeric: tabular-nums; }
.all { color: #1a7f4b; } .some { color: #9a6200; } .none { color: #c0281f; }
pre { margin: 2px 0 0; font: 12.5px/1.4 ui-monospace, "DejaVu Sans Mono", monospace; white-space: pre-wrap;
  opacity: 0.8; overflow-wrap: anywhere; }
.marks { letter-spacing: 2px; white-space: nowrap; }
</style>
</head>
<body>
"""
OF_REQUIRED = ' If a required expectation doesn\'t hold, the grade is 0, whatever else holds.'


def folder_of(path: Path) -> Path:
    """The folder with the pages of runs to which a page of grades links."""
    return path.with_name(path.stem + '_runs')


def _colour(marks: Marks, count: int) -> str:
    return '' if not marks.has_mark else 'all' if marks.held == count and count else 'some' if marks.held else 'none'


def _first_failed(marks: Marks, folder: str) -> str:
    """The first sentence that fails, linked to the run that shows it, and why it fails. If this sentence fails only in
    hidden nets, the first sentence that fails in another net is below it, with the link."""
    place = marks.first_failed
    if marks.why or place is None:
        return escape(marks.why) + _lines(marks.fix)
    other = marks.pictured if marks.pictured is not None and marks.pictured > place else None
    first = _failed(marks, place, '' if other is not None else folder)
    rest = '' if other is None else '\n' + _failed(marks, other, folder)
    return first + rest + _lines([marks.no_page] if marks.no_page else [])


def _failed(marks: Marks, place: int, folder: str) -> str:
    """A sentence that fails, and why it fails. If a folder is given, the sentence is linked to its run."""
    mark = marks.marks[place]
    words = escape('%d. %s' % (place + 1, mark.words))
    if folder and marks.picture:
        words = '<a href="%s/%s">%s</a>' % (quote(folder), quote(marks.picture), words)
    return words + _lines(mark.shown)


def _lines(rows: Sequence[str]) -> str:
    return '<pre>%s</pre>' % escape('\n'.join(rows)) if rows else ''


def _row(marks: Marks, count: int, folder: str) -> str:
    dots = ''.join('<span title="%s">%s</span>' % (escape(it.words, True), '●' if it.holds else '○')
                   for it in marks.marks)
    title = ' title="%s"' % escape(marks.name, True) if marks.short_name != marks.name else ''
    return '<tr><td%s>%s</td><td class="number %s">%s</td><td class="marks">%s</td><td>%s</td></tr>' % (
        title, escape(marks.short_name), _colour(marks, count), count_of(marks, count), dots,
        _first_failed(marks, folder))


def page_of(marked: Sequence[Marks], sentences: Sequence[str], title: str, folder: str, date: str = '',
            has_nets: bool = False) -> str:
    """The page. `folder` has the timelines."""
    rows = [_row(it, len(sentences), folder) for it in marked]
    required = required_of(marked)
    solutions = [it for it in marked if it.is_solution]
    held = [sum(holds(it, place + 1) for it in solutions) for place in range(len(sentences))]
    below = ['<tr><td class="number">%d</td><td class="number">%d of %d</td><td>%s</td></tr>' % (
        number, count, len(solutions), escape(sentence) + REQUIRED * (number in required))
        for number, (count, sentence) in enumerate(zip(held, sentences), 1)]
    return '\n'.join([
        HEAD % escape(title) + '<h1>%s</h1>' % escape(title),
        '<p>%s ● means that an expectation holds%s, ○ that it doesn\'t.%s</p>' % (
            'Graded on %s.' % date if date else '', ' in all nets' if has_nets else '', OF_REQUIRED * bool(required)),
        '<table><thead><tr><th>Solution</th><th class="number">Grade</th><th>Expectations</th><th>First that '
        'fails</th></tr>'
        '</thead><tbody>', *rows, '</tbody></table>',
        '<h2>Expectations</h2>', '<table><tbody>', *below, '</tbody></table>', '</body>', '</html>', ''])
