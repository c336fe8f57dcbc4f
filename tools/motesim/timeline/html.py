"""Makes an HTML page of one run, or of two runs, one above the other: a map of the motes, and a lane over time for
each.

    from motesim.report.run import read_run
    from motesim.timeline.html import write_page

    write_page('flooding.html', 'Flooding', [read_run('examples/flooding.toml')])
    write_page('both.html', 'With slots and without', [read_run(one), read_run(other)], start=17, mote=4)

docs/use/DEBUGGING.md describes the page for its readers. The page is one file, and needs no network: `columns.py` packs
its runs, and `bundle.py` joins the modules of `page/` into its script, which computes everything else from the lines
of the runs.
"""
from __future__ import annotations

import base64
import functools
import json
import re
from collections.abc import Callable, Iterable, Sequence
from pathlib import Path
from typing import Any

from motesim.files import write_whole
from motesim.report.run import Run
from motesim.timeline.bundle import bundle
from motesim.timeline.columns import data_of
from motesim.timeline.note import Note
from motesim.causes.pages import causes_of

Writer = Callable[[str | Path, Iterable[bytes]], None]
PACKAGES = Path(__file__).resolve().parent.parent
# All pages have one template and one style.
TEMPLATE = PACKAGES / 'web/page/web.html'
STYLES = [PACKAGES / name for name in ('timeline/page/page.css', 'web/page/text.css', 'web/page/web.css')]
# A place in the template to be filled.
MARK = re.compile('@([A-Z]+)@')


@functools.cache
def script() -> str:
    """The script of the page."""
    return bundle(PACKAGES / 'timeline/page/open.js')


def style() -> str:
    return ''.join(path.read_text('utf-8') for path in STYLES)


def _escaped(text: str) -> str:
    return text.replace('&', '&amp;').replace('<', '&lt;').replace('>', '&gt;')


def page_of(title: str, runs: Sequence[Run], start: int | None = None, mote: int | None = None,
            note: Note | None = None) -> Iterable[str]:
    """The parts of the page's text. The page opens on the whole run, or around the moment `start` with `mote` in view,
    or at the line of its note."""
    table: list[dict[str, Any]] = []
    packed: list[str] = []
    for run in runs:
        of_run, columns = data_of(run)
        of_run['why'] = causes_of(run)
        table.append(of_run)
        packed.append(base64.b64encode(columns).decode('ascii'))
    data = json.dumps({'title': title, 'start': start, 'mote': mote, 'note': note.as_json() if note else None,
                       'runs': table}, separators=(',', ':'))
    blocks = ('<script id="run%d" type="text/plain">%s</script>\n' % item for item in enumerate(packed))
    fill = {'TITLE': [_escaped(title)], 'KIND': ['run'], 'STYLE': [style()], 'DATA': [data.replace('<', '\\u003c')],
            'SCRIPT': [*blocks, '<script>\n', script(), '\n</script>']}
    for place, part in enumerate(MARK.split(TEMPLATE.read_text('utf-8'))):
        if place % 2:
            yield from fill.get(part, ())
        else:
            yield part


def write_page(path: str | Path, title: str, runs: Sequence[Run], start: int | None = None,
               mote: int | None = None, note: Note | None = None, write: Writer = write_whole) -> None:
    """Writes the page of one run, or of several runs, one above the other, with one time axis.

    With `start` the page opens around this moment, and marks it; with `mote` the lane of this mote is in view. With
    `note` it shows a sentence that doesn't hold, and opens at the line that the note is about.
    """
    # (if a name isn't UTF-8, its other bytes are escaped)
    write(path, (part.encode('utf-8', 'backslashreplace')
                 for part in page_of(title, runs, start, mote, note)))
