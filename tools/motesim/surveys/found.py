"""The files and tables of a search: the counter-examples, a table for a spreadsheet, and all results for programs."""
from __future__ import annotations

import csv
import io
import json
import re
from collections.abc import Sequence
from contextlib import suppress
from pathlib import Path
from typing import Any

from motesim.files import write_whole
from motesim.scenario.fields import Field
from motesim.surveys.cuts import Cut
from motesim.surveys.searching import Found, Result

LONGEST_FILE_NAME = 120
# The first line of a counter-example.
BREAKS = '# %s with these faults breaks:'
OF_SEARCH = re.compile(BREAKS % '.*')


def toml_text(text: str) -> str:
    """A text as a string of TOML."""
    return json.dumps(text, ensure_ascii=False).replace('\x7f', '\\u007f')


def expectations_text(sentences: Sequence[str], fields: Sequence[Field] = ()) -> str:
    """The text of a file of expectations, with the format of packets."""
    rows = ''.join('  %s,\n' % toml_text(it) for it in sentences)
    formulas = ', '.join('%s = %s' % (it.name, toml_text(it.formula)) for it in fields)
    return 'expect = [\n%s]\n' % rows + ('fields = { %s }\n' % formulas) * bool(fields)


def faults_text(faults: Sequence[str], head: Sequence[str] = ()) -> str:
    """The text of a file of faults, with comments at its head."""
    return ''.join('%s\n' % it for it in (*head, *faults))


def write_text(path: Path, text: str) -> None:
    """Writes a file completely or not at all."""
    write_whole(path, [text.encode()])


def write_files(found: Sequence[Found], name: str, folder: Path) -> None:
    """Writes a file of faults for each set whose run was made again. Those of an earlier search are removed."""
    for path in folder.glob('*.faults'):
        if _is_counter_example(path):
            path.unlink()
    names = set[str]()
    for it in found:
        if it.measured is None:
            continue
        stem = '_and_'.join(it.faults).replace(' ', '_')[:LONGEST_FILE_NAME]
        while stem in names:
            stem += 'x'
        names.add(stem)
        it.file = str(folder / (stem + '.faults'))
        head = [BREAKS % Path(name).name, *('#   ' + ' '.join(text.split()) for text in it.expectations)]
        write_text(Path(it.file), faults_text(it.faults, head))


def _is_counter_example(path: Path) -> bool:
    """Returns whether a search has written a file, by its first line."""
    with suppress(OSError, UnicodeDecodeError):
        return OF_SEARCH.match(path.read_text('utf-8')) is not None
    return False


def cut_text(cut: Cut) -> str:
    """A cut in a cell of a table, such as `0 > 2 3`: no path is left from mote 0 to motes 2 and 3."""
    return '; '.join('%d > %s' % (origin, ' '.join(map(str, motes))) for origin, motes in cut.items())


def as_csv(found: Sequence[Found]) -> str:
    """A row for each set and each expectation that it breaks."""
    text = io.StringIO()
    rows = csv.writer(text, lineterminator='\n')
    rows.writerow(['expectation', 'size', 'faults', 'file', 'missing', 'wanted', 'cut'])
    for it in found:
        lines: list[int | str] = [*it.measured.lacks] if it.measured else ['', '']
        rows.writerows([text, len(it.faults), it.words, it.file, *lines, cut_text(it.cut)] for text in it.expectations)
    return text.getvalue()


def as_json(result: Result, name: str) -> str:
    """All results of a search, for another program."""
    survey = result.survey
    return json.dumps({
        'scenario': name, 'kinds': result.asked.kinds, 'at_most': result.asked.bounds.at_most, 'covers': result.covers,
        'said': survey.said if survey else '', 'faults': survey.faults if survey else None, 'runs': result.runs,
        'ended_by': result.ended_by or None, 'seconds': round(result.seconds, 3), 'holds': result.holding,
        'broken': [text for text in result.asked.texts if result.least(text)],
        'broken_without_a_fault': result.broken, 'left_out': result.unsaid,
        'found': [of_set(it) for it in result.found]}, indent=1, ensure_ascii=False) + '\n'


def of_set(it: Found) -> dict[str, Any]:
    """A set of faults, for another program."""
    found = it.measured
    return {'faults': it.faults, 'expectations': it.expectations, 'file': it.file, 'cut': it.cut,
            'lines': found.lacks._asdict() if found else None, 'moments': found.moments if found else None}
