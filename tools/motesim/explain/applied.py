"""Applies the corrections of tools/explain, one error after the other."""
from __future__ import annotations

import difflib
import re
from collections.abc import Callable, Collection, Iterator
from pathlib import Path

from motesim.explain.edits import Correction
from motesim.explain.say import hint_in_words
from motesim.explain.explanation import OF_C, correction_of, shown_explanation
from motesim.faults import Fault
from motesim.files import refuse_inputs, write_whole
from motesim.report.run import Answer
from motesim.scenario.encodings import decoded, read_file
from motesim.scenario.faults import find_fault
from motesim.scenario.kinds import is_c_file, is_program_file
from motesim.terminal import one_line
from motesim.text import CONTROL, wrapped
from motesim.toml import MARK

MOST_CHANGES = 1_000
# The net for a file that has only a program: two motes that hear each other.
NET = '''version = 2
end = 1000
medium = { range = 10, base = 2, per = 100, collide = false }
mote = [{ x = 0, y = 0, program = "%s" }, { x = 5, y = 0, program = "%s" }]
[programs]
%s = \'\'\'
%s\'\'\'
'''
IN_NET = '%s is a program: %s has it in a net of two motes that hear each other.'
KEPT = '%s had another text, which is in %s now.'
OF_SCENARIO = '%s would be a scenario, not a program: name a file NAME.toml with --apply'
QUOTES = "%s has three single quotes in a row, which end the text of a program in a scenario: leave them out."


def changes(text: str) -> Iterator[tuple[Correction, str]]:
    """Yields each correction, with the text that has it, up to the first error without one."""
    for _ in range(MOST_CHANGES):
        found = correction_of(text)
        new = found.applied(text) if found else text
        if found is None or new == text:
            return
        yield found, new
        text = new


def shown(number: int, hint: str, old: str, new: str) -> list[str]:
    """A change: the lines that are gone, those that are new, and the reason."""
    rows = [row for row in difflib.unified_diff(old.split('\n'), new.split('\n'), n=0, lineterm='')
            if row[:2] not in ('--', '++', '@@') and row[1:].strip()]
    return ['', 'Change %d' % number, *('%s %s' % (row[0], CONTROL.sub('\ufffd', row[1:])) for row in rows),
            *wrapped(hint)]


def in_net(name: str, source: str) -> str:
    """A scenario with a program in a net of two motes."""
    if "'''" in source:
        raise Fault(QUOTES % one_line(name))
    program = re.sub(r'[^a-z0-9_]', '_', Path(name).stem.lower()).strip('_')[:16] or 'p'
    return NET % (program, program, program, source if source.endswith('\n') else source + '\n')


def apply(name: str, output: str, run: Callable[[bytes], Answer], silent: Collection[str] = ()) -> int:
    """Writes the corrected scenario to a file, and prints the changes and the explanation of this file; returns the
    status of tools/explain for it."""
    refuse_inputs(output, [name], '--apply')
    if output.endswith(('.mote', '.c')):
        raise Fault(OF_SCENARIO % one_line(output))
    data = read_file(name)
    if is_c_file(name):
        raise Fault(OF_C % one_line(name))
    text = decoded(one_line(name), data).removeprefix(MARK)
    if is_program_file(name, data):
        text = in_net(name, text)
        print(IN_NET % (one_line(name), one_line(output)))
    number = 0
    for number, (found, new) in enumerate(changes(text), 1):
        print('\n'.join(shown(number, hint_in_words(found), text, new)))
        text = new
    write_and_keep(output, text.encode())
    no_change = 'first error has no corrected line' if find_fault(text.encode()) else 'text has no error'
    print('\n%s' % ('%s: %d change%s' % (one_line(output), number, 's' * (number != 1)) if number
                    else 'No line was changed: the %s.' % no_change))
    return shown_explanation(output, text.encode(), run, silent)


def write_and_keep(output: str, data: bytes) -> None:
    """Writes a file. A copy of a file of this name with another text is kept, with `~` at the end of its name."""
    before = Path(output).read_bytes() if Path(output).is_file() else data
    if before != data:
        write_whole(output + '~', [before])
        print(KEPT % (one_line(output), one_line(output + '~')))
    write_whole(output, [data])
