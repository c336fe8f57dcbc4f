"""The kinds of files: programs and plans; and files that are only for teachers."""
from __future__ import annotations

import re

# A program begins with a declaration, below comments.
PROGRAM = re.compile(r'\ufeff?(?:\s|//[^\n]*+\n)*+(?:process|receiver|autostart|event|semaphore)[ \t]++[A-Za-z]')

# A plan has places, and neither a version nor motes.
PLACES = re.compile(rb'^[ \t]*(?:\[\[?[ \t]*places[ \t]*\]|places[ \t]*=)', re.M)
OF_SCENARIO = re.compile(rb'^[ \t]*(?:\[\[?[ \t]*mote[ \t]*\]|(?:mote|version)[ \t]*=)', re.M)

# The name of a file or folder that students shouldn't see: one of its words begins like this.
FOR_TEACHERS = re.compile(r'(?:.*[^a-z])?(?:solution|hidden|answer|grades|marks|key\.csv\Z)', re.S | re.I)


def is_for_teachers(name: str) -> bool:
    """Returns whether a file or folder of this name has solutions, nets that nobody has seen, or grades."""
    return FOR_TEACHERS.match(name) is not None


def has_plan(data: bytes) -> bool:
    """Returns whether a text has the tables of a plan, and not those of a scenario."""
    return PLACES.search(data) is not None and OF_SCENARIO.search(data) is None


def is_program_file(name: str, data: bytes) -> bool:
    """Returns whether a file has the text of a program, by its name or by its beginning."""
    return name.endswith('.mote') or PROGRAM.match(data.decode('utf-8', 'replace')) is not None


def is_c_file(name: str) -> bool:
    """Returns whether a file has a program in C, by its name."""
    return name.endswith('.c')


def is_program_in_c(source: object) -> bool:
    """Returns whether the text of a program has a process of Contiki in C."""
    return isinstance(source, str) and 'PROCESS_THREAD' in source
