"""Explains why a scenario has no report, and warns of likely mistakes. tools/explain is the command."""
from __future__ import annotations

import re
from collections.abc import Callable, Collection
from typing import Any

from motesim.explain.advice import advice
from motesim.explain.edits import Correction, hint
from motesim.explain.repair import like_of_missing, repair
from motesim.explain.say import edits_in_words, hint_in_words, with_name
from motesim.explain.structure import without_parameters
from motesim.explain.warned import Warned
from motesim.explain.warnings import warnings
from motesim.faults import tried
from motesim.notation import faults as program_faults
from motesim.notation import reader
from motesim.notation.tokens import Token
from motesim.report import Report
from motesim.report.run import Answer, answer, is_report
from motesim.scenario.encodings import read_file
from motesim.scenario import Scenario, encodings
from motesim.scenario import faults as scenario_faults
from motesim.scenario.faults import ScenarioError
from motesim.scenario.places import Place, place_of
from motesim.scenario.refused import rule_of_program
from motesim.scenario.in_programs import offset_of, place_of_token, source_of
from motesim.scenario.kinds import has_plan, is_c_file, is_program_file, is_program_in_c
from motesim.terminal import one_line
from motesim.text import Shown, folded, marked, shown_place
from motesim.toml import MARK, NoToml, read_toml

# The name of a text that is in no file, but in the studio.
TEXT = 'the text'
OF_PLAN = '%s is a plan, not a scenario: tools/scenario %s -o NAME.toml makes a scenario of it.'
OF_C = ('motesim runs programs in its own notation, and %s is in C: docs/use/LANGUAGE.md shows how to write in the '
        'notation what Contiki has in C.')
PROGRAM = re.compile(r'program (\S+) fault (\d+) line (\d+)')


def error_line(got: Answer) -> str | None:
    """The error line of a result, or None if it is a report."""
    if got.status == 0:
        return None
    return got.fault.decode('utf-8', 'backslashreplace').rstrip('\n') or 'motesim: status %d' % got.status


def tables_or_none(text: str) -> dict[str, Any] | None:
    """The tables of a text that may not be TOML."""
    try:
        return read_toml(text)
    except NoToml:
        return None


def place_of_scenario(text: str, fault: ScenarioError) -> Place | None:
    """The place of an error of the scenario itself. For a key or a table that is missing at the top, this is the place
    of the one that the author wrote instead, or None."""
    if fault.lacks is None:
        return fault.place(text)
    like = like_of_missing(tables_or_none(text), fault)
    return place_of(text, (like,)) if like else None


def place_of_fault(data: bytes, line: str) -> Place | None:
    """The place in the scenario of the error that `motesim` reports by a line, or None if it isn't known."""
    fault, text = scenario_faults.find_fault(data), data.decode('utf-8', 'replace')
    if fault is None or fault.message != line.removeprefix('motesim: '):
        return None
    if not fault.program:
        return place_of_scenario(text, fault)
    found = place_of_token(text, str(fault.path[1]), fault.program.token)
    return found or place_of(text, fault.path)


def correction_of(text: str) -> Correction | None:
    """The correction of the first fault of a scenario, in lines of its text; without edits it is only advice."""
    fault = scenario_faults.find_fault(text.encode('utf-8', 'replace'))
    if fault is None or is_report(text.encode('utf-8', 'replace')):
        return None
    if not fault.program:
        return repair(text, fault)
    program = str(fault.path[1])
    found, offset = advice(source_of(text, program), fault.program), offset_of(text, program)
    return found.below(offset) if found and offset is not None else found and found._replace(edits=())


def failed(words: str) -> list[str]:
    """The line instead of a hint that can't be given."""
    return ['This error has no hint here, because of %s.' % words]


def hinted(found: Correction | None) -> list[str]:
    """A hint, and the corrected lines if they are known."""
    return ['Hint: %s' % hint_in_words(found), *edits_in_words(found.edits)] if found else []


def allowed(may: str) -> str:
    """All words that are allowed at the place of an error. A hint is above this list, because it is more likely to
    show the author's intention."""
    return 'Allowed here: %s' % may


def rule_of(line: str) -> str:
    """The rule that a fault's line breaks, for any scenario."""
    program = PROGRAM.fullmatch(line)
    if program and int(program[2]) in program_faults.RULES:
        return '%s: %s' % program_faults.RULES[int(program[2])]
    return scenario_faults.RULES.get('program' if program else line, 'docs/use/SCENARIO.md has the errors.')


def shown_program(name: str, text: str, program: str, token: Token) -> list[Shown]:
    """The place of a token in a program's text, with its line in the scenario if that is found."""
    found, line = place_of_token(text, program, token), source_of(text, program).split('\n')[token.line - 1]
    row = 'line %d, which is ' % found.line if found else ''
    where = '%s, %sline %d of program %s:' % (one_line(name), row, token.line, one_line(program))
    return [Shown(where), *marked(line.rstrip('\r'), token.column, len(token.text))]


def of_program(name: str, text: str, program: str, its: program_faults.ProgramError) -> list[str]:
    """The lines about a fault in a program of a scenario, with its place."""
    if is_program_in_c(source_of(text, program)):
        return [OF_C % ('program %s' % one_line(program))]
    return [*shown_program(name, text, program, its.token), rule_of_program(its),
            *tried(lambda: hinted(correction_of(text)), failed), allowed(', '.join(its.may))]


def of_program_file(name: str, source: str, its: program_faults.ProgramError) -> list[str]:
    """The lines about a fault in a file that has only a program."""
    line = source.split('\n')[its.token.line - 1].rstrip('\r')
    return [Shown('%s, line %d:' % (one_line(name), its.token.line)),
            *marked(line, its.token.column, len(its.token.text)), rule_of_program(its),
            *tried(lambda: hinted(advice(source, its)), failed), allowed(', '.join(its.may))]


def explanation(name: str, data: bytes, line: str) -> list[str]:
    """The lines to show below the line of an error."""
    return tried(lambda: whole_explanation(name, data, line),
                 lambda words: [rule_of(line.removeprefix('motesim: ')), *failed(words)])


def whole_explanation(name: str, data: bytes, line: str) -> list[str]:
    """The lines to show below the line of an error, if the tool itself has none."""
    what, fault = line.removeprefix('motesim: '), scenario_faults.find_fault(data)
    if fault is None or fault.message != what:
        # (for instance of an error of memory, or of a text that only Python reads as TOML)
        return [rule_of(what), 'This tool can\'t show the place of the error.']
    text = data.decode('utf-8', 'replace')
    if other := no_scenario(name, data):
        return other
    if fault.program:
        return of_program(name, text, str(fault.path[1]), fault.program)
    return [*where_told(name, text, fault), rule_of(what),
            *tried(lambda: hinted(hint_of_scenario(data, text)), failed), allowed(fault.may)]


def hint_of_scenario(data: bytes, text: str) -> Correction | None:
    """The hint on a fault outside the programs."""
    if is_report(data):
        return hint('report')
    of_byte = encodings.hint(data)
    return hint('byte', why=of_byte) if of_byte else correction_of(text)


def where_told(name: str, text: str, fault: ScenarioError) -> list[Shown]:
    """The place of a fault outside the programs, or the key or table that the scenario lacks."""
    place = place_of_scenario(text, fault)
    if place or not fault.lacks:
        return shown_place(name, text, place or Place(1, 0, 1))
    return [Shown('%s has no `%s`.' % (one_line(name), fault.lacks))]


def no_scenario(name: str, data: bytes) -> list[str]:
    """The lines about a file that has something else than a scenario; none if it may have one."""
    if is_c_file(name):
        return [OF_C % one_line(name)]
    if is_program_file(name, data):
        return program_instead(name, data)
    return [OF_PLAN % (one_line(name), one_line(name))] if has_plan(data) else []


def program_instead(name: str, data: bytes) -> list[str]:
    """The lines about a file with a program instead of a scenario: how to write it into a scenario, and its error."""
    source = data.decode('utf-8', 'replace').removeprefix(MARK)
    its = reader.find_fault(without_parameters(source)[0])
    lines = ['%s is the text of a program, not a scenario.' % one_line(name), *hinted(hint('program'))]
    if its is None:
        return [*lines, 'The program itself has no error.']
    return [*lines, 'The program has an error, too:', *of_program_file(name, source, its)]


def warned(name: str, text: str, warning: Warned) -> list[str]:
    """A warning with its name and its place."""
    lines = [with_name(warning) + '.']
    if warning.program is not None and warning.token is not None:
        return [*lines, *shown_program(name, text, warning.program, warning.token)]
    return [*lines, *(shown_place(name, text, place_of(text, warning.path)) if warning.path else [])]


def all_warnings(name: str, data: bytes, report: bytes, silent: Collection[str]) -> list[str]:
    """The warnings of a scenario that has a report."""
    text = data.decode('utf-8')
    found = warnings(Scenario.parse(data), Report.parse(report), text, silent)
    return [line for it in found for line in [Shown(), *warned(name, text, it)]]


def explain(name: str, run: Callable[[bytes], Answer] | None = None, silent: Collection[str] = ()) -> int:
    """Prints the explanation of a file, as tools/explain does, without the warnings of some names; returns the status.
    `run` runs the scenario."""
    data = read_file(name)
    if other := no_scenario(name, data):
        print('\n'.join(folded(other)))
        return 1
    return shown_explanation(name, data, run or answer, silent)


def shown_explanation(name: str, data: bytes, run: Callable[[bytes], Answer], silent: Collection[str] = ()) -> int:
    """Prints the explanation of a scenario; returns the status of tools/explain."""
    got = run(data)
    line = error_line(got)
    if line is None:
        lines = tried(lambda: all_warnings(name, data, got.report, silent),
                      lambda words: ['Its warnings aren\'t shown, because of %s.' % words])
        print('\n'.join(['%s has a report, and no error' % one_line(name), *folded(lines)]))
        return 0
    print('\n'.join([line, *folded(explanation(name, data, line))]))
    return 1
