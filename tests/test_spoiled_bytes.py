"""Runs motesim on a scenario in which one byte is spoiled, for each byte, and on the prefixes of the scenario:
tools/dev/spoil_bytes

The scenario is tests/cases/motes/print_then_yield.toml. Each of its bytes is replaced by each byte of a short list
(SPOILED in tests/test_spoiled_bytes.py). For such a text motesim writes a report and ends with status 0, or writes
only the line of a fault and ends with status 1. The number of texts with each result, and the total length of the
reports, have to be those of another simulator with the same rules. Each prefix of the scenario must have fault 1,
because it isn't TOML, or fault 2, because it lacks a key. Only the prefix without the last line feed has the report.
"""
from __future__ import annotations

from collections import Counter
from pathlib import Path

import pytest
from differences import answer

CASE = Path(__file__).parent / 'cases/motes/print_then_yield'
SCENARIO = CASE.with_suffix('.toml').read_bytes()
REPORT = CASE.with_suffix('.expected').read_bytes()
# For each byte, the number of texts with each fault and with a report, and the number of bytes of these reports in
# all.
SPOILED: list[tuple[bytes, dict[str, int], int]] = [
    (b'\0', {'scenario fault 1': 180}, 0),
    (b'\xff', {'scenario is not UTF-8': 180}, 0),
    (b'"', {'report': 4, 'scenario fault 1': 176}, 356),
    (b'0', {
        'report': 8, 'scenario fault 1': 44, 'scenario fault 2': 57, 'scenario fault 5': 1, 'scenario fault 6': 3,
        'medium fault 2': 1,
        'program p fault 1 line 1': 13, 'program p fault 2 line 1': 37, 'program p fault 3 line 1': 16,
    }, 712),
    (b' ', {
        'report': 37, 'scenario fault 1': 71, 'scenario fault 2': 18, 'scenario fault 6': 1,
        'program p fault 2 line 1': 38, 'program p fault 3 line 1': 15,
    }, 3293),
    (b'}', {
        'report': 2, 'scenario fault 1': 111, 'scenario fault 6': 1,
        'program p fault 2 line 1': 54, 'program p fault 3 line 1': 12,
    }, 178),
    (b'a', {
        'report': 9, 'scenario fault 1': 52, 'scenario fault 2': 53, 'scenario fault 6': 3,
        'program p fault 1 line 1': 2, 'program p fault 2 line 1': 35, 'program p fault 3 line 1': 22,
        'program p fault 10 line 1': 4,
    }, 801),
]


def kind_of(program: Path, scenario: bytes) -> tuple[str, bytes]:
    """The kind of the answer to a text, and its report."""
    status, report, errors = answer(program, scenario)
    line = errors.decode('utf-8', 'backslashreplace')
    if status == 0 and report and not line:
        return 'report', report
    if status == 1 and not report and line.startswith('motesim: ') and line.endswith('\n'):
        return line.removeprefix('motesim: ').rstrip('\n'), b''
    return 'status %d, %d bytes and %r' % (status, len(report), line), b''


@pytest.mark.parametrize(('byte', 'kinds', 'length'), SPOILED, ids=[repr(byte) for byte, _, _ in SPOILED])
def test_each_byte_in_turn(program: Path, byte: bytes, kinds: dict[str, int], length: int) -> None:
    answers = [kind_of(program, SCENARIO[:at] + byte + SCENARIO[at + 1:]) for at in range(len(SCENARIO))]
    found = Counter(kind for kind, _ in answers)
    wrong = ['%d times %s, not %d' % (found[it], it, kinds.get(it, 0)) for it in sorted({*found, *kinds})
             if found[it] != kinds.get(it, 0)]
    assert not wrong
    assert sum(len(report) for _, report in answers) == length


def test_each_front(program: Path) -> None:
    *fronts, whole = [kind_of(program, SCENARIO[:length]) for length in range(len(SCENARIO))]
    assert {kind for kind, _ in fronts} == {'scenario fault 1', 'scenario fault 2'}
    assert whole == ('report', REPORT)
