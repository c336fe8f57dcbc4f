"""Checks which expectations hold for a run of a scenario.

The expectations are in a TOML file. If no file is named, the tool reads NAME.expect.toml, next to the
scenario NAME.toml:

    expect = ["mote 6 prints flood 1 by 60", "no mote halts", "every mote but 0 receives at least 3"]

Claims in the comments at the head of the scenario, `# expect: CLAIM`, are expected too, unless a file or --expect is
given.

The scenario is run. For each expectation a line says whether it holds. If it doesn't, further lines have the reason,
and the first line of the report that breaks it. docs/use/EXPECTATIONS.md has all forms of expectations. The last
line is `N passed, M failed`.

A key `python = "checks.py:agree"` in the file names a function in Python for what no expectation can say. It gets the
report, and returns the reason why this isn't right, or None.

The proved program `motecheck` decides the claims that each expectation means for this scenario. With --claims the tool
runs nothing, and writes these claims: `motecheck SCENARIO CLAIMS` answers them.

The tool ends with status 0 if all expectations hold, 1 if one is broken, and 2 if there is no result: if an expectation
or a file can't be read, if the run reaches a limit, or if `motesim` or `motecheck` isn't built. To use another one,
name its file in the environment variable MOTESIM or MOTECHECK.
"""
from __future__ import annotations

from pathlib import Path

from motesim.command import command
from motesim.faults import Fault
from motesim.words import Words, add_expectation, add_faults, add_limits, words_of


def parser() -> Words:
    words = words_of(__doc__)
    words.add_argument('scenario', metavar='SCENARIO', help='a scenario, NAME.toml')
    words.add_argument('expectations', nargs='?', metavar='EXPECTATIONS',
                       help='the expectations (NAME.expect.toml next to the scenario)')
    add_expectation(words)
    add_faults(words)
    words.add_argument('--claims', action='store_true',
                       help='write the claims that the expectations mean for this scenario, and run nothing')
    add_limits(words)
    return words


@command('expect')
def main() -> int:
    asked = parser().parse_intermixed_args()
    from motesim.explain.within import limits_of, runs_within
    from motesim.judge.expectations import beside, claims_shown, expect, text_of
    from motesim.judge.own_claims import expect_own, own_claims
    from motesim.judge.verdicts import unused
    from motesim.scenario.fault_text import faults_asked
    scenario = Path(asked.scenario)
    expectations = Path(asked.expectations) if asked.expectations else beside(scenario)
    if asked.expectations and asked.expect:
        raise Fault('the expectations are in a file or in --expect, not in both')
    is_own = not (asked.expectations or asked.expect) and scenario.exists()
    text = text_of(scenario) if is_own and not asked.claims else ''
    claims, faults, passed, failed = own_claims(text), faults_asked(asked), 0, 0
    if is_own and not expectations.exists() and not claims:
        raise Fault('there is no file %s next to %s: name another one, tools/expect SCENARIO EXPECTATIONS, '
                    'or use --expect' % (expectations, scenario))
    if asked.claims:
        print('\n'.join(claims_shown(scenario, expectations, asked.expect)))
        return 0
    if not claims or expectations.exists():
        passed, failed = expect(scenario, expectations, run=runs_within(asked.scenario, asked, faults),
                                limits=limits_of(asked), given=asked.expect, faults=faults)
    for it in unused(scenario.read_bytes(), faults, limits_of(asked)):
        print('unused  %s\n          the run sends no copy that this fault names' % it)
    if claims:
        held, broken = expect_own(scenario, text, claims, limits_of(asked), faults)
        passed, failed = passed + held, failed + broken
    print('%d passed, %d failed' % (passed, failed))
    return 1 if failed else 0
