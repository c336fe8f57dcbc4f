"""A deterministic simulator of wireless sensor nodes, for scripts and notebooks.

    import motesim

    run = motesim.run('examples/flooding.toml')         # or bytes, or motesim.Plan.read('net.plan.toml')
    for mote in run.report.motes:
        print(mote.number, [line.value for line in mote.lines if line.kind == 'print'])
    for kept in motesim.expect(run, ['mote 6 prints flood 1 by 60', 'no mote halts']):
        print(kept.expectation, kept.holds, kept.why)
    assert run.mote(6).prints('flood 1 by 60') and run.expect('no mote halts')
    print(motesim.why(run, 'mote 6 prints flood 1'))
    print(motesim.search('examples/news.toml', 'every mote but 0 prints news', links=True, at_most=2).found)
    print(motesim.compare(run, motesim.run('examples/tdma.toml')).text)

    run       runs a scenario: a `Run` with `report` and `scenario`        Limits    the limits of a run
    expect    checks which expectations hold: a list of `Kept`             Fault     an error, with its message
    why       explains a line, or why it isn't there: a text               Plan      makes scenarios by rule
    search    the smallest sets of faults that break expectations          Report    traces and the log of the medium
    compare   shows how two runs diverge: a `Comparison`                   Scenario  motes, places, links, losses

The packages in this folder are for the commands in tools/. docs/use/REPORT.md, 'A script in Python', shows a script.
"""
import sys
from typing import TYPE_CHECKING

if sys.version_info < (3, 11):
    sys.stderr.write('motesim: the tools need Python 3.11 or newer, and this is %d.%d\n' % sys.version_info[:2])
    sys.exit(2)

from motesim.on_demand import on_demand

if TYPE_CHECKING:
    from motesim.api.answers import Comparison, Kept, Searched
    from motesim.api.compare import compare
    from motesim.api.expect import expect
    from motesim.api.run import Run, run
    from motesim.api.search import search
    from motesim.api.why import why
    from motesim.faults import Fault
    from motesim.plan.plan import Plan
    from motesim.report import Report
    from motesim.runner import Limits
    from motesim.scenario import Scenario

__all__ = ['Comparison', 'Fault', 'Kept', 'Limits', 'Plan', 'Report', 'Run', 'Scenario', 'Searched', 'compare',
           'expect', 'run', 'search', 'why']
__getattr__ = on_demand(__name__, {
    'api.answers': ['Comparison', 'Kept', 'Searched'], 'api.compare': ['compare'], 'api.expect': ['expect'],
    'api.run': ['Run', 'run'], 'api.search': ['search'], 'api.why': ['why'], 'faults': ['Fault'], 'plan.plan': ['Plan'],
    'report': ['Report'], 'runner': ['Limits'], 'scenario': ['Scenario']})


def __dir__() -> list[str]:
    return sorted({*globals(), *__all__})
