"""Runs of `motesim` and `motecheck`: selects the program, and sets limits.

    from motesim.runner import Limits, Runner, pool

    Runner(limits=Limits(20)).answer(scenario)  one run, within limits of time, memory and bytes (process)
    pool(prepare, shared).results(items)        many pieces of work, several at once (pools)
"""
from typing import TYPE_CHECKING

from motesim.on_demand import on_demand

if TYPE_CHECKING:
    from motesim.runner.cluster import Cluster
    from motesim.runner.hosts import OfModule
    from motesim.runner.pools import Done, Pool, pool
    from motesim.runner.process import Answer, LimitMet, Limits, NoReport, Runner, Running, Stopped
    from motesim.runner.programs import ProgramFault, program_path
    from motesim.runner.workers import Workers

__all__ = ['Answer', 'Cluster', 'Done', 'LimitMet', 'Limits', 'NoReport', 'OfModule', 'Pool', 'ProgramFault', 'Runner',
           'Running', 'Stopped', 'Workers', 'pool', 'program_path']
__getattr__ = on_demand(__name__, {
    'cluster': ['Cluster'], 'hosts': ['OfModule'], 'pools': ['Done', 'Pool', 'pool'],
    'process': ['Answer', 'LimitMet', 'Limits', 'NoReport', 'Runner', 'Running', 'Stopped'],
    'programs': ['ProgramFault', 'program_path'], 'workers': ['Workers']})
