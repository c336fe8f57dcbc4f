"""Statistics of sweeps: tables, pictures and comparisons.

    from motesim.analysis import frame

    runs = frame('beacon.csv')          # a pandas DataFrame: a row for each run
"""
from motesim.analysis.frames import frame

__all__ = ['frame']
