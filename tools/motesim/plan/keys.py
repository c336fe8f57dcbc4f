"""The tables and keys of a plan, and their limits. docs/use/EXPERIMENTS.md describes them."""
from __future__ import annotations

from motesim.plan.tables import Key, any_kind, needed, optional

MOST_BYTES, MOST_MOTES, MOST_LOSSES, MOST_PLACE = 1_048_576, 1_000, 10_000, 30_000
MOST_SEED = 2 ** 63 - 1

TOP = {'end': needed(int, 0, 1_000_000), 'medium': needed(dict),
       'places': any_kind('a table, or an array of tables, with a `rule`', True), 'queue': optional(dict, {}),
       'parameters': optional(dict, {}), 'other': any_kind('an array of tables', False),
       'loss': any_kind('an array of tables', False), 'sweep': optional(dict, {}),
       'plot': any_kind('an array of tables', False)}
MEDIUM = {'range': needed(int, 0, 100_000), 'base': needed(int, 1, 1_000_000), 'per': needed(int, 1, 1_000_000),
          'collide': optional(bool, False)}
COUNT, STEP = needed(int, 1, MOST_MOTES), needed(int, 0, 60_000)
PLACES: dict[str, dict[str, Key]] = {
    'grid': {'columns': COUNT, 'rows': COUNT, 'step': STEP},
    'line': {'count': COUNT, 'step': STEP},
    'ring': {'count': COUNT, 'radius': STEP},
    'random': {'count': COUNT, 'width': needed(int, 0, 60_000), 'height': needed(int, 0, 60_000),
               'seed': needed(int, 0, MOST_SEED), 'least': optional(int, 0, 0, 60_000),
               'connected': optional(bool, False)},
    'list': {'at': needed(list, 1, MOST_MOTES)},
    'csv': {'file': needed(str)},
}
CORNER = {'x': optional(int, 0, -MOST_PLACE, MOST_PLACE), 'y': optional(int, 0, -MOST_PLACE, MOST_PLACE)}
OTHER = {'motes': any_kind('numbers of motes, as in `"0, 3 to 5"`', True), 'program': needed(str)}
EVERY, NUMBER = needed(int, 1, 1_000_000), needed(int, 0, MOST_MOTES - 1)
LOSSES: dict[str, dict[str, Key]] = {
    'all': {'every': EVERY},
    'longer': {'than': needed(int, 0, 100_000), 'every': EVERY},
    'random': {'one_in': needed(int, 1, 1_000_000), 'seed': needed(int, 0, MOST_SEED), 'every': EVERY},
    'link': {'from': NUMBER, 'to': NUMBER, 'every': EVERY},
    'csv': {'file': needed(str)},
}
# The streams of random numbers of a seed: stream 0 is for the places, and this one for the losses. If several tables of
# an array draw numbers, each has streams of its own: these, plus a number for each such table before it.
LOSS_STREAM, OF_TABLE = 1, 1 << 32
