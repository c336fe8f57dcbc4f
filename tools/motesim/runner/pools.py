"""Many pieces of work, several at once: by processes of this machine, or by the workers of a Dask cluster.

    with pool(prepare, shared, processes=4) as workers:
        for done in workers.results(items):
            print(done.item, done.fault or done.result)

`prepare(shared)` returns the function that does the work of one item; each worker calls it once. An error in one item
is the fault of only this item; the others continue.
"""
from __future__ import annotations

import math
import os
from collections.abc import Callable, Iterable, Iterator
from dataclasses import dataclass
from typing import Generic, Protocol, TypeVar

from motesim import runner
from motesim.faults import Fault

Shared = TypeVar('Shared')
Item = TypeVar('Item')
Result = TypeVar('Result')


@dataclass(frozen=True)
class Done(Generic[Item, Result]):
    """An item with its result; or without a result, with its fault in one line."""
    item: Item
    result: Result | None
    fault: str = ''


class Pool(Protocol[Item, Result]):
    """Workers that do the same work for one series of items after another."""

    def __enter__(self) -> Pool[Item, Result]:
        """Begins a block at whose end all workers end."""

    def __exit__(self, *fault: object) -> None:
        """Ends the workers of this machine at once, with their runs, or forgets those of a cluster."""

    def results(self, items: Iterable[Item],
                is_over: Callable[[], bool] = lambda: False) -> Iterator[Done[Item, Result]]:
        """The results of the items, in the order in which they arrive. Items are read when workers become free. Once
        `is_over()` is true, no further items are read; those that workers have end."""


def pool(prepare: Callable[[Shared], Callable[[Item], Result]], shared: Shared, processes: int | None = None,
         address: str | None = None, seconds: float = math.inf) -> Pool[Item, Result]:
    """The workers of the Dask cluster at an address; without one, this many processes of this machine, or as many as it
    has processors. A process that needs more than these seconds for an item is ended, and another one replaces it."""
    if address:
        return runner.Cluster(address, prepare, shared)
    return runner.Workers(prepare, shared, processes or os.cpu_count() or 1, seconds)


def fault_of(fault: BaseException) -> str:
    """An exception in one line."""
    if isinstance(fault, Fault):
        return str(fault)
    if isinstance(fault, MemoryError):
        return 'out of memory'
    return ' '.join(('%s: %s' % (type(fault).__name__, fault)).split()).rstrip(': ')


def tried(work: Callable[[Item], Result], item: Item) -> tuple[Result | None, str]:
    """The result of work, or its fault."""
    try:
        return work(item), ''
    except BaseException as fault:
        return None, fault_of(fault)


def until(is_over: Callable[[], bool], items: Iterable[Item]) -> Iterator[Item]:
    """The items that are read before `is_over()` is true."""
    rest = iter(items)
    while not is_over():
        try:
            yield next(rest)
        except StopIteration:
            return
