"""Workers that are processes of this machine, each of which is used for many items."""
from __future__ import annotations

import contextlib
import gc
import os
import signal
import threading
import time
from collections.abc import Callable, Iterable, Iterator
from types import FrameType
from typing import TYPE_CHECKING, Any, Generic

from motesim.runner.ending import share_group
from motesim.runner.pools import Done, Item, Result, Shared, fault_of, tried, until

if TYPE_CHECKING:
    from multiprocessing.connection import Connection

# The seconds between two checks of the clock while workers work, and between two looks for the parent process.
TICK, LOOK = 0.2, 1.0


def _end_group(number: int = 0, frame: FrameType | None = None) -> None:
    """Ends this worker with its runs."""
    os.killpg(0, signal.SIGKILL)


def _end_with(parent: int) -> None:
    """Ends this worker once its parent has ended, even if it works on an item."""
    while os.getppid() == parent:
        time.sleep(LOOK)
    _end_group()


def _serve(prepare: Callable[[Any], Callable[[Any], Any]], shared: Any, channel: Connection,
           others: list[Connection]) -> None:
    """A worker: reads items from the channel, and sends an answer for each."""
    share_group()
    # (a channel is closed once no process holds its other end)
    for other in others:
        other.close()
    signal.signal(signal.SIGINT, signal.SIG_IGN)
    signal.signal(signal.SIGHUP, _end_group)
    signal.signal(signal.SIGTERM, _end_group)
    threading.Thread(target=_end_with, args=[os.getppid()], daemon=True).start()
    gc.freeze()
    gc.enable()
    work, fault = tried(prepare, shared)
    while True:
        try:
            item = channel.recv()
        except (EOFError, OSError):
            return
        answer = tried(work, item) if work else (None, fault)
        try:
            channel.send(answer)
        except OSError:
            return
        except Exception as failure:
            channel.send((None, fault_of(failure)))


class _Worker:
    """A worker, as its parent process sees it."""

    def __init__(self, prepare: Callable[[Any], Callable[[Any], Any]], shared: Any, others: list[Connection]):
        # (it is imported only if it is needed, so that most commands start quickly)
        import multiprocessing
        # (a process with threads can't be forked safely: then `prepare` is a function of a module)
        is_forked = threading.active_count() == 1
        context: Any = multiprocessing.get_context('fork' if is_forked else 'forkserver')
        self.channel: Connection
        self.channel, there = context.Pipe()
        inherited = [*others, self.channel] if is_forked else []
        self.process = context.Process(target=_serve, args=(prepare, shared, there, inherited), daemon=True)
        self.process.start()
        there.close()
        self.item: Any = None
        self.is_busy = False
        self.since = 0.0

    def give(self, item: Any) -> None:
        """Sends an item to this worker, which has none."""
        self.item, self.is_busy, self.since = item, True, time.monotonic()
        # (if the worker has died, this is noticed when its answer is read)
        with contextlib.suppress(BrokenPipeError, ConnectionResetError):
            self.channel.send(item)

    def take(self) -> Done[Any, Any]:
        """The item that is done. Raises EOFError or OSError if the worker has died."""
        result, fault = self.channel.recv()
        self.is_busy = False
        return Done(self.item, result, fault)

    def end(self) -> None:
        """Ends a worker at once, with its runs."""
        if self.process.pid is not None:
            for kill in os.killpg, os.kill:
                try:
                    kill(self.process.pid, signal.SIGKILL)
                except OSError:
                    pass
        self.process.join()
        self.channel.close()


class Workers(Generic[Item, Result]):
    """A pool of processes of this machine, each of which has at most one item."""

    def __init__(self, prepare: Callable[[Shared], Callable[[Item], Result]], shared: Shared, most: int,
                 seconds: float):
        self.made_by, self.most, self.seconds = (prepare, shared), most, seconds
        self.workers: list[_Worker] = []

    def __enter__(self) -> Workers[Item, Result]:
        return self

    def __exit__(self, *fault: object) -> None:
        for worker in self.workers:
            worker.end()

    def results(self, items: Iterable[Item],
                is_over: Callable[[], bool] = lambda: False) -> Iterator[Done[Item, Result]]:
        from multiprocessing.connection import wait
        left = until(is_over, items)
        while busy := self.fed(left):
            by_channel: dict[Any, _Worker] = {it.channel: it for it in busy}
            for channel in wait(list(by_channel), TICK):
                worker = by_channel[channel]
                try:
                    done = worker.take()
                except (EOFError, OSError):
                    done = self.dropped(worker, 'its process was ended by the system, perhaps because memory ran out')
                self.fed(left)
                yield done
            late = time.monotonic() - self.seconds
            for worker in [it for it in self.workers if it.is_busy and it.since < late]:
                yield self.dropped(worker, 'not finished after %g seconds' % self.seconds)

    def fed(self, items: Iterator[Item]) -> list[_Worker]:
        """Gives items to workers that have none, and begins workers. Returns the workers that have items."""
        while (idle := next((it for it in self.workers if not it.is_busy), None)) or len(self.workers) < self.most:
            try:
                item = next(items)
            except StopIteration:
                break
            if not idle:
                idle = _Worker(*self.made_by, [it.channel for it in self.workers])
                self.workers.append(idle)
            idle.give(item)
        return [it for it in self.workers if it.is_busy]

    def dropped(self, worker: _Worker, fault: str) -> Done[Item, Result]:
        """Ends a worker; its item has the fault."""
        worker.end()
        self.workers.remove(worker)
        return Done(worker.item, None, fault)
