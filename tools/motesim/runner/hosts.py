"""Processes of node that run the modules, one run after another: web/worker.js, which says what goes over its pipes.

A host compiles a module once. It is kept for the next run of this process unless its run was ended, or it has taken
much memory; several threads have several hosts.
"""
from __future__ import annotations

import contextlib
import json
import os
import struct
import subprocess
from collections.abc import Callable, Iterable, Iterator, Mapping
from pathlib import Path

from motesim.runner import ending
from motesim.runner.process import Limits, Running
from motesim.runner.programs import worker_of
from motesim.runner.usage import memory_of, processor_seconds_of

# The streams of a program, and the end of its run.
END, REPORT = 0, 1
HEAD = struct.Struct('<BI')
NO_ANSWER = 'node ended without an answer; the module needs node 18 or newer'
# The bytes of memory of a host that isn't used again.
MUCH = 400 << 20

_idle: list[subprocess.Popen[bytes]] = []


def begin(program: Path, words: Iterable[str], files: Mapping[str, bytes]) -> subprocess.Popen[bytes]:
    """The host of a run that has begun, of the module that this script runs."""
    called = ['node', str(worker_of(program))]
    head = json.dumps({'program': program.resolve().name, 'words': list(words),
                       'files': [(it, len(data)) for it, data in files.items()]})
    asked = b''.join([struct.pack('<I', len(head)), head.encode('ascii'), *files.values()])
    for host in [it for it in _idle if it.args == called]:
        # (another thread may have taken it, and it may have been ended since its last run)
        with contextlib.suppress(ValueError):
            _idle.remove(host)
            if _is_told(host, asked):
                return host
    host = ending.started(lambda: subprocess.Popen(
        called, bufsize=0, stdin=subprocess.PIPE, stdout=subprocess.PIPE, stderr=subprocess.DEVNULL,
        process_group=ending.group()))
    if not _is_told(host, asked):
        raise OSError(0, NO_ANSWER)
    return host


def _is_told(host: subprocess.Popen[bytes], asked: bytes) -> bool:
    """Sends a run to a host; returns whether the host is there."""
    assert host.stdin
    try:
        left = memoryview(asked)
        while left:
            left = left[os.write(host.stdin.fileno(), left):]
        return True
    except BrokenPipeError:
        ending.end(host)
        return False


def give_back(host: subprocess.Popen[bytes]) -> None:
    """Keeps a host whose run has ended."""
    if memory_of(host.pid) < MUCH:
        _idle.append(host)
    else:
        ending.end(host)


def frames(pieces: Iterable[bytes]) -> Iterator[tuple[int, bytes | int]]:
    """The parts of an answer: the pieces that a program writes to its streams, and last the status."""
    left = bytearray()
    for piece in pieces:
        left += piece
        while len(left) >= HEAD.size:
            kind, number = HEAD.unpack_from(left)
            if kind == END:
                yield kind, number
                return
            if len(left) < HEAD.size + number:
                break
            yield kind, bytes(left[HEAD.size:HEAD.size + number])
            del left[:HEAD.size + number]


class OfModule(Running):
    """The run of a module, in a process of node that makes other runs too."""

    def __init__(self, program: Path, scenario: bytes, words: Iterable[str], files: Mapping[str, bytes], limits: Limits,
                 asks_end: Callable[[], bool]):
        super().__init__(begin(program, words, {'/dev/stdin': scenario, **files}), limits, asks_end)
        self._before = processor_seconds_of(self.pid)
        self._is_whole = False

    def _read(self) -> None:
        for kind, data in frames(it for _, it in self._pieces(self._process.stdout)):
            if isinstance(data, int):
                self._status, self._is_whole = data, True
            else:
                self._take(kind == REPORT, data)

    def _end(self) -> None:
        if self._is_whole and not self._why:
            give_back(self._process)
        else:
            ending.end(self._process)
            self._status = self._process.returncode or self._status
            if self._status > 0:
                self._fault += b'motesim: ' + NO_ANSWER.encode()


def _forget() -> None:
    """Closes the pipes of hosts in a process that was forked: the hosts are those of its parent."""
    for host in _idle:
        host.returncode = 0
        ending.close(host)
    _idle.clear()


os.register_at_fork(after_in_child=_forget)
