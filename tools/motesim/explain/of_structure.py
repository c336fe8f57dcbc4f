"""Warnings about processes that never run, and about packets and events that reach nobody."""
from __future__ import annotations

from collections.abc import Iterator

from motesim.explain.warned import Warned, of_token
from motesim.notation.tree import Code, Program, expressions_of, statements_of, tests_in, values_in
from motesim.notation.tree import Test as Asked


def asked_in(code: Code, event: str) -> list[Asked]:
    """The tests of a code whether its process is called with an event."""
    return [it for part in code.parts for it in expressions_of(part.block)
            if isinstance(it, Asked) and it.token.text == 'is' and it.of == event]


def posted_in(program: Program) -> set[str]:
    """The events that a program posts."""
    return {it.event for it in program.statements() if it.event}


def of_structure(name: str, program: Program) -> Iterator[Warned]:
    yield from of_start(name, program)
    yield from of_receiver(name, program)
    for event in (*(it.text for it in program.events), 'msg', 'com'):
        tests = [it for code in program.codes for it in asked_in(code, event)]
        if tests and event not in posted_in(program):
            yield of_token('event-never-posted', name, tests[0].token, event=event)


def of_start(name: str, program: Program) -> Iterator[Warned]:
    if not program.autostart:
        yield of_token('no-autostart', name, program.processes[0])
        return
    started = {*program.starts, *(it.name for it in program.statements() if it.kind == 'start')}
    for process in program.processes:
        if process.text not in started:
            yield of_token('never-started', name, process, process=process.text)


def of_receiver(name: str, program: Program) -> Iterator[Warned]:
    waits = {code.process.text: tests for code in program.codes if (tests := asked_in(code, 'packet'))}
    if program.receiver is None:
        for process, tests in list(waits.items())[:1]:
            yield of_token('no-receiver', name, tests[0].token, process=process)
        return
    if 'packet' in posted_in(program):
        return
    receiver = program.receiver.text
    for process, tests in waits.items():
        if process != receiver:
            yield of_token('not-the-receiver', name, tests[0].token, process=process, receiver=receiver)
    code = next(it for it in program.codes if it.process.text == receiver)
    values = {word for part in code.parts for it in statements_of(part.block) for word in values_in(it.value)}
    # (what follows a `yield` may be meant for packets)
    is_called = any(it.kind == 'yield' for it in code.statements()) and not is_idle(code)
    if receiver not in waits and not values & {'data', 'from'} and not is_called:
        yield of_token('ignores-packets', name, program.receiver, receiver=receiver)
    else:
        yield from of_missed(name, code)


def is_idle(code: Code) -> bool:
    """Returns whether nothing follows any `yield` of a code in its loop."""
    return all(len(it.block) == 1 for it in code.statements() if any(inner.kind == 'yield' for inner in it.block))


def of_missed(name: str, code: Code) -> Iterator[Warned]:
    """The first wait for a timer in a loop that also waits for packets."""
    for loop in code.statements():
        waits = [it for it in statements_of(loop.block) if it.waits and it.value] if loop.kind == 'while' else []
        heard = [it for it in waits if any(test.of == 'packet' for test in tests_in(it.value, 'is'))]
        for it in waits:
            timers = tests_in(it.value, 'fired', 'expired')
            if heard and it not in heard and timers:
                yield of_token('misses-packets', name, it.token, line=heard[0].token.line,
                               test='fired(%s)' % timers[0].of)
                return
