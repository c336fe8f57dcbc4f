"""Warnings about waits: loops that never wait, timers that aren't set, and tests of an event that isn't there."""
from __future__ import annotations

from collections.abc import Iterator

from motesim.explain.warned import Warned, of_token
from motesim.notation.printer import head_of, written
from motesim.notation.tree import Block, Code, Expression, Not, Operation, Program, Statement
from motesim.notation.tree import expressions_of, is_number, parts_of, statements_of, tests_in, values_in
from motesim.notation.tree import Test as Asked

SETS = ('set', 'reset', 'restart_timer')
FOR_TIMER = ('yield_until', 'wait_until')
OF_EVENT = ('is', 'fired', 'gone')
OF_CALL = frozenset(('data', 'from', 'self'))
# Statements after which a test may have another value, though no variable in it is assigned.
CHANGES = frozenset(('synch', 'set', 'reset', 'restart_timer', 'stop', 'start', 'kill', 'signal'))


def of_waits(name: str, program: Program) -> Iterator[Warned]:
    for code in program.codes:
        for it in code.statements():
            if it.kind == 'while':
                yield from of_loop(name, it)
            yield from of_two_events(name, it.value)
        yield from of_timers(name, code)
        for part in code.parts:
            yield from of_other_events(name, part.block)


def of_loop(name: str, loop: Statement) -> Iterator[Warned]:
    assert loop.value is not None
    inner = list(statements_of(loop.block))
    waits = [it for it in inner if it.waits]
    if not waits and (loop.is_endless or is_still(loop, inner)):
        yield of_token('never-waits', name, loop.token, test=written(loop.value))
    elif loop.is_endless and len({(it.kind, it.value and written(it.value)) for it in waits}) == 1:
        wait = waits[0]
        if wait.kind == 'wait_until' and any(map(is_of_event, alternatives(wait.value))) or (
                wait.kind == 'wait_while' and wait.value and is_of_event(wait.value)):
            yield of_token('waits-at-once', name, wait.token, wait=wait.kind)
    elif len(inner) == 1 and inner[0].kind == 'pause' and tests_in(
            loop.value, *OF_EVENT, 'expired', 'running', 'count'):
        yield of_token('only-pauses', name, loop.token)


def is_still(loop: Statement, inner: list[Statement]) -> bool:
    """Returns whether nothing in a loop may change its test."""
    changed = {it.name for it in inner if it.kind == '='} | {it.into for it in inner}
    return not (loop.value and is_number(loop.value)) and not changed & values_in(loop.value) and not any(
        it.kind in CHANGES for it in inner)


def alternatives(test: Expression | None, sign: str = '||') -> list[Expression]:
    """The parts of a test that are joined by a sign."""
    if isinstance(test, Operation) and test.token.text == sign:
        return alternatives(test.left, sign) + alternatives(test.right, sign)
    return [test] if test else []


def is_of_event(test: Expression) -> bool:
    """Returns whether a test is only about the event of a call, so that it stays the same within the call."""
    all_tests = [it for it in parts_of(test) if isinstance(it, Asked)]
    return bool(all_tests) and all(it.token.text in OF_EVENT for it in all_tests) and values_in(test) <= OF_CALL


def of_timers(name: str, code: Code) -> Iterator[Warned]:
    sets = [(part, it) for part in code.parts for it in statements_of(part.block) if it.kind in SETS]
    callbacks = code.named('ctimer')
    for timer in (*(it.text for it in code.timers), *callbacks):
        its = [it for _, it in sets if it.name == timer]
        used = [it for part in code.parts for it in expressions_of(part.block) if isinstance(it, Asked) and (
            it.of == timer and it.token.text in ('fired', 'expired'))]
        if not any(it.kind == 'set' for it in its):
            places = [*(it.token for it in its), *(it.token for it in used), *(
                it for it in code.timers if it.text == timer), code.process]
            yield of_token('timer-never-set', name, places[0], timer=timer)
        elif all(part.kind == 'body' for part, it in sets if it.name == timer):
            yield from of_late(name, code, timer, its)
            yield from of_once(name, code, timer, its)
    for part in code.parts:
        for test in expressions_of(part.block) if part.kind != 'ctimer' else ():
            if isinstance(test, Asked) and test.token.text == 'fired' and test.of in callbacks:
                yield of_token('fired-of-ctimer', name, test.token, timer=test.of)


def waits_for(it: Statement, timer: str, *words: str) -> bool:
    """Returns whether a statement waits for this timer only."""
    test = it.value if it.kind in FOR_TIMER else None
    return isinstance(test, Asked) and test.of == timer and test.token.text in words


def surely_run(block: Block) -> Iterator[Statement]:
    """The statements of a block that are run if the block is: those in the block of an `if` may be skipped."""
    for it in block:
        yield it
        if it.is_endless:
            yield from surely_run(it.block)
            return


def of_late(name: str, code: Code, timer: str, sets: list[Statement]) -> Iterator[Warned]:
    """The first wait for a timer, if the timer is only set behind it."""
    first = next((it for it in surely_run(code.parts[-1].block) if waits_for(it, timer, 'fired')), None)
    if first and all(place(it) > place(first) for it in sets):
        yield of_token('timer-set-late', name, first.token, timer=timer)


def of_once(name: str, code: Code, timer: str, sets: list[Statement]) -> Iterator[Warned]:
    """The first wait for a timer in an endless loop, if the timer is only set above the loop."""
    for loop in surely_run(code.parts[-1].block):
        inner = list(statements_of(loop.block)) if loop.is_endless else []
        waits = [it for it in inner if waits_for(it, timer, 'fired', 'expired')]
        if waits and not any(it in sets for it in inner):
            yield of_token('timer-set-once', name, waits[0].token, timer=timer)
            return


def place(it: Statement) -> tuple[int, int]:
    return it.token.line, it.token.column


def of_other_events(name: str, block: Block) -> Iterator[Warned]:
    """The first test behind each wait, up to the next wait, that is about another event than the one of the wait."""
    for at, it in enumerate(block):
        for inner in it.block, it.otherwise or ():
            yield from of_other_events(name, inner)
        event = awaited(it, block)
        for part in behind(block[at + 1:]) if event else ():
            is_other = isinstance(part, Asked) and part.token.text in OF_EVENT and event_of(part) != event
            if is_other or event in ('timer', 'continue') and written(part) in ('data', 'from'):
                yield of_token('other-event', name, part.token, part=written(part), wait=head_of(it))
                break


def awaited(it: Statement, block: Block) -> str:
    """The event for which a statement waits, if it waits for one event only; otherwise an empty text."""
    if it.kind == 'pause':
        return 'continue'
    test = it.value if it.kind in FOR_TIMER else None
    if it.kind in ('wait_while', 'while') and isinstance(it.value, Not) and (
            it.kind == 'wait_while' or [one.kind for one in it.block] == ['yield']):
        test = it.value.inner
    if not isinstance(test, Asked):
        return ''
    if test.token.text == 'expired':
        # (a timer that was due long ago is still expired when a packet arrives)
        return 'timer' if any(one.kind in SETS and one.name == test.of for one in block) else ''
    return event_of(test)


def event_of(test: Asked) -> str:
    return {'fired': 'timer', 'gone': 'exited', 'is': test.of}.get(test.token.text, '')


def behind(block: Block) -> Iterator[Expression]:
    """The expressions of some statements, up to the next wait."""
    for it in block:
        inner = list(statements_of((it,)))
        if it.waits or it.kind == 'while' and any(one.waits for one in inner):
            return
        yield from parts_of(it.value)
        for branch in it.block, it.otherwise or ():
            yield from behind(branch)
        if any(one.waits for one in inner):
            return


def of_two_events(name: str, test: Expression | None) -> Iterator[Warned]:
    """Each test that asks for two events of one call."""
    for whole in outermost(test):
        sign = whole.token.text
        parts = [it.inner if isinstance(it, Not) else it for it in alternatives(whole, sign)
                 if isinstance(it, Not) == (sign == '||')]
        its = [it for it in parts if isinstance(it, Asked) and it.token.text in OF_EVENT]
        for at, other in enumerate(its):
            one = next((it for it in its[:at] if event_of(it) != event_of(other) or it.of != other.of and (
                it.token.text == other.token.text)), None)
            if one:
                yield of_token('two-events', name, other.token, one=written(one), other=written(other),
                               result='never' if sign == '&&' else 'always')
                break


def outermost(test: Expression | None, above: str = '') -> Iterator[Operation]:
    """The operations by `&&` and `||` that are no part of a longer one by the same sign."""
    if isinstance(test, Not):
        yield from outermost(test.inner)
    if isinstance(test, Operation):
        sign = test.token.text
        if sign in ('&&', '||') and sign != above:
            yield test
        yield from outermost(test.left, sign)
        yield from outermost(test.right, sign)
