"""Advice on a fault of a program: what other languages have, the nearest name, a missing sign, or a declaration.

A correction has edits only if the program has no fault with them, or its first fault is further on. It corrects all
faults of a statement that are alike.
"""
from __future__ import annotations

from collections.abc import Iterator, Sequence

from motesim.explain.edits import Correction, Edit, edit_between, hint, replaced
from motesim.explain.habits import of_line
from motesim.explain.structure import late_part, open_block, operators, without_parameters
from motesim.notation.faults import ProgramError
from motesim.notation.grammar import OPERATORS, STATEMENTS, TESTS
from motesim.notation.reader import find_fault, read_program
from motesim.notation.tokens import Token
from motesim.notation.parentheses import rewritten
from motesim.text import nearest

# The kinds of faults that more than the rule and the allowed words are said about.
BAD_TOKEN, UNEXPECTED, UNKNOWN_NAME, BAD_TARGET = 1, 2, 3, 10
# What the parts of a statement's form are in an example.
PARTS = {'E': 'x', 'B': '{ .. }', 'THREAD': 'th', 'SEMAPHORE': 's', 'PROCESS': 'p', 'SENT': 'msg', 'CAST': 'msg',
         'INTO': 'into y', 'TIMER': 't'}
DECLARED = {'event': 'event e;', 'semaphore': 'semaphore s = 0;', 'process': 'process a, b;',
            'autostart': 'autostart a, b;', 'receiver': 'receiver a;', 'code': 'code a { .. body { .. } }',
            'var': 'var n = 0;', 'etimer': 'etimer t;', 'ctimer': 'ctimer t { .. }', 'thread': 'thread th { .. }',
            'onpoll': 'onpoll { .. }', 'onexit': 'onexit { .. }', 'body': 'body { .. }'}
# For each kind of name that a head of a code declares, its declaration.
AT_HEAD = {'variable': 'var %s = 0;', 'timer': 'etimer %s;'}
ABOVE = {'event': 'event %s;', 'semaphore': 'semaphore %s = 0;'}
# Values under the names that they have elsewhere.
MEANT = {'sender': 'from', 'source': 'from', 'payload': 'data', 'time': 'now', 'id': 'self'}
SIGNS = (';', '(', ')', '{', '}', '=')
# What declares one name at a time.
OF_ONE_NAME = ('event', 'semaphore', 'var', 'etimer')
OF_ONE_VALUE = tuple(word for word, it in STATEMENTS.items() if it.parts == ('E',))


def advice(source: str, fault: ProgramError) -> Correction | None:
    """The most likely correction of a fault; without one, advice or an example. The text may have parameters of a
    plan, for each of which the fault's text has a number."""
    plain, back = without_parameters(source)
    found = _advice(plain, fault)
    return found._replace(
        edits=tuple(it._replace(lines=tuple(map(back, it.lines))) for it in found.edits),
        facts={name: back(its) if isinstance(its, str) else its
               for name, its in found.facts.items()}) if found else None


def _advice(source: str, fault: ProgramError) -> Correction | None:
    if found := _first(source, fault):
        return _with_others(source, fault, found) if found.edits else found
    return _example(source, fault) if fault.kind == UNEXPECTED else None


def _first(source: str, fault: ProgramError) -> Correction | None:
    return next((it for it in _attempts(source, fault) if not it.edits or is_better(source, fault, it) and (
        it.facts.get('sign') != ',' or not _has_another(source, fault, it.applied(source)))), None)


def _has_another(source: str, fault: ProgramError, text: str) -> bool:
    """Returns whether a corrected text has another fault in the statement of the source's fault."""
    other = find_fault(text)
    return other is not None and _is_in_statement(source, fault, text, other)


def _with_others(source: str, fault: ProgramError, it: Correction) -> Correction:
    """A correction together with those of the next faults in the statement that have the same hint."""
    text = it.applied(source)
    while (other := find_fault(text)) and _is_in_statement(source, fault, text, other) and (
            more := _first(text, other)) and more.edits and (more.code, more.facts) == (it.code, it.facts):
        text = more.applied(text)
        it = it._replace(edits=(edit_between(source, text),))
    return it


def _is_in_statement(source: str, fault: ProgramError, text: str, other: ProgramError) -> bool:
    """Returns whether the next fault, that of a corrected text, is in the statement that has the source's fault."""
    tokens, after = read_program(source).tokens, read_program(text).tokens
    between = tokens[_index(tokens, fault.token):len(tokens) - len(after) + _index(after, other.token)]
    return not any(it.text in (';', '{', '}') for it in between)


def is_better(source: str, fault: ProgramError, it: Correction) -> bool:
    """Returns whether a program has no fault with a correction, or its first fault is further on."""
    changed = it.applied(source)
    other = find_fault(changed)
    return other is None or _left(changed, other) < _left(source, fault)


def _left(source: str, fault: ProgramError) -> tuple[int, int]:
    """The number of lines below a fault, and of characters behind it."""
    rows, token = source.split('\n'), fault.token
    return len(rows) - token.line, len(rows[token.line - 1]) - token.column


def _attempts(source: str, fault: ProgramError) -> Iterator[Correction]:
    tokens = read_program(source).tokens
    at = _index(tokens, fault.token)
    if fault.kind in (UNEXPECTED, UNKNOWN_NAME):
        yield from _word_operators(source, tokens, at, fault)
    if fault.kind == UNEXPECTED:
        yield from late_part(source, tokens, at, fault)
    yield from of_line(source, fault)
    if fault.kind == BAD_TOKEN:
        yield from _small_letters(source, fault.token)
    if fault.kind == UNEXPECTED:
        yield from open_block(source, tokens)
        yield from _signs(source, tokens, at, fault)
    if fault.kind == BAD_TARGET:
        yield from _questions(source, fault)
    if fault.kind in (UNEXPECTED, UNKNOWN_NAME, BAD_TARGET):
        yield from _nearest(source, fault)
    if fault.kind == UNKNOWN_NAME:
        yield from _declarations(source, fault)


def _index(tokens: Sequence[Token], token: Token) -> int:
    """The index of a token. (A parameter of a plan stands for a number in the text, and has other tokens.)"""
    return next((at for at, it in enumerate(tokens) if (it.line, it.column) >= (token.line, token.column)), -1) % len(
        tokens)


def _word_operators(source: str, tokens: Sequence[Token], at: int, fault: ProgramError) -> Iterator[Correction]:
    """A statement with operators instead of words, and with what else these need there, such as parentheses."""
    text = operators(source, tokens, at)
    while text != source and (other := find_fault(text)) and _is_in_statement(source, fault, text, other) and (
            more := _first(text, other)) and more.edits:
        text = more.applied(text)
    if text != source:
        yield hint('word-operators', edit_between(source, text))


def _questions(source: str, fault: ProgramError) -> Iterator[Correction]:
    """A test about a name that isn't a value."""
    token = fault.token
    for test in (*TESTS, 'is'):
        whole = '%s(%s)' % (test, token.text)
        yield hint('question', replaced(source, token.line, token.column, token.column + len(token.text), whole),
                   name=token.text, whole=whole)


def _small_letters(source: str, token: Token) -> Iterator[Correction]:
    row = source.split('\n')[token.line - 1]
    begin = end = token.column
    while begin and (row[begin - 1].isalnum() or row[begin - 1] == '_'):
        begin -= 1
    while end < len(row) and (row[end].isalnum() or row[end] == '_'):
        end += 1
    word = row[begin:end]
    if word != word.lower():
        small = word.lower()
        yield hint('small-letters', replaced(source, token.line, begin, end, small), name=small)


def _signs(source: str, tokens: Sequence[Token], at: int, fault: ProgramError) -> Iterator[Correction]:
    """Another sign instead of the wrong one, a sign before it, or the text without it; parentheses; and declarations
    of several names."""
    here, last = tokens[at], tokens[max(at - 1, 0)]
    found = rewritten(tokens, at) if here.text in (*OPERATORS, '(', ')') and not fault.allows(here.text) else None
    if found:
        first, last_of, whole = found
        blank = ' ' * source.split('\n')[first.line - 1][:first.column].endswith(tuple(STATEMENTS))
        edit = replaced(source, first.line, first.column, last_of.column + len(last_of.text), blank + whole)
        yield hint('two-values' if here.text in OPERATORS else 'one-value',
                   *(edit,) if first.line == last_of.line else (), sign=here.text, whole=whole)
    word = next((it.text for it in reversed(tokens[:at]) if it.text in (*DECLARED, *STATEMENTS, ';', '{', '}')), '')
    what = 'name' if word in OF_ONE_NAME else 'value' if word in OF_ONE_VALUE else ''
    if here.text == ',' and what:
        yield hint('one-each', replaced(source, here.line, here.column, here.column + 1, '; ' + word), word=word,
                   what=what)
    end = last.column + len(last.text)
    for sign in SIGNS:
        if fault.allows(sign) and at:
            yield hint('missing', replaced(source, last.line, end, end, ' {' if sign == '{' else sign), sign=sign,
                       word=last.text)
    for sign in ('=', '=='):
        if fault.allows(sign) and here.text in ('=', '=='):
            yield hint('equals', replaced(source, here.line, here.column, here.column + len(here.text), sign))
    if here.text in (*SIGNS, ','):
        yield hint('too-many', replaced(source, here.line, here.column, here.column + 1, ''), sign=here.text)


def _nearest(source: str, fault: ProgramError) -> Iterator[Correction]:
    """The allowed word that is most similar to the one that is there."""
    word, token = fault.token.text, fault.token
    known = [name for it in fault.may for name in it.names]
    # (a call can only be a test: there are no functions)
    is_call = source.split('\n')[token.line - 1][token.column + len(word):].lstrip().startswith('(')
    names = [it for it in known if it.isidentifier() and (not is_call or it in (*TESTS, 'is'))]
    like = (MEANT[word] if MEANT.get(word) in names else nearest(word, names)) if word else None
    if like:
        yield hint('similar', replaced(source, token.line, token.column, token.column + len(word), like), name=like)


def _declarations(source: str, fault: ProgramError) -> Iterator[Correction]:
    """The declaration of an unknown name: at the head of its code, or above the processes."""
    read, name, kinds = read_program(source), fault.token.text, [it.kind for it in fault.may]
    first = read.tokens[read.processes[0].number - 1].line
    for kind, form in ABOVE.items():
        if kind in kinds:
            yield hint('declare-above', Edit(first, first - 1, (form % name,)), kind=kind)
    # (a word at the beginning of a statement is a variable if an assignment follows)
    is_used = not fault.allows('print') or read.tokens[fault.token.number + 1].text == '='
    for kind, form in AT_HEAD.items() if read.codes and is_used else ():
        if kind in kinds:
            code = read.codes[-1]
            above = [it.last for it in code.declared if it.kind == 'var' and kind == 'timer']
            line = (above[-1] if above else read.tokens[code.process.number + 1]).line + 1
            yield hint('declare-in-code', Edit(line, line - 1, ('  ' + form % name,)), kind=kind,
                       process=code.process.text)


def _example(source: str, fault: ProgramError) -> Correction | None:
    """An example of the statement or the declaration that has a fault."""
    tokens = read_program(source).tokens
    at = _index(tokens, fault.token)
    while at and tokens[at].text not in STATEMENTS and tokens[at].text not in DECLARED:
        if tokens[at - 1].text in ('{', '}', ';'):
            return None
        at -= 1
    form = form_of(tokens[at].text)
    return hint('example', word=tokens[at].text, form=form) if form else None


def form_of(word: str) -> str | None:
    """An example of the statement or the declaration that begins with a word."""
    if word not in STATEMENTS:
        return DECLARED.get(word)
    form = STATEMENTS[word].form
    return ' '.join(PARTS.get(it, it) for it in form.rstrip(';').split()) + form[len(form.rstrip(';')):]
