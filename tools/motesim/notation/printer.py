"""Writes trees of programs. A text that was read is written as it was, by `text_of` of its tokens; a tree that was
changed is written in the canonical layout of docs/use/LANGUAGE.md."""
from __future__ import annotations

from motesim.notation.tree import Block, Declaration, Expression, Not, Operation, Part, Program, Statement, Test

# The declarations that have a number.
NUMBERED = ('semaphore', 'var')


def written(it: Expression) -> str:
    """The text of an expression."""
    if isinstance(it, Test):
        return '%s(%s)' % (it.token.text, it.of)
    if isinstance(it, Not):
        return '!' + written(it.inner)
    if isinstance(it, Operation):
        return '(%s %s %s)' % (written(it.left), it.token.text, written(it.right))
    return it.token.text


def head_of(it: Statement) -> str:
    """A statement without its blocks and its semicolon."""
    words = [it.name, '='] if it.kind == '=' else [it.kind, *(name.text for name in it.names)]
    return ' '.join(words + ([written(it.value)] if it.value else []) + (['into', it.into] if it.into else []))


def head_of_part(it: Part) -> str:
    return '%s %s' % (it.kind, it.name) if it.name else it.kind


def _declared(it: Declaration) -> str:
    return '%s %s%s;' % (it.kind, it.name.text, ' = %d' % it.number if it.kind in NUMBERED else '')


def _rows(block: Block, indent: str) -> list[str]:
    rows = []
    for it in block:
        rows.append(indent + head_of(it) + (' {' if it.has_blocks else ';'))
        rows += _rows(it.block, indent + '  ')
        if it.otherwise is not None:
            rows += [indent + '} else {', *_rows(it.otherwise, indent + '  ')]
        if it.has_blocks:
            rows.append(indent + '}')
    return rows


def program_text(program: Program) -> str:
    """A program in the canonical layout."""
    rows = [*map(_declared, program.declared), 'process %s;' % ', '.join(it.process.text for it in program.codes)]
    if program.autostart:
        rows.append('autostart %s;' % ', '.join(program.starts))
    if program.receiver:
        rows.append('receiver %s;' % program.receiver.text)
    for code in program.codes:
        rows += ['code %s {' % code.process.text, *('  ' + _declared(it) for it in code.declared)]
        for part in code.parts:
            rows += ['  %s {' % head_of_part(part), *_rows(part.block, '    '), '  }']
        rows.append('}')
    return ''.join(row + '\n' for row in rows)
