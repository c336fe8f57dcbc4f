"""The public functions of the crates that make a promise, and those with a mutant that shows that the promise binds.

A mutant shows this if the prover refuses it for a goal that it shows to be false, or accepts the mutant's harmless
twin. The functions without such a mutant are listed, with the reason, in docs/proof/without_mutants.tsv.
"""
from __future__ import annotations

import re
from collections.abc import Iterator
from pathlib import Path

from motesim.runner.programs import TOP
from project.mutants import log
from project.mutants.checks import CONTRACT, TWIN_ACCEPTED

LISTED = TOP / 'docs/proof/without_mutants.tsv'
# The reasons: there is no wrong body; the prover alone can accept no twin; and nobody has written one that binds.
REASONS = ONE_VALUE, BY_HAND, OPEN = 'one value fits', 'proved by hand', 'open'
HEAD_LINE = '# public functions without a mutant that shows that the promise binds: function, reason\n'
EXPORTS = re.compile(r'(?m)^pub use [\w:]+?::(?:\{([^}]*)\}|(\w+));')
HEAD = re.compile(r'( *)(pub )?(?:const )?fn (\w+)')
TYPE = re.compile(r'(?m)^pub (?:struct|enum) (\w+)')
IMPL = re.compile(r'impl(?:<.*?>)? (?:(?:\w+::)*(\w+)(?:<.*>)? for )?(\w+)(?:<.*>)? \{')


def is_of_tests(crate: Path) -> bool:
    return crate.name.startswith('test_') or crate.name.endswith('_tests')


def promises(file: Path, exported: set[str]) -> Iterator[tuple[str, str, str]]:
    """The exported functions in a file that have a clause of their own and a body: the type, '' if there is none; the
    trait that they are of, or ''; and the name. (Most functions of a trait have only the clauses of the trait.)"""
    lines, type_of, trait = file.read_text('utf-8').split('\n'), '', ''
    for at, line in enumerate(lines):
        if line.startswith(('impl', '}')):
            found = IMPL.match(line)
            trait, type_of = (found[1] or '', found[2]) if found else ('', '')
        head = HEAD.match(line)
        if head and (head[2] or trait):
            ends = (it for it in range(at, len(lines)) if lines[it].endswith(('{', '{}')))
            end = next(it for it in ends if re.match(head[1] + '(?! )', lines[it]))
            is_empty = lines[end].endswith('{}') or lines[end + 1] == head[1] + '}'
            is_promise = not is_empty and any(it.lstrip().startswith('ensures ') for it in lines[at:end + 1])
            if is_promise and (type_of or head[3]) in exported:
                yield type_of, trait, head[3]


def public_functions(top: Path = TOP) -> set[str]:
    """The public functions that make a promise, as checks print them, without laws: CRATE::MODULE::NAME, with TYPE or
    TYPETRAIT before NAME. For a function of a type, the module is the one that declares the type."""
    found = set()
    for root in (it for it in sorted(top.glob('crates/*/src/lib.rt')) if not is_of_tests(it.parents[1])):
        names = {it.strip() for both in EXPORTS.findall(root.read_text('utf-8')) for it in ','.join(both).split(',')}
        modules = {it: '::'.join(it.relative_to(root.parent).with_suffix('').parts) for it in root.parent.rglob('*.rt')}
        of_types = {name: module for it, module in modules.items() for name in TYPE.findall(it.read_text('utf-8'))}
        for file, module in modules.items():
            for type_of, trait, name in promises(file, names) if file.stem != 'laws' else ():
                place = [of_types.get(type_of, module), type_of + trait, name]
                found.add('::'.join([root.parents[1].name, *filter(None, place)]))
    return found


def with_evidence() -> set[str]:
    """The functions with a mutant that was refused for a goal of a contract that is false, or that has a harmless twin
    which was accepted."""
    return {it.verdict.function for it in log.noted().values() if it.verdict.kind == CONTRACT
            and ('(false)' in it.verdict.why or it.verdict.why.startswith(TWIN_ACCEPTED))}


def listed() -> dict[str, str]:
    """The functions that are listed without such a mutant, each with the reason."""
    rows = LISTED.read_text('utf-8').splitlines() if LISTED.is_file() else []
    return dict(it.split('\t') for it in rows if not it.startswith('#'))


def is_by_hand(function: str, top: Path = TOP) -> bool:
    """Returns whether goals of a function's contract are proved by hand."""
    crate, *place = function.split('::')
    answers = top.joinpath('crates', crate, 'proofs', *place, 'Answers.antt')
    return answers.is_file() and 'goal.returns' in answers.read_text('utf-8')


def reason(function: str, known: str | None) -> str:
    """The reason why a function has no such mutant, by that which the list has."""
    return ONE_VALUE if known == ONE_VALUE else BY_HAND if is_by_hand(function) else OPEN


def note() -> None:
    """Deletes the listed functions that have such a mutant now, or are gone, and lists the others."""
    lacking, known = public_functions() - with_evidence(), listed()
    rows = ('%s\t%s\n' % (it, reason(it, known.get(it))) for it in sorted(lacking))
    LISTED.write_text(HEAD_LINE + ''.join(rows), 'utf-8')


if __name__ == '__main__':
    note()
