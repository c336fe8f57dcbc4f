"""Tries mutants of the crates' functions, several in one check: the prover must refuse each because of its effect.

A mutant is a file NAME.edit of crates/CRATE/must-fail, gate-bodies or wrong-bodies (docs/proof/WRONG_BODIES.md). A
mutant counts as refused if the prover doesn't prove some goal of a contract, and if nobody has written a proof of this
goal by hand. If the mutant has a harmless twin, the prover must accept the twin. A refusal says little about the
contract if the twin is refused too, if the only goals are those of safety or of an invariant, if only a proof by hand
no longer fits, or if the prover stops at a limit. Then the mutant is reported as open, and counts as skipped, until
somebody rewrites it so that the contract decides. A control comes first: it has to prove the crate without an edit.

The tool uses the libraries in crates/*/out, and first builds those that are missing or outdated. With --built it builds
none, because rt ci has just built them. Each verdict is noted in docs/proof/wrong_bodies.tsv, with a digest of the
texts that it is about. As many checks run in parallel as processors and memory allow, or as RT_JOBS says. The last
line is `N passed, M failed, K skipped`. The status is 1 if a mutant failed, and otherwise 0.
"""
from __future__ import annotations

import argparse
import hashlib
import math
import os
from collections.abc import Callable, Mapping, Sequence
from functools import partial
from itertools import groupby
from pathlib import Path
from threading import Lock
from typing import Any

from motesim.command import command
from motesim.faults import Fault
from motesim.runner.programs import TOP
from motesim.words import words_of
from project import kit
from project.mutants import log, public
from project.mutants.checks import CONTRACT, KINDS, NOT_REFUSED, OPEN, TWIN_ACCEPTED, UNKNOWN, Trial, Verdict
from project.mutants.edits import Edit, edits_of, groups
from project.tree import commit

GATE = 'gate-bodies'
# The most processor seconds that the gate's mutants may need; the checks of a batch, that of the control and that of
# the harmless twins included; and the processor seconds of a check of which the log says nothing.
SECONDS, CHECKS, UNKNOWN_SECONDS = 480, 3, 60


def words() -> argparse.Namespace:
    asked = words_of(__doc__)
    asked.add_argument('--built', action='store_true', help='use the libraries as rt ci has left them, and build none')
    asked.add_argument('--changed', action='store_true',
                       help='leave out mutants that were refused, or left open, with exactly the same texts')
    asked.add_argument('--gate', action='store_true',
                       help="try the gate's choice: batches that need at most %d processor minutes by the log, first "
                            "those with mutants in %s that have changed" % (SECONDS // 60, GATE))
    asked.add_argument('names', nargs='*', metavar='CRATE or CRATE/NAME', help='crates, or mutants (all)')
    found: argparse.Namespace = asked.parse_args()
    return found


# The choice.

def named(edits: Sequence[Edit], names: Sequence[str]) -> list[Edit]:
    """The mutants of these names, or all."""
    for it in set(names).difference(*((edit.name, edit.crate.name) for edit in edits)):
        raise Fault('there is no mutant %s, and no crate of this name with mutants' % it)
    return [it for it in edits if not names or it.name in names or it.crate.name in names]


def batches(edits: Sequence[Edit], new: Sequence[Edit], seed: str) -> list[list[Edit]]:
    """Mutants in the batches and the order in which the gate tries them: crate by crate, because each crate needs a
    control. First the crates with new mutants, and in each crate the batches with them; the seed decides the rest."""
    def place(edit: Edit) -> list[bytes]:
        return [hashlib.sha256((seed + it).encode()).digest() for it in (edit.crate.name, edit.name)]

    first = {edit.crate.name for edit in new}
    ordered = sorted(edits, key=lambda it: (it.crate.name not in first, place(it)[0], it not in new, place(it)[1]))
    return [group for _, of_crate in groupby(ordered, lambda it: it.crate) for group in groups([*of_crate])]


def without_open(edits: Sequence[Edit]) -> list[Edit]:
    """The mutants without those that were left open with the present texts: another trial has the same result."""
    kept = log.noted()
    return [it for it in edits if it.name not in kept or kept[it.name].verdict.kind not in OPEN
            or kept[it.name].digest != log.digest(it)]


def affordable(of_gate: Sequence[list[Edit]]) -> list[Edit]:
    """The mutants of these batches, without the batches that would exceed the processor seconds."""
    seconds, left, chosen = log.seconds(), SECONDS, list[Edit]()
    for batch in of_gate:
        needed = CHECKS * seconds.get(batch[0].crate.name, UNKNOWN_SECONDS)
        if needed <= left:
            left -= needed
            chosen += batch
    return chosen


def of_gate(edits: Sequence[Edit]) -> list[Edit]:
    """The mutants that the gate tries, without those that are known to be open: batches that need at most so many
    processor seconds by the log, and first those with mutants of the gate that have changed."""
    seed, new = commit(), log.changed(it for it in edits if it.file.parent.name == GATE)
    decided = [*dict.fromkeys([*without_open(edits), *new])]
    chosen = affordable(batches(decided, new, seed))
    dear = sorted(crate for crate, it in log.seconds().items() if CHECKS * it > SECONDS)
    print('%d of %d in %s that have changed, and %d others, chosen by the commit %s; not tried: %d that are open%s' % (
        len([it for it in chosen if it in new]), len(new), GATE, len([it for it in chosen if it not in new]), seed[:8],
        len(edits) - len(decided), ''.join(', and those of %s, of which a batch needs too long' % it for it in dear)),
        flush=True)
    return [it for it in edits if it in chosen]


# The trial.

def check_libraries(crates: Sequence[kit.Crate]) -> None:
    lacking = {it.name for crate in crates for it in crate.below() if not (Path(it.rlib) / 'format').is_file()}
    if lacking:
        raise Fault('these libraries are not built: %s' % ' '.join(sorted(lacking)))


def print_verdicts(found: Mapping[Edit, Verdict]) -> None:
    kinds = {CONTRACT: 'refused', UNKNOWN: 'NOT TRIED'}
    for edit, (kind, function, why) in found.items():
        shown = kinds.get(kind, 'open (%s)' % kind if kind in OPEN else kind.upper())
        print(': '.join(it for it in (edit.name, shown, function, why[:200]) if it), flush=True)


def processor_seconds() -> float:
    """The processor seconds of the checks that have ended."""
    return os.times().children_user + os.times().children_system


def tasks_of(trial: Trial, end: Callable[[Trial, int], None]) -> dict[Any, kit.Task]:
    """The control, the groups of mutants, and the end of a trial."""
    crate, name = trial.crate, trial.crate.name
    judged = {(name, 'edits', number): kit.Task(crate, [(name, 'seed')], partial(trial.judge, group))
              for number, group in enumerate(groups(trial.edits))}
    return {(name, 'seed'): kit.Task(crate, [], trial.control), **judged,
            (name, 'end'): kit.Task(crate, [*judged], partial(end, trial))}


def judge_all(edits: Sequence[Edit], every: Sequence[Edit]) -> dict[Edit, Verdict]:
    """Tries these mutants among all, notes the verdicts on those of a crate as soon as it's done, and returns all."""
    found = {it: Verdict(UNKNOWN, '', "it can't be applied: " + it.trouble) for it in edits if it.trouble}
    trials = [Trial([*of_crate]) for _, of_crate in groupby((it for it in edits if not it.trouble),
                                                            lambda it: it.crate)]
    before, one_at_a_time = processor_seconds(), Lock()

    def end(trial: Trial, jobs: int) -> None:
        trial.end(jobs)
        with one_at_a_time:
            # (on a busy machine a check takes longer than its processor seconds)
            share = (processor_seconds() - before) / (sum(sum(it.seconds) for it in trials) or 1)
            print_verdicts(trial.found)
            log.note(trial.found, every, {trial.crate.name: math.ceil(share * max(trial.seconds))})

    print_verdicts(found)
    log.note(found, every, {})
    kit.in_lanes({key: task for trial in trials for key, task in tasks_of(trial, end).items()})
    used = processor_seconds() - before
    print('%d processor seconds, %d for each mutant' % (used, used / max(1, len(edits))))
    return found | {edit: it for trial in trials for edit, it in trial.found.items()}


def report(found: Mapping[Edit, Verdict]) -> int:
    """Prints the numbers of the verdicts, and returns how many mutants failed."""
    of_kind = {kind: [edit.name for edit, it in found.items() if it.kind == kind] for kind in KINDS}
    still, failed = [name for it in OPEN for name in of_kind[it]], of_kind[NOT_REFUSED] + of_kind[UNKNOWN]
    print('refused for a goal of a contract: %d, of them with a harmless twin that is accepted: %d' % (
        len(of_kind[CONTRACT]), sum(it.why.startswith(TWIN_ACCEPTED) for it in found.values())))
    if still:
        print('skipped: open, because the refusal says little about the contract: %s' % ' '.join(still))
    if failed:
        print('not refused: %s' % ' '.join(failed))
    print('%d passed, %d failed, %d skipped' % (len(found) - len(still) - len(failed), len(failed), len(still)))
    return len(failed)


@command('wrong_bodies')
def main() -> int:
    asked = words()
    os.chdir(TOP)
    kit.prepare_mutants()
    edits = [edit for crate in kit.crates_below(TOP) for edit in edits_of(crate)]
    chosen = named(edits, asked.names)
    if asked.gate:
        chosen = of_gate(chosen)
    if asked.changed:
        chosen = log.changed(chosen)
    use_libraries = check_libraries if asked.built else kit.build_libraries
    use_libraries(list({it.crate.name: it.crate for it in chosen}.values()))
    found = judge_all(chosen, edits)
    public.note()
    return 1 if report(found) else 0
