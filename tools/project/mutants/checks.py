"""Judges mutants of one crate: many in one check, and halves of those that remain undecided; then all harmless twins in
one check.

A control comes first: it checks, without any edit, the functions that are changed and those that they call, or the
whole crate, and has to prove them. Each group of mutants is checked with the results that the control has kept, so
that only the changed functions are proved again.
"""
from __future__ import annotations

import re
import shutil
import tempfile
import time
from collections.abc import Callable, Iterable, Sequence
from pathlib import Path
from typing import NamedTuple

from project.kit import checked, kept_by_check, linked, says_nothing
from project.mutants.edits import Edit, applied, groups

# The verdicts on a mutant, the best first. The prover refuses it for a goal of a contract. Or it is open whether the
# contract refuses it, because its harmless twin is refused too, or because the prover refuses it only for safety, only
# for an invariant of a loop or a type, only because a proof by hand no longer fits, or only at a limit. Or it is
# proved, or nothing is known.
KINDS = CONTRACT, TWIN, SAFETY, INVARIANT, LIMIT, ANSWER, NOT_REFUSED, UNKNOWN = (
    'contract', 'twin', 'safety', 'invariant', 'limit', 'answer', 'not refused', 'unknown')
OPEN = TWIN, SAFETY, INVARIANT, ANSWER, LIMIT
# The goals of safety, and those of invariants. (A goal named after one of the kit's functions that panic is of safety.)
OF_SAFETY = re.compile(r'overflow_|nonzero_|(slice_|offset_)?bounds-|prove-|(index(_mut)?|unwrap|expect)-requires')
OF_INVARIANT = re.compile(r'loop-|invariant_of-')
# The notes of a check about a goal that `search` did not prove, with the words for them in the log.
NOTES = {'allow values at which this goal is false': 'false', 'gave up at one of its limits': 'search gave up'}
# The beginning of the goals if the harmless twin is accepted.
TWIN_ACCEPTED = 'twin accepted; '
# The goal in an error about a proof by hand.
OF_GOAL = re.compile(r': error: `([\w-]+)`')
# The line of a function that is proved; the note about a goal that is not; and an error about a goal of a contract
# that the edit removed.
PROVED = re.compile(r'fn (\S+): proved$')
NOT_PROVED = re.compile(r'note: .* it is not proved that .*\(`([^`]+)`\)')
GONE = re.compile(r'`goal\.(?!loop-)')
# The prover's words for one of its limits that it reaches each time it checks the same text.
LIMITS = re.compile(r'ran out of (stack|the (steps|memory))|outgrew the memory limit|stopped at the step limit')
COULD_NOT_TELL = 'could not tell'
# The beginning of the last line of a check that has reached a verdict.
VERDICTS = 'logic=', 'only=', 'rattle: no verdict'
# The reasons why a function isn't proved, if the reason is in another function; and errors about names that an edit
# removed.
NOT_OWN = re.compile(r'it calls|it passes|a call of|in `\S+`, of this cycle')
OF_NAMES = re.compile(r'has no field|is not in scope|has no `|was not admitted')


class Verdict(NamedTuple):
    """The verdict on a mutant, the function that is refused, and the goals or the error for which it is."""
    kind: str
    function: str = ''
    why: str = ''


def function_of(name: str) -> str:
    """The function in a name that a check prints: c::m::S::f, also for its closure c::m::fn::S::f::closure."""
    around, is_closure, path = name.partition('::fn::')
    parts = path.split('::')
    end = next(at for at, it in enumerate(parts, 1) if it[0].islower()) if is_closure else 0
    return '::'.join([around, *parts[:end]])


def is_in(name: str, function: str | None) -> bool:
    """Returns whether a check prints this name for a function, which the end of its path names."""
    return function is not None and ('::' + function_of(name)).endswith('::' + function)


def proof_folders(name: str) -> tuple[str, str]:
    """The folder with a function's proof, and the beginning of that with the proof of its cycle of calls, +CYCLE."""
    *around, last = [part for part in name.split('::')[1:] if part != 'fn']
    folder = '/'.join(['proofs', *around, ''])
    return folder + last + '/', folder + '+'


def proof_errors(lines: Sequence[str], name: str) -> list[str]:
    """The errors in the files of a function's proof, or of the proof of its cycle of calls."""
    errors = (it.removeprefix('./') for it in lines if ': error: ' in it and 'was not admitted' not in it)
    return [it for it in errors if it.startswith(proof_folders(name))]


def unnumbered(goal: str) -> str:
    """A goal without the number that tells it from others of the same name."""
    return re.sub(r'-\d+$', '', goal)


def by_hand(name: str, crate: Path) -> set[str]:
    """The goals of a function, or of its cycle of calls, that a crate proves by hand."""
    files = (it for it in crate.glob('proofs/**/*.antt')
             if it.relative_to(crate).as_posix().startswith(proof_folders(name)))
    return {unnumbered(goal) for it in files for goal in re.findall(r'goal\.([\w-]+)', it.read_text('utf-8'))}


def is_of_contract(error: str) -> bool:
    """Returns whether an error is about a proof by hand of a goal of a contract, outside of cycles of calls."""
    goal = OF_GOAL.search(error)
    return goal is not None and '/+' not in error and kind_of([goal[1]]) == CONTRACT


def kind_of(goals: Sequence[str]) -> str:
    """The kind of a refusal for these goals."""
    if all(map(OF_SAFETY.match, goals)):
        return SAFETY
    return INVARIANT if all(OF_SAFETY.match(it) or OF_INVARIANT.match(it) for it in goals) else CONTRACT


def noted(goal: str, notes: Sequence[str]) -> str:
    """A goal with the remarks about it in the notes."""
    note = next((it for it in notes if '(`%s`)' % goal in it), '')
    return goal + ''.join(' (%s)' % it for said, it in NOTES.items() if said in note)


def in_one(goals: Iterable[str]) -> str:
    """The goals in one line, the false ones first, because the log cuts long lines."""
    return ', '.join(sorted(goals, key=lambda it: not it.endswith('(false)')))


def noted_goals(name: str, crate: Path, notes: Sequence[str], errors: Sequence[str]) -> list[str]:
    """The goals of contracts that the notes name as not proved, without those that the crate proves by hand. If such a
    one is gone, it may have another name now: then only the goals that the prover found false."""
    if any('/+' in it for it in errors):
        # (the goals may be those of another function, in the same cycle of calls)
        return []
    proved, is_gone = by_hand(name, crate), any(GONE.search(it) for it in errors)
    goals = [it[1] for it in map(NOT_PROVED.match, notes) if it and 'loop-' not in it[1]]
    found = [noted(it, notes) for it in goals if unnumbered(it) not in proved]
    return [it for it in found if not is_gone or it.endswith('(false)')]


def verdict_of(name: str, said: str, notes: Sequence[str], lines: Sequence[str], crate: Path) -> Verdict | None:
    """The verdict on a function of a crate, by the end of its line in a check, the notes above that line, and all
    lines; None if it is proved, or is refused only because of functions that it calls."""
    if not said.startswith(('not proved', 'no proof', COULD_NOT_TELL)):
        return None
    reasons = re.sub(r'^(not proved|no proof)[:;]? ?', '', said).split('; ')
    own = '; '.join(it for it in reasons if it and not NOT_OWN.match(it))
    goals = re.findall(r'`([^`]+)`', own.partition('`search` did not prove ')[2].partition(';')[0])
    if goals:
        return Verdict(kind_of(goals), name, in_one(noted(it, notes) for it in goals))
    errors = proof_errors(lines, name)
    if not (own or errors or said == 'not proved'):
        return None
    goals = noted_goals(name, crate, notes, errors)
    if goals:
        return Verdict(kind_of(goals), name, in_one(goals))
    fitting = [it for it in errors if not OF_NAMES.search(it)]
    error = next(filter(is_of_contract, fitting), next(iter(fitting + errors), own))
    kind = LIMIT if LIMITS.search(error) or own == COULD_NOT_TELL else ANSWER
    return Verdict(kind, name, error or 'not proved')


def refused_in(lines: Sequence[str], crate: Path) -> dict[str, Verdict]:
    """The verdict on each function that a check of a crate refuses for a reason in the function itself."""
    found: dict[str, Verdict] = {}
    notes: list[str] = []
    for line in lines:
        if line.startswith('note: '):
            notes.append(line)
        elif result := re.match(r'fn (\S+): (.*)', line):
            verdict = verdict_of(result[1], result[2], notes, lines, crate)
            found |= {verdict.function: verdict} if verdict else {}
            notes = []
    return found


def may_pass(verdict: Verdict) -> bool:
    """Returns whether a refusal counts if the harmless twin is accepted. A proof by hand that no longer fits the mutant
    fits the twin then, so it's the value that it doesn't fit."""
    return verdict.kind == CONTRACT or verdict.kind == ANSWER and is_of_contract(verdict.why)


def best(edit: Edit, refused: dict[str, Verdict]) -> Verdict:
    """The verdict on a mutant: the verdict on its function, or the best one if any function may be refused."""
    found = [it for name, it in refused.items() if edit.function is None or is_in(name, edit.function)]
    return min(found, key=lambda it: KINDS.index(it.kind), default=Verdict(NOT_REFUSED))


def only(edits: Sequence[Edit]) -> list[str]:
    """The arguments for a check of the changed functions and of those that they call; none for a check of the whole
    crate."""
    if not all(it.may_share for it in edits):
        return []
    return [word for name in dict.fromkeys(str(it.function) for it in edits) for word in ('--only', name)]


class Trial:
    """The checks of mutants of a crate, the seconds of each, that of the control first, and the verdicts."""

    def __init__(self, edits: Sequence[Edit]):
        self.edits = edits
        self.crate = edits[0].crate
        self.is_by_name = True
        self.kept: Path | None = None
        self.found: dict[Edit, Verdict] = {}
        self.seconds: list[float] = []

    def control(self, jobs: int) -> None:
        """Checks the crate without an edit; if that isn't proved, nothing is known about any mutant."""
        start = time.monotonic()
        self.kept = kept_by_check(self.crate, ['--jobs', str(jobs), *only(self.edits)])
        if self.kept is None and only(self.edits):
            # (a name may fit several functions)
            self.is_by_name = False
            self.kept = kept_by_check(self.crate, ['--jobs', str(jobs)])
        self.seconds.append(time.monotonic() - start)

    def judge(self, group: Sequence[Edit], _jobs: int = 1) -> None:
        """Judges mutants of a group, without their twins."""
        unknown = Verdict(UNKNOWN, '', "the crate without an edit isn't proved")
        self.found |= self.verdicts(group) if self.kept else dict.fromkeys(group, unknown)

    def end(self, _jobs: int = 1) -> dict[Edit, Verdict]:
        """Tries the harmless twins of the mutants that are refused, deletes the results that the control has kept, and
        returns the verdicts."""
        with_twin = [it for it in self.found if it.twin and may_pass(self.found[it])]
        refused = {it: verdict for group in groups(with_twin, twins=True)
                   for it, verdict in self.twins_refused(group).items()}
        self.found |= {it: refused.get(it)
                       or Verdict(CONTRACT, self.found[it].function, TWIN_ACCEPTED + self.found[it].why)
                       for it in with_twin}
        if self.kept:
            shutil.rmtree(self.kept)
        return self.found

    def check(self, edits: Sequence[Edit], *, twins: bool = False) -> tuple[list[str], int, bool]:
        """The lines and the status of a check with these edits, or with their harmless twins, with a copy of the
        results that the control has kept; and whether the check ended before the proofs."""
        start, texts = time.monotonic(), applied(edits, twins)
        words = only(edits) if self.is_by_name else []
        assert self.kept and texts
        with tempfile.TemporaryDirectory(prefix='mutants-') as room:
            ran = checked(self.crate, texts, ['--jobs', '1', *words], linked(self.kept, Path(room, 'kept')))
        self.seconds.append(time.monotonic() - start)
        lines = ran.stdout.rstrip('\n').split('\n')
        return lines, ran.returncode, says_nothing(lines, texts)

    def verdicts(self, group: Sequence[Edit]) -> dict[Edit, Verdict]:
        """The verdicts on mutants of a group: those that one check with all their edits refuses for their meaning, if
        their harmless twins are accepted, and the others by checks of halves of them. If only another proof by hand no
        longer fits, it may be that of another mutant's function, in the same cycle of calls or called by this one."""
        if len(group) == 1:
            return {group[0]: self.verdict_alone(group[0])}
        lines, _, is_void = self.check(group)
        is_judged = not is_void and lines[-1].startswith(VERDICTS)
        refused = refused_in(lines, Path(self.crate.folder)) if is_judged else {}
        found = {it: best(it, refused) for it in group}
        found = {edit: it for edit, it in found.items() if it.kind == CONTRACT or edit.twin and may_pass(it)}
        return found | self.of_halves([it for it in group if it not in found], self.verdicts)

    def of_halves(self, edits: Sequence[Edit],
                  judged: Callable[[Sequence[Edit]], dict[Edit, Verdict]]) -> dict[Edit, Verdict]:
        halves = edits[:len(edits) // 2], edits[len(edits) // 2:]
        return {edit: it for half in halves if half for edit, it in judged(half).items()}

    def verdict_alone(self, edit: Edit) -> Verdict:
        """The verdict on a mutant by a check with only its edit."""
        lines, status, is_void = self.check([edit])
        found = best(edit, refused_in(lines, Path(self.crate.folder)))
        if found.kind != NOT_REFUSED or status == 0:
            return found
        limit = next((it for it in lines if LIMITS.search(it)), None)
        error = next((it for it in lines if ' error' in it), lines[0])
        if status == 3 or limit:
            return Verdict(LIMIT, '', limit or lines[-1])
        is_of_proofs = status == 1 and not edit.function and error.removeprefix('./').startswith('proofs/')
        return Verdict(ANSWER if is_of_proofs and not is_void else UNKNOWN, '', error)

    def twins_refused(self, group: Sequence[Edit]) -> dict[Edit, Verdict]:
        """The verdicts on those mutants of a group whose harmless twin the prover doesn't accept: first all twins in
        one check, then those of functions that it doesn't prove, one for each function, and then halves of them."""
        lines, status, _ = self.check(group, twins=True)
        refused = refused_in(lines, Path(self.crate.folder))
        proved = {function_of(it[1]) for it in map(PROVED.match, lines) if it} - {function_of(it) for it in refused}
        left = [it for it in group if status and not any(is_in(name, it.function) for name in proved)]
        if len(group) == 1:
            return {it: best(it, refused)._replace(kind=TWIN) for it in left}
        parts = groups(left)
        if len(parts) < 2:
            return self.of_halves(left, self.twins_refused)
        return {edit: it for part in parts for edit, it in self.twins_refused(part).items()}
