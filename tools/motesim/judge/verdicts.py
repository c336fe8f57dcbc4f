"""Verdicts: the proved program `motecheck` runs a scenario, and decides the claims that sentences mean."""
from __future__ import annotations

from collections.abc import Callable, Iterator, Sequence
from pathlib import Path

from motesim.judge.breaks import Break, read_break
from motesim.judge.claim_words import Claim
from motesim.judge.claims import OF_TEXT, Claims
from motesim.judge.finder import Finder
from motesim.judge.reasons import Broken, of_text, reason_of
from motesim.judge.meaning import Sentence
from motesim.runner import Limits, ProgramFault, Runner
from motesim.runner.programs import CHECKER, program_path

ALL_HOLD, ONE_IS_BROKEN = 0, 1
UNUSED = 'unused: '
# The most bytes that one run gets: `motecheck` in node reads its claims and the scenario together.
MOST_BYTES = 1_000_000


class NoVerdict(ProgramFault):
    """`motecheck` refuses the scenario or the claims, or runs out of memory."""


def answers(scenario: bytes, claims: Sequence[str], *options: str, program: Path | None = None,
            limits: Limits = Limits(), asks_end: Callable[[], bool] = lambda: False, faults: Sequence[str] = ()
            ) -> list[str]:
    """The lines that `motecheck` writes. Raises a `NoVerdict` if it has no answer; another `ProgramFault` if it
    refuses a fault, reaches a limit, or is ended by `asks_end`."""
    got = Runner(program or program_path(CHECKER), limits, asks_end, faults).answer(
        scenario, *options, '/dev/stdin', 'claims', files={'claims': '\n'.join(claims).encode()})
    if got.status not in (ALL_HOLD, ONE_IS_BROKEN):
        raise NoVerdict('no verdict: %s' % got.why)
    return got.report.decode().splitlines()


def decided(claims: Claims, text: str, sentences: Sequence[Sentence], limits: Limits = Limits(),
            program: Path | None = None) -> list[Break | None]:
    """For each sentence about the run of a scenario, with its faults: what breaks it, or None if it holds or is about a
    text. Raises a `NoClaim` if claims can't say a sentence, and a `ProgramFault` if there is no verdict."""
    found: list[Break | None] = [None] * len(sentences)
    for places, its in _pieces(claims, sentences, MOST_BYTES - len(text.encode())):
        lines = answers(text.encode(), [it.text for it in its], program=program, limits=limits,
                        faults=claims.scenario.faults)
        # (behind the answers, a line for each fault that names no copy which the run sends)
        for place, claim, line in zip(places, its, lines[:len(its)], strict=True):
            found[place] = found[place] or _break_in(line, claim)
    return found


def unused(scenario: bytes, faults: Sequence[str], limits: Limits = Limits()) -> list[str]:
    """Those of the faults that change nothing in the run of a scenario, because it sends no copy that they name."""
    return [it.removeprefix(UNUSED) for it in answers(scenario, [], limits=limits, faults=faults)] if faults else []


def _break_in(line: str, claim: Claim) -> Break | None:
    """What breaks a claim, by the answer to it."""
    return read_break(line.partition(' -- ')[2], claim) if line.startswith('broken: ') else None


def _pieces(claims: Claims, sentences: Sequence[Sentence], most: int) -> Iterator[tuple[list[int], list[Claim]]]:
    """The claims that the sentences mean, in pieces that aren't too long, each with the places of its sentences."""
    places, found, length = list[int](), list[Claim](), 0
    for place, it in enumerate(sentences):
        if type(it) not in OF_TEXT:
            its = claims.of(it)
            more = sum(len(claim.text) + 1 for claim in its)
            if found and length + more > most:
                yield places, found
                places, found, length = [], [], 0
            places, found, length = places + [place] * len(its), found + its, length + more
    if found:
        yield places, found


def breaks(sentences: Sequence[Sentence], finder: Finder, limits: Limits = Limits()) -> list[Broken | None]:
    """What breaks each sentence in the run of the finder's scenario; None for a sentence that holds."""
    said = decided(Claims(finder.scenario), finder.scenario.text, sentences, limits)
    return [reason(it, sentence, finder) for it, sentence in zip(said, sentences)]


def reason(said: Break | None, sentence: Sentence, finder: Finder) -> Broken | None:
    """What breaks a sentence, after `motecheck` has decided it."""
    return reason_of(said, finder) if said else of_text(sentence, finder)


def is_broken(said: Break | None, sentence: Sentence, finder: Finder) -> bool:
    """Returns whether a sentence is broken, after `motecheck` has decided it."""
    return said is not None or of_text(sentence, finder) is not None
