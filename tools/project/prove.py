"""Proves the crates of motesim and motecheck on this machine, and builds the proved binaries: ./prove

After that, ./run and all tools run the proved binaries; until then they run those that are already built. A proof
needs about 40 minutes to an hour on four cores, at a low priority. `rt ci` does the work, on a copy of the crates in
out/proof. You can interrupt ./prove at any time. Some kits, such as rattle-kit-13f, keep the results of each proved
crate for all clones on this machine. With such a kit the next ./prove, or ./test, continues with the remaining crates;
with another kit it begins again. ./prove prints a line for each crate. The prover's output is in out/proof.log. If a
crate isn't proved, ./prove also prints the output about this crate. To run all tests too, use ./test, the gate.
"""
from __future__ import annotations

import os
import re
import shutil
import sys
import time
from collections.abc import Sequence
from pathlib import Path

from motesim.command import command
from motesim.faults import Fault
from motesim.runner.programs import TOP, built_by_proof, crates_of_program, programs_in, proved_program
from motesim.words import words_of
from project import kit
from project.running import end_on_signals, locked, started

COPY, LOG, LOCK = TOP / 'out/proof', TOP / 'out/proof.log', TOP / 'out/proof.lock'
# The folders of a crate that the proof doesn't need.
LEFT_OUT = shutil.ignore_patterns('out', 'must-fail', '*-bodies')
RESULT = re.compile(r'rt: (\w+) (proved|is kept|NOT PROVED)')


def say(text: str) -> None:
    print('prove: ' + text, file=sys.stderr, flush=True)


def copy_crates(top: Path, crates: Sequence[str], copy: Path) -> None:
    """Copies these crates into a repository of their own."""
    shutil.rmtree(copy, ignore_errors=True)
    # (rt looks for the top of a repository)
    (copy / '.git').mkdir(parents=True)
    for name in crates:
        shutil.copytree(top / 'crates' / name, copy / 'crates' / name, ignore=LEFT_OUT)
    rows = (top / 'crates.txt').read_text('utf-8').splitlines(keepends=True)
    (copy / 'crates.txt').write_text(''.join(it for it in rows if set(it.partition(':')[0].split()[:1]) & set(crates)),
                                     'utf-8')
    if (top / 'HANDLES').is_file():
        shutil.copy(top / 'HANDLES', copy)


def prove_copy(number: int) -> bool:
    """Proves the crates of the copy, with their number for the progress, and builds the binary there. Returns whether
    all are proved."""
    proved, said, began = 0, '', time.monotonic()
    with open(LOG, 'w', buffering=1, encoding='utf-8') as log, started(['rt', 'ci'], cwd=COPY) as (running, lines):
        for line in lines:
            log.write(line)
            said = line if line.startswith('== ') else said + line
            result = RESULT.match(line)
            if result and result[2] == 'NOT PROVED':
                say('%s is not proved:\n%s' % (result[1], said))
            elif result:
                proved, seconds = proved + 1, time.monotonic() - began
                say('%s is proved: %d of %d, %d:%02d' % (result[1], proved, number, seconds // 60, seconds % 60))
            said = '' if result else said
    return not running.returncode


def prove() -> None:
    """Proves these sources, and moves the built binaries to their places."""
    names, began = programs_in(), time.time()
    crates = crates_of_program(TOP, *names)
    say('proving %d crate%s: 40 minutes to an hour without earlier results, on four processors; interrupt it at any '
        'time, ./prove resumes' % (len(crates), 's' * (len(crates) > 1)))
    copy_crates(TOP, crates, COPY)
    made = {COPY / built.relative_to(TOP): built for built in map(built_by_proof, names)}
    if not prove_copy(len(crates)) or not all(it.is_file() for it in made):
        raise Fault('not everything is proved; the lines above and %s say why' % LOG)
    for one, built in made.items():
        # (a source that is edited during this proof is newer than what it built)
        os.utime(one, (began, began))
        built.parent.mkdir(exist_ok=True)
        os.replace(one, built)
    shutil.rmtree(COPY)
    if not are_proved():
        raise Fault('everything was proved, but a source has changed meanwhile: ./prove proves what depends on it')


def are_proved() -> bool:
    """Returns whether the proved binaries of these sources are built."""
    return all([proved_program(name) for name in programs_in()])


@command('prove')
def main() -> int:
    words_of(__doc__, './prove').parse_args()
    for line in kit.warnings():
        say(line)
    end_on_signals()
    os.nice(5)
    try:
        with locked(LOCK, 'prove: another ./prove is at work here; this one waits for it'):
            if are_proved():
                say('all that is proved of these sources is built already')
                return 0
            prove()
    except SystemExit:
        say('interrupted; ./prove continues with the crates that are left')
        raise
    say('everything is proved; ./run and the tools now run the proved programs')
    return 0
