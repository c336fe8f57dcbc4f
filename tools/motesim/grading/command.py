"""Grades a folder of solutions by expectations. tools/grade is the command."""
from __future__ import annotations

import argparse
import sys
import time
from collections.abc import Sequence
from pathlib import Path

from motesim.faults import Fault
from motesim.files import refuse_inputs, write_whole
from motesim.grading import page, tables
from motesim.grading.entries import Entry, entries_of
from motesim.grading.marking import Task
from motesim.grading.marks import Marks, unmarked
from motesim.grading.nets import files_of, nets_of
from motesim.progress import Progress
from motesim.judge.expectations import parts_of, text_of
from motesim.judge.names import Names, names_of
from motesim.judge.several import read_all
from motesim.runner import Limits, pool, program_path
from motesim.runner.programs import CHECKER
from motesim.terminal import one_line

MEGABYTE = 1 << 20
# The most names of solutions that an error lists, and those of files without a row that a remark lists.
MOST_NAMES, MOST_LISTED = 20, 5
# The width of the line about the progress.
WIDTH = 100
# The seconds for each net in addition to its run: for reading and judging its report.
SPARE = 60


def grade(entries: Sequence[Entry], task: Task, jobs: int | None = None) -> list[Marks]:
    """The marks of all entries, in their order."""
    seconds = (task.limits.clock + SPARE) * max(1, len(task.nets))
    found: dict[int, Marks] = {}
    progress = Progress()
    with pool(lambda its: its.of, task, jobs, seconds=seconds) as workers:
        for done in workers.results(enumerate(entries, 1)):
            number, entry = done.item
            found[number] = (done.result or unmarked(entry.name, done.fault or 'it can\'t be graded')).in_lines()
            if progress.is_due():
                progress.show(('grade: %d of %d solutions are graded; the last one is %s' % (
                    len(found), len(entries), entry.name))[:WIDTH])
    progress.end()
    return [found[number] for number in sorted(found)]


def task_of(asked: argparse.Namespace) -> Task:
    """The task of all solutions. Faults of the sentences and of the nets are the teacher's."""
    name = str(asked.expectations)
    part = parts_of(text_of(asked.expectations), name)[0]
    nets = [*nets_of(asked.net, asked.param, asked.program), *nets_of(asked.hidden, [], asked.program, is_hidden=True)]
    try:
        read_all(part.sentences, Names(fields=part.fields))
        predicates = part.predicates()
        for net in nets:
            read_all(part.sentences, Names(None, names_of(net.scenario).motes, fields=part.fields))
    except Fault as fault:
        raise Fault('%s: %s' % (name, fault)) from None
    limits = Limits(asked.seconds, asked.memory * MEGABYTE, asked.report * MEGABYTE)
    return Task(part, tuple(nets), limits, page.folder_of(asked.output) if asked.output else None, tuple(predicates))


def refuse_all_inputs(asked: argparse.Namespace) -> None:
    """Raises a fault if the grades would replace the expectations or a net, or would be among the solutions."""
    for path in (asked.output, Path(asked.csv) if asked.csv and asked.csv != '-' else None):
        if path:
            refuse_inputs(path, [asked.expectations, *files_of([*asked.net, *asked.hidden])])
            if asked.folder.resolve() in path.resolve().parents:
                raise Fault('%s would be among the solutions: write the grades into another folder' % path)


def entry_of(name: str, entries: Sequence[Entry], folder: Path) -> Entry:
    """The entry that a name means: its whole name, the name of a solution without its ending, or the beginning of only
    one name."""
    meant = ([it for it in entries if it.name == name]
             or [it for it in entries if it.is_solution and it.name.rpartition('.')[0] == name]
             or [it for it in entries if name and it.name.startswith(name)])
    if len(meant) == 1:
        return meant[0]
    names = [it.name for it in meant or entries]
    raise Fault('%s has %s %s: --why needs the name of one of these: %s' % (
        folder, 'several solutions' if meant else 'no solution', name,
        ', '.join(names[:MOST_NAMES]) + ', ..' * (len(names) > MOST_NAMES)))


def write_page(asked: argparse.Namespace, task: Task, marked: Sequence[Marks], sentences: Sequence[str]) -> None:
    """Writes the page of the grades."""
    text = page.page_of(marked, sentences, 'Grades: %s' % one_line(asked.expectations.name),
                        page.folder_of(asked.output).name, time.strftime('%Y-%m-%d at %H:%M'), bool(task.nets))
    write_whole(asked.output, [text.encode('utf-8')])
    print(asked.output)


def status_of(asked: argparse.Namespace) -> int:
    """The work of tools/grade; returns the status."""
    program_path()
    program_path(CHECKER)
    task = task_of(asked)
    entries, skipped = entries_of(asked.folder)
    refuse_all_inputs(asked)
    if asked.why is not None:
        entries = [entry_of(asked.why, entries, asked.folder)]
    elif skipped:
        print('grade: hidden files and expectations have no row: %s%s' % (
            ', '.join(skipped[:MOST_LISTED]), ', ..' * (len(skipped) > MOST_LISTED)), file=sys.stderr)
    if task.pictures:
        task.pictures.mkdir(parents=True, exist_ok=True)
    marked = grade(entries, task, asked.jobs)
    sentences = tables.sentences_of(marked) or task.part.sentences
    if asked.why is not None:
        print('\n'.join(tables.why(marked[0])))
    elif asked.csv:
        sys.stdout.write(tables.csv_of(marked, sentences))
    elif not asked.output:
        print('\n'.join([*tables.table(marked, sentences), '', *tables.below(marked, sentences),
                         *tables.pointer(marked)]))
    if asked.output:
        write_page(asked, task, marked, sentences)
    return 1 if any(it.is_open for it in marked) else 0
