"""Writes a scenario as a folder of C files for a Contiki 2.x tree, and for the host."""
from __future__ import annotations

from collections.abc import Iterator
from pathlib import Path

from motesim.contiki.host import QUEUE, net_tables, program_tables
from motesim.contiki.names import file_names
from motesim.contiki.program_file import ProgramFile
from motesim.faults import Fault
from motesim.files import refuse_inputs, write_whole
from motesim.home import TOP
from motesim.notation.reader import read_program
from motesim.scenario import Scenario
from motesim.scenario.refused import check

HERE = Path(__file__).resolve().parent
HOST = TOP / 'tools/contiki_host'
HOST_FOLDER = 'contiki_host'
HOST_RULE = '''
# The same programs on this machine: `make host && ./host` writes the report of the scenario.
HOSTCC ?= cc
HOSTFLAGS ?= -O2

.PHONY: host
host:
	$(HOSTCC) -std=c99 -Wall -Wextra -Werror $(HOSTFLAGS) -I. -Icontiki_host -o host contiki_host/*.c
'''
HOST_PAGE = '''
## On this machine

```sh
make host && ./host
```

runs exactly the same files in a small simulator, `contiki_host`, and writes the same report as motesim. Above each
statement is a line `WORK();`, by which the simulator counts units of work; on Contiki it is empty.
'''


def program_files(scenario: Scenario, counts_work: bool) -> dict[str, ProgramFile]:
    """The C file of each program, by its name, in byte order of the names."""
    return {name: ProgramFile(name, read_program(scenario.programs[name]), counts_work)
            for name in sorted(scenario.programs)}


def text_of(lines: list[str]) -> str:
    return '\n'.join(lines) + '\n'


def host_tables(scenario: Scenario, files: dict[str, ProgramFile]) -> Iterator[tuple[str, str]]:
    """The names and texts of the tables for the host: one for each program that motes run, and one for the net."""
    used = {it.program for it in scenario.places}
    file_of = file_names(files)
    numbers = {name: number for number, name in enumerate(files) if name in used}
    for name, number in numbers.items():
        yield file_of[name] + '_host.c', text_of(program_tables(number, name, file_of[name], files[name].image))
    yield 'net.c', text_of(net_tables(scenario, numbers))


def folder_files(title: str, scenario: Scenario, with_host: bool) -> Iterator[tuple[str, str]]:
    """The names and texts of all files of the folder."""
    files = program_files(scenario, with_host)
    file_of = file_names(files)
    for name, file in files.items():
        yield file_of[name] + '.c', text_of(file.lines())
    yield 'motesim_radio.h', _host_text('motesim_radio.h')
    yield 'motesim_radio.c', _host_text('rime/motesim_radio.c')
    yield 'Makefile', _makefile(scenario, list(files), with_host)
    yield 'README.md', _page(title, scenario, list(files), with_host)
    if with_host:
        for path in sorted(HOST.glob('*.[ch]')):
            if path.name != 'motesim_radio.h':
                yield '%s/%s' % (HOST_FOLDER, path.name), _host_text(path.name)
        for name, text in host_tables(scenario, files):
            yield '%s/%s' % (HOST_FOLDER, name), text


def _host_text(name: str) -> str:
    """A file of the host."""
    try:
        return (HOST / name).read_text('utf-8')
    except OSError as fault:
        raise Fault('%s: %s; a clone or an archive of motesim has it' % (HOST / name, fault.strerror)) from None


def _queues(scenario: Scenario) -> dict[str, int]:
    """The lengths of event queues that differ from Contiki's, by the files of the programs."""
    file_of = file_names(scenario.programs)
    return {file_of[name]: length for name, length in sorted(scenario.queue.items()) if length != QUEUE}


def _makefile(scenario: Scenario, programs: list[str], with_host: bool) -> str:
    files = list(file_names(programs).values())
    queues = ''.join('#\n# The event queue of %s has room for %d: make DEFINES=PROCESS_CONF_NUMEVENTS=%d %s, after '
                     'make clean.\n' % (name, length, length, name) for name, length in _queues(scenario).items())
    text = (HERE / 'makefile.txt').read_text('utf-8').replace('{first}', files[0] if files else 'PROGRAM')
    text = text.replace('{programs}', ' '.join(files)).replace('@queues@\n', queues + '\n')
    return text.replace('@host@\n', HOST_RULE if with_host else '')


def _page(title: str, scenario: Scenario, programs: list[str], with_host: bool) -> str:
    file_of = file_names(programs)
    rows = ''.join('| `%s.c` | the program `%s` |\n' % (file_of[it], it) for it in programs)
    queues = ''.join('- The event queue of `%s` has room for %d. Build it by itself, after `make clean`, with '
                     '`DEFINES=PROCESS_CONF_NUMEVENTS=%d`.\n' % (name, length, length)
                     for name, length in _queues(scenario).items())
    parts = {'{title}': title, '{files}': rows, '{first}': file_of[programs[0]] if programs else 'PROGRAM',
             '{queues}': queues, '{host}': HOST_PAGE if with_host else '',
             '{hostfiles}': '| `contiki_host/` | a simulator for this machine, with the tables of this scenario |\n'
             if with_host else ''}
    text = (HERE / 'readme.txt').read_text('utf-8')
    for mark, part in parts.items():
        text = text.replace(mark, part)
    return text.rstrip('\n') + '\n'


def write_folder(data: bytes, path: str, folder: Path, with_host: bool) -> list[Path]:
    """Writes the folder of a scenario, which was read from a path, and returns its files."""
    check(path, data)
    scenario = Scenario.parse(data)
    texts = list(folder_files(Path(path).stem, scenario, with_host))
    for name, _ in texts:
        refuse_inputs(folder / name, [path])
    for name, text in texts:
        (folder / name).parent.mkdir(parents=True, exist_ok=True)
        write_whole(folder / name, [text.encode()])
    return [folder / name for name, _ in texts]
