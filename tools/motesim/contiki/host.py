"""The tables that describe a scenario to the host, tools/contiki_host: PROGRAM_host.c for each program, and net.c."""
from __future__ import annotations

from collections.abc import Iterable

from motesim.contiki.program_file import Image
from motesim.scenario import Scenario

QUEUE = 32
BY_EXPORT = '/* Written by tools/export. */'


def _table(kind: str, name: str, entries: Iterable[str]) -> list[str]:
    return ['', 'static %s %s[] = {' % (kind, name), *('  %s,' % it for it in entries), '};']


def program_tables(number: int, name: str, file: str, image: Image) -> list[str]:
    """PROGRAM_host.c, which includes the program itself, and so can use the program's static names."""
    timers = ['HOST_NO_TIMER' if not cname else 'HOST_%s(%s)' % (prefix.upper(), cname)
              for prefix, cname in image.timers]
    events = ['{ %s, "%s" }' % ('&' + cname if cname else 'NULL', event) for event, cname in image.events]
    fields = ['"%s"' % name, 'memory', 'processes', 'autostart_processes',
              '&' + image.receiver if image.receiver else 'NULL', 'events', 'timers']
    return [BY_EXPORT, '#include "%s.c"' % file, '#include "host.h"',
            *_table('const struct host_memory', 'memory',
                    [*('HOST_MEMORY(%s)' % it for it in image.memory), 'HOST_MEMORY_END']),
            *_table('struct process *const', 'processes', [*('&' + it for it in image.processes), 'NULL']),
            *_table('const struct host_event', 'events', [*events, '{ NULL, NULL }']),
            *_table('const struct host_timer', 'timers', [*timers, 'HOST_TIMERS_END']),
            '', 'extern const struct host_program host_program_%d;' % number,
            'const struct host_program host_program_%d = {' % number, *('  %s,' % it for it in fields), '};']


def net_tables(scenario: Scenario, numbers: dict[str, int]) -> list[str]:
    """net.c: the motes, with the numbers of their programs, and the medium."""
    motes = ['{ %d, %d, &host_program_%d, %d }' % (it.x, it.y, numbers[it.program],
                                                 scenario.queue.get(it.program, QUEUE)) for it in scenario.places]
    losses = ['{ %d, %d, %d }' % (s, r, every) for (s, r), every in scenario.losses.items()]
    fields = ['.end = %d' % scenario.end, '.range = %d' % scenario.range, '.base = %d' % scenario.base,
              '.per = %d' % scenario.per, '.collide = %d' % scenario.collide,
              '.motes = motes', '.mote_count = %d' % len(motes),
              '.losses = %s' % ('losses' if losses else 'NULL'), '.loss_count = %d' % len(losses)]
    return [BY_EXPORT, '#include "host.h"', '',
            *('extern const struct host_program host_program_%d;' % it for it in numbers.values()),
            *_table('const struct host_mote', 'motes', motes),
            *(_table('const struct host_loss', 'losses', losses) if losses else []),
            '', 'const struct host_net host_net = {', *('  %s,' % it for it in fields), '};']
