"""The names that the parts of a program have in C."""
from __future__ import annotations

from collections import Counter
from collections.abc import Iterable
from functools import cache
from pathlib import Path

from motesim.notation.tree import Program

PREFIXES = ('autostart_', 'broadcast_', 'clock_', 'ctimer_', 'energest_', 'etimer_', 'host_', 'leds_', 'linkaddr_',
            'list_', 'memb_', 'motesim_', 'packetbuf_', 'process_', 'pt_', 'rime_', 'rimeaddr_', 'rtimer_', 'serial_',
            'stimer_', 'timer_', 'watchdog_')
# Files that a Contiki tree or the host has, whose names a program's file can't have: make finds sources by their names
# only, and a compiler finds them in the folder of the file that includes them.
FILES = frozenset('''aes all announcement arg assert autostart broadcast chameleon clean clock compower contiki
contiki-main contiki_host crc16 ctimer distclean energest etimer help host list login lpm main me medium memb mmem mote
motesim motesim_radio mt multihop net netflood netstack node-id nullmac nullrdc packetbuf packetqueue procinit process
profile queuebuf radio random rime rimeaddr rimestats rtimer run serial-line settings stimer subprocess text timer
timetable trace trickle uart upload usage watchdog work xmem'''.split())


@cache
def reserved() -> frozenset[str]:
    """The names that C, its library or Contiki has."""
    lines = Path(__file__).with_name('reserved_names.txt').read_text('utf-8').splitlines()
    return frozenset(' '.join(line for line in lines if not line.startswith('#')).split())


def is_reserved(name: str) -> bool:
    return name in reserved() or name.startswith(PREFIXES)


def file_names(programs: Iterable[str]) -> dict[str, str]:
    """The names of the programs' files without `.c`: all different, even on a system that ignores capitals."""
    names = sorted(programs)
    taken = FILES | {it.lower() for it in names}
    found: dict[str, str] = {}
    for name in names:
        is_free = name.lower() not in FILES | {it.lower() for it in found.values()} and not name.startswith('-')
        wished = name if is_free else name.lstrip('-') + '_program'
        number = 2
        while not is_free and wished.lower() in taken | {it.lower() for it in found.values()}:
            wished = '%s_program_%d' % (name.lstrip('-'), number)
            number += 1
        found[name] = wished
    return found


class Names:
    """The C names of a program's parts, all different; parts of a code are found by their process and name."""

    def __init__(self, program: Program):
        self._taken: set[str] = set()
        self._globals: dict[str, str] = {}
        self._locals: dict[tuple[str, str], str] = {}
        self._derived: dict[tuple[str, str], str] = {}
        for it in program.processes:
            self._globals[it.text] = self._claim(it.text.removesuffix('_process') + '_process')
        for declared in program.declared:
            own = declared.name.text
            self._globals[own] = self._claim(own, '%s_%s' % (own, declared.kind))
        kinds = [(code.process.text, name, kind) for code in program.codes for kind, names in (
            ('variable', code.variables), ('timer', [it.text for it in code.timers]),
            ('timer', code.named('ctimer')), ('thread', code.named('thread'))) for name in names]
        uses = Counter(name for _, name, _ in kinds)
        for process, name, kind in kinds:
            wished = [name, '%s_%s' % (name, kind)] if uses[name] == 1 else []
            self._locals[process, name] = self._claim(*wished, '%s_%s' % (process, name))

    def _claim(self, *wished: str) -> str:
        """The first of these names that isn't in use, or the last one with a number after it."""
        for name in wished:
            if name not in self._taken and not is_reserved(name):
                self._taken.add(name)
                return name
        number = 2
        while '%s_%d' % (wished[-1], number) in self._taken:
            number += 1
        self._taken.add('%s_%d' % (wished[-1], number))
        return '%s_%d' % (wished[-1], number)

    def helper(self, wished: str) -> str:
        """A name for a function or variable that the notation doesn't have."""
        return self._claim(wished)

    def derived(self, name: str, what: str) -> str:
        """The name of something that belongs to a part with this C name, such as the callback of a timer."""
        if (name, what) not in self._derived:
            self._derived[name, what] = self._claim('%s_%s' % (name, what))
        return self._derived[name, what]

    def of(self, name: str) -> str:
        """The C name of a process, an event or a semaphore."""
        return self._globals[name]

    def inside(self, process: str, name: str) -> str:
        """The C name of a variable, a timer or a thread of a process."""
        return self._locals[process, name]
