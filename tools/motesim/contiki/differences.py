"""The comment at the beginning of a C file: its origin, and how motesim differs from Contiki for this program."""
from __future__ import annotations

from motesim.contiki.layout import comment_lines
from motesim.contiki.use import Use

# The differences, each with the words of the notation to which it applies.
DIFFERENCES: tuple[tuple[frozenset[str], str], ...] = (
    (frozenset({'kill', 'start', 'exit'}),
     'In motesim a process that is in the middle of a call can be neither started nor killed (`busy`); Contiki allows '
     'it.'),
    (frozenset({'broadcast', 'kill', 'start', 'exit', 'gone', 'poll'}),
     'A broadcast, PROCESS_EVENT_EXITED and the polls reach exactly the processes that were on the list when they '
     'began, and have not left since; Contiki follows the list as it changes.'),
    (frozenset({'reset'}),
     'A timer that is reset before it is due is due one interval later in motesim; Contiki subtracts unsigned, '
     'so it counts as expired at once.'),
    (frozenset({'data', 'fired'}),
     'The data of PROCESS_EVENT_TIMER and PROCESS_EVENT_EXITED are pointers in Contiki, numbers in the notation: '
     'compare them with the timer or process, as here.'),
    (frozenset({'/', '%'}), 'A division by 0 yields 0 here, by motesim_divide and motesim_modulo.'),
    (frozenset({'count', 'signal', 'acquire'}),
     'The count of a semaphore has 16 bits in motesim. In Contiki it is an unsigned int.'),
    (frozenset({'now'}), 'A moment is a tick of clock_time(), of which a second has CLOCK_SECOND.'),
    (frozenset({'send', 'from', 'self'}),
     'Motes are numbered from 0; motesim_radio.c makes numbers of Rime addresses. Nothing is lost or delayed by '
     'rule on a real radio.'),
    (frozenset({'while'}),
     'A mote that spends 10,000 units of work in one run of the kernel without waiting halts in motesim; in Contiki '
     'the watchdog resets the node.'),
)


def header(name: str, used: Use) -> list[str]:
    """The comment at the beginning of a program's file."""
    lines = ['The mote program %s, written by tools/export for Contiki 2.x. Compiling it against a real Contiki tree '
             'has not been tested.' % name, '',
             'Differences between motesim (docs/use/KERNEL.md) and Contiki for this program:']
    words = set(used.words)
    said = [text for where, text in DIFFERENCES if where & words]
    lines += ['- ' + it for it in said] or ['- nothing is known to differ.']
    return comment_lines(lines, '')
