"""The columns of the tables of tools/summary, each with what it has: for the tables and for --help."""
from __future__ import annotations

FATES = {'received': 'copies that were received',
         'lost': 'copies that the medium lost',
         'overflowed': 'copies that arrived while eight packets were waiting',
         'collided': 'copies that arrived together with others',
         'halted': 'copies that arrived at a halted mote',
         'left': 'copies that would have arrived after the end'}
COPIES = {'copies': 'copies of packets on their way to it, each of which is also in the column of its fate', **FATES,
          'ratio': "`received`, divided by the number of copies that aren't `left`"}
MOTES = {'sent': 'packets that the mote sent', **COPIES,
         'posted': 'events that its queue accepted',
         'taken': 'events that reached a process; an event for all processes counts once for each',
         'dropped': "events for a process that wasn't on the process list",
         'refused': 'events that the full queue refused',
         'prints': 'lines that it printed',
         'halt': 'the moment at which it halted; for the net, the number of halted motes'}
LINKS = {'from': 'the sender', 'to': 'the receiver', **COPIES,
         'delay': 'moments from the sending of a packet to its arrival'}
FLOWS = {'origin': 'the mote at which messages began',
         'sent': 'messages that began there',
         'delivered': 'messages that arrived at another mote at least once',
         'ratio': '`delivered`, divided by `sent`',
         'reached': 'the number of motes that a message reached, on average',
         'copies': 'all deliveries',
         'duplicates': 'deliveries to a mote that already had the message',
         'hops': "the hops to the reached motes, on average, by links that don't lose all; `-` without a scenario",
         'least': 'the least number of moments from the beginning of a message to its first delivery at a mote',
         'middle': 'their median', 'most': 'the greatest number of these moments'}


def described(columns: dict[str, str]) -> str:
    """The columns as lines of a help text."""
    return '\n'.join('  %-11s %s' % it for it in columns.items())
