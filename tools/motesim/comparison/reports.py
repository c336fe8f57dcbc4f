"""The first place at which two reports diverge, and how many of their lines differ."""
from __future__ import annotations

from collections import Counter
from collections.abc import Iterator, Sequence
from typing import TYPE_CHECKING, Any, NamedTuple

from motesim.comparison import scenarios
from motesim.report import Line, Packet, Report

if TYPE_CHECKING:
    from motesim.report.run import Run

LETTERS = 'AB'
# The number of the log of the medium, which is used like the number of a mote.
MEDIUM = -1
PACKETS_BEFORE, EVENTS_BEFORE = 3, 4
# The most lines about the scenarios, and about motes.
MOST = 20
OF_PACKETS = ('send', 'recv', 'lost', 'collide', 'deaf')

Pair = tuple[Report, Report]
Met = dict[tuple[int, int], list[tuple[int, int]]]


class Difference(NamedTuple):
    """The first difference of two lists of lines: the moment, the mote or MEDIUM, and the place in the lists."""
    at: int
    mote: int
    place: int


class Collision(NamedTuple):
    """Packets that met at a mote on one side; on the other side they didn't meet, or met others."""
    at: int
    mote: int
    packets: tuple[list[tuple[int, int]], list[tuple[int, int]]]


def number_of(n: int, what: str) -> str:
    return '%d %s%s' % (n, what, '' if n == 1 else 's')


def lines_of(report: Report, mote: int) -> Sequence[Any]:
    """The lines of a mote, none if there is no such mote; or those of the medium."""
    if mote == MEDIUM:
        return report.medium
    return report.motes[mote].lines if mote < len(report.motes) else ()


def differences(a: Report, b: Report) -> list[Difference]:
    """The first difference of each mote's traces, and of the logs of the medium, in the order of moments.

    At one moment the motes are in their order, and the medium is after them.
    """
    found = []
    for mote in (*range(max(len(a.motes), len(b.motes))), MEDIUM):
        ours, others = lines_of(a, mote), lines_of(b, mote)
        place = next((at for at, (one, other) in enumerate(zip(ours, others)) if one != other),
                     min(len(ours), len(others)))
        left = [its[place].at for its in (ours, others) if place < len(its)]
        found += [Difference(min(left), mote, place)] if left else []
    return sorted(found, key=lambda it: (it.at, it.mote == MEDIUM, it.mote))


def heads(a: Report, b: Report) -> Iterator[str]:
    """The motes that run another program, or that only one report has."""
    for mote in range(max(len(a.motes), len(b.motes))):
        says = ['runs %s in %s' % (it.motes[mote].program, letter) if mote < len(it.motes) else 'is not in %s' % letter
                for letter, it in zip(LETTERS, (a, b))]
        if says[0][:-1] != says[1][:-1]:
            yield 'mote %d %s' % (mote, ' and '.join(says))


def collisions(report: Report) -> Met:
    """The packets that met, by moment and mote."""
    found: Met = {}
    for line in report.lines('collide'):
        if line.packet:
            found.setdefault((line.at, line.mote), []).append(line.packet)
    return found


def first_collision(ours: Met, others: Met) -> Collision | None:
    """The first collision that one report has and the other hasn't."""
    for at, mote in sorted(ours | others):
        packets = ours.get((at, mote), []), others.get((at, mote), [])
        if packets[0] != packets[1]:
            return Collision(at, mote, packets)
    return None


def sent(report: Report, packet: tuple[int, int]) -> str:
    """A packet in words."""
    found = report.packet(*packet)
    return 'packet %d of mote %d%s' % (packet[1], packet[0], ' (sent at %d)' % found.at if found else '')


def collision_in_words(found: Collision, reports: Pair, first: Difference) -> list[str]:
    """The packets of a collision, and whether it is the first difference or a later one."""
    sides = [side for side in (0, 1) if found.packets[side]]
    whose = 'only %s has' % LETTERS[sides[0]] if len(sides) == 1 else 'differs between A and B'
    is_first = (found.at, found.mote) == (first.at, first.mote)
    lines = ['The first collision that %s%s:' % (whose, ', which is the first difference' if is_first else '')]
    for side in sides:
        packets = ' and '.join(sent(reports[side], packet) for packet in found.packets[side])
        lines.append('  %s: at moment %d mote %d loses %s' % (LETTERS[side], found.at, found.mote, packets))
    return lines


def origin(line: Line | Packet, report: Report) -> str:
    """The origin of a line: the sending of its packet, or the post of its event."""
    if isinstance(line, Packet):
        return ''
    packet = report.packet(*line.packet) if line.packet and line.kind != 'send' else None
    if packet:
        return 'packet %d of mote %d was sent at %d with value %d' % (
            packet.number, packet.sender, packet.at, packet.value)
    if line.kind in ('take', 'drop'):
        for other in report.motes[line.mote].lines:
            if other.kind == 'post' and other.serial == line.serial:
                return 'event %s was posted at %d: %s %s' % (line.serial, other.at, other.event, other.word)
    return ''


def side_in_words(letter: str, report: Report, it: Difference) -> list[str]:
    """The line of one side at the first difference."""
    if it.mote >= len(report.motes):
        return ['  %s has no such mote' % letter]
    lines = lines_of(report, it.mote)
    if it.place >= len(lines):
        return ['  %s has no further line of it' % letter]
    head = report.medium_row if it.mote == MEDIUM else report.motes[it.mote].row
    shown = ['  %s, line %d: %s' % (letter, head + 1 + it.place, lines[it.place])]
    why = origin(lines[it.place], report)
    return shown + (['      (%s)' % why] if why else [])


def before(lines: Sequence[Line]) -> list[Line]:
    """The last packets and the last other lines, in their order."""
    kept, left = [], {True: PACKETS_BEFORE, False: EVENTS_BEFORE}
    for line in reversed(lines):
        is_packet = line.kind in OF_PACKETS
        if left[is_packet]:
            left[is_packet] -= 1
            kept.append(line)
        elif not left[not is_packet]:
            break
    return kept[::-1]


def packet_of(reports: Pair, it: Difference) -> Packet:
    """The first packet at which two logs of the medium differ."""
    found = [report.medium[it.place] for report in reports if it.place < len(report.medium)]
    return min(found, key=lambda packet: packet[:3])


def led_to(reports: Pair, it: Difference) -> list[str]:
    """The last lines of a mote before a difference; for the log of the medium, of the sender."""
    mote, index, report = it.mote, it.place, reports[0]
    if mote == MEDIUM:
        packet = packet_of(reports, it)
        mote = packet.sender
        report = next(one for one in reports if packet in one.medium[index:index + 1])
        lines = report.motes[mote].lines
        index = next((at for at, line in enumerate(lines) if line.kind == 'send' and line.number == packet.number), 0)
    if mote >= len(report.motes) or not index:
        return []
    kept = before(report.motes[mote].lines[:index])
    head = 'The last packets and events of mote %d before this difference:' % mote
    return [head, *('  ' + str(line) for line in kept)]


def first_in_words(reports: Pair, found: list[Difference], which: str = 'The first difference') -> Iterator[str]:
    """The first of these differences."""
    it = found[0]
    where = 'in the log of the medium' if it.mote == MEDIUM else 'in the trace of mote %d' % it.mote
    yield '%s is at moment %d, %s:' % (which, it.at, where)
    for letter, report in zip(LETTERS, reports):
        yield from side_in_words(letter, report, it)
    yield from led_to(reports, it)
    same = [other.mote for other in found[1:] if other.at == it.at and other.mote != MEDIUM]
    if same:
        yield 'At the same moment %s.' % ('mote %d differs too' % same[0] if len(same) == 1 else
                                         'motes %s differ too' % few(same))
    if it.mote == MEDIUM and len(found) > 1:
        yield ''
        yield from first_in_words(reports, found[1:], 'The first difference in a trace')


def few(numbers: list[int]) -> str:
    return ', '.join(map(str, numbers[:8])) + (' and %d more' % (len(numbers) - 8) if len(numbers) > 8 else '')


def only_in(reports: Pair, found: list[Difference]) -> tuple[int, int]:
    """The numbers of lines that only one report has: those of each mote, and of the medium."""
    only = [0, 0]
    for it in found:
        one, other = (Counter(lines_of(report, it.mote)[it.place:]) for report in reports)
        only[0] += (one - other).total()
        only[1] += (other - one).total()
    return only[0], only[1]


def counted(only: tuple[int, int]) -> str:
    """How many lines differ."""
    if not any(only):
        return 'Both have the same lines, in another order within a moment.'
    return 'Lines that differ: %d only in A, %d only in B' % only


def compared(a: Run, b: Run, most: int) -> tuple[list[str], Difference | None, bool]:
    """The lines that say how two reports differ, with at most this many about their scenarios and about their motes;
    their first difference; and whether they are the same."""
    reports = a.report, b.report
    lines = ['%s: %s' % (letter, run.name) for letter, run in zip(LETTERS, (a, b))]
    if a.scenario and b.scenario:
        lines += scenarios.in_words(a.scenario, b.scenario, most)
    found, others = differences(*reports), list(heads(*reports))
    if not found and not others and a.report.left == b.report.left:
        return lines + ['The reports are the same: %s, %s.' % (
            number_of(len(a.report.motes), 'mote'), number_of(a.report.length, 'line'))], None, True
    lines += ['', 'The reports differ.', *('  ' + it for it in others[:most])]
    if len(others) > most:
        lines += ['  and %d more motes' % (len(others) - most)]
    if found:
        lines += ['', *first_in_words(reports, found)]
    met = tuple(map(collisions, reports))
    collision = first_collision(*met)
    if collision:
        lines += ['', *collision_in_words(collision, reports, found[0])]
        totals = tuple(sum(map(len, it.values())) for it in met)
        lines += ['  copies that collided, in all: %d in A, %d in B' % totals]
    if found:
        lines += ['', counted(only_in(reports, found))]
    if a.report.left != b.report.left:
        lines += ['', 'Copies that would arrive after the end: %d in A, %d in B' % (a.report.left, b.report.left)]
    return lines, found[0] if found else None, False
