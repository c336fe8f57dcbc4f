"""The measures of the study of density, besides the columns of tools/summary."""


def neighbours(run):
    """The number of other motes that a mote hears, on average."""
    motes = run.scenario.motes
    return sum(len(run.scenario.hearers(mote)) for mote in range(motes)) / motes


def aloha(run):
    """The share of the copies that slotted ALOHA would deliver, because no other neighbour of the receiver sends
    then."""
    ends = [packet.sender for packet in run.report.medium]
    period = (run.scenario.end + 1) * run.scenario.motes / max(1, len(ends))
    heard = [len(run.scenario.hearers(mote)) for mote in range(run.scenario.motes)]
    chances = [(1 - 1 / period) ** (heard[to] - 1) for sender in ends for to in run.scenario.hearers(sender)]
    return sum(chances) / len(chances) if chances else None
