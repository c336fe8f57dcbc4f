"""Reports: their lines and packets, and how they are read.

    lines    a line of a trace, a packet, a copy        reader   reads a report into columns, and finds its fault
    columns  all lines and packets as arrays            lazy     reads only the kinds of lines that are asked for
    report   a report with its motes                    moments  packets that one mote sends at the same moment
    belongs  checks that a report is of a scenario
"""
from motesim.report.columns import KINDS, LOST, MASKS, NONE, Log, Trace
from motesim.report.lines import FIELDS, MOST_MOMENT, MOST_WORD, Copy, Line, Packet
from motesim.report.report import BECAME, OUTCOMES, Mote, Outcome, Report
from motesim.report.reader import ReportFault

__all__ = ['BECAME', 'FIELDS', 'KINDS', 'LOST', 'MASKS', 'MOST_MOMENT', 'MOST_WORD', 'NONE', 'OUTCOMES', 'Copy', 'Line',
           'Log', 'Mote', 'Outcome', 'Packet', 'Report', 'ReportFault', 'Trace']
