"""Searches for the faults that break a protocol, and makes scenarios small: docs/use/TESTING.md.

    command.py         tools/search
    kinds.py           the kinds of faults, and their options
    searching.py       a search: what it asks, and its result
    survey.py          surveys, which motecheck makes
    measured.py        the run with a set of faults: the lines that it lacks, and when packets are sent
    cuts.py            the motes that a set of faults cuts off
    found.py           the files and tables of the sets that were found
    say.py             what is said about a search and its results
    progress.py        the progress of a search, on standard error
    study.py           searches with their expected results

    shrink_command.py  tools/shrink
    shrink.py          delta debugging
    net.py, smaller.py   scenarios and programs as values, and the steps to smaller ones
    following.py       sentences that follow motes with other numbers
"""
