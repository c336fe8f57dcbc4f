"""Grades for a folder of solutions: which expectations hold for each, in the teacher's nets.

    entries  the entries of the folder: each is a solution, or has the reason why it isn't
    nets     the nets in which programs run: scenarios, or the scenarios of a plan
    marking  the marks of one solution, within limits
    marks    what a table and a page show of these marks
    tables   the marks as text and CSV
    page     the marks as a page, with a timeline for each first failed sentence
    command  tools/grade
"""
