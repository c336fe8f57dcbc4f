"""The tools for people who work on motesim itself: a module for each command, and modules that the commands share.

    kit      the Rattle kit's own module, and its used parts    testing  the commands that call pytest
    running  commands that end with this process                tree     the commit, and other facts from git
    mutants  the mutants of functions, and their verdicts       counts   the last lines of the tests
"""
