"""The needs of tests beyond Python: if one is missing, the test is skipped, and tools/dev/test_tools says why. And the
mark of tests that need long."""
import shutil
import sys
import unittest
from typing import Any, TypeVar

from motesim import packages
from motesim.faults import Fault
from motesim.runner.programs import CHECKER, PROGRAM, is_module, program_path


Test = TypeVar('Test')


def long(test: Test) -> Test:
    """Marks a test, or a class of tests, that compiles C, installs the tools, calls the kit, starts a cluster, or
    repeats a study: `./test --quick` leaves it out."""
    marked: Any = test
    marked.is_long = True
    return test


def interpreter_with(test: unittest.TestCase | type[unittest.TestCase], module: str) -> str:
    """An interpreter that has a module."""
    if packages.is_here(module):
        return sys.executable
    if not packages.has(module):
        raise unittest.SkipTest('%s is not installed' % packages.DEBIAN[module])
    return packages.SYSTEM


def need(name: str, package: str) -> None:
    """A command of a package."""
    if not shutil.which(name):
        raise unittest.SkipTest('%s is not installed: on Debian `apt-get install %s` installs it' % (name, package))


def workers(number: int) -> list[str]:
    """The arguments of a motecheck that shares its work among threads; none if it is the module, which has one."""
    return [] if is_module(program_path(CHECKER)) else ['--workers', str(number)]


def need_built(*names: str) -> None:
    """The built motesim, or other programs."""
    try:
        for name in names or [PROGRAM]:
            program_path(name)
    except Fault as fault:
        raise unittest.SkipTest(str(fault))
