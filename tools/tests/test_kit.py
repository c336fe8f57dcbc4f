"""That the kit at hand is the one that tools/project/kit.py knows, with all that it takes of it."""
import shutil
import sys
import types
import unittest
from unittest import mock

import here
from motesim.faults import Fault
from motesim.version import KIT, LOGIC
from motesim.runner import programs
from project import kit
from skips import long


@unittest.skipUnless(shutil.which('rt'), 'the command rt of the Rattle kit is not here')
class AtHand(unittest.TestCase):
    def test_it_has_the_logic_that_is_named(self) -> None:
        self.assertEqual(kit.warnings(), [])

    def test_the_readme_names_it(self) -> None:
        self.assertIn('`%s`' % LOGIC.split()[-1], (here.TOP / 'README.md').read_text('utf-8'))

    def test_it_has_all_that_is_taken(self) -> None:
        kit.check_parts(kit.rt())

    def test_a_check_reads_the_parts_that_the_tools_know(self) -> None:
        self.assertEqual(kit.rtlib().PARTS, programs.ALL_PARTS)

    def test_the_program_stands_on_the_crates_that_the_tools_find(self) -> None:
        program = kit.crate_named('motesim', here.TOP)
        self.assertEqual(sorted(it.name for it in [*program.below(), program]), programs.crates_of_program(here.TOP))


@long
class Format(unittest.TestCase):
    def test_all_sources_definitions_and_proofs_have_the_format_of_the_kit(self) -> None:
        # (the kit's messages about a file are in the test's output)
        others = [it.folder for it in kit.crates_below(here.TOP) if kit.rtlib().fmt(it.folder, '--check', sys.stdout)]
        self.assertEqual(others, [], '`rt fmt` in these folders formats their files')


class Others(unittest.TestCase):
    def test_another_kit_is_told(self) -> None:
        said = 'the kit here is another kit, and this tree was proved with %s' % KIT
        for at_hand, seen in (KIT, []), ('rattle-kit-x %s' % LOGIC, []), ('another kit', [said + ': proofs may fail']):
            with mock.patch.object(kit, 'version', lambda: at_hand):
                self.assertEqual(kit.warnings(), seen)

    def test_a_kit_that_lacks_a_part_is_told(self) -> None:
        lacking = types.SimpleNamespace(checked=None)
        with mock.patch.object(kit, 'version', lambda: 'another kit'):
            with self.assertRaisesRegex(Fault, "the kit here is another kit, and lacks .* attribute 'edited'"):
                kit.check_parts(lacking)

    def test_no_kit_is_told(self) -> None:
        with mock.patch('project.kit.shutil.which', lambda name: None):
            with self.assertRaisesRegex(Fault, 'rt of the Rattle kit, .* is not installed'):
                kit.rt.__wrapped__()
