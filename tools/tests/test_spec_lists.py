"""The list of definitions on which the headline rests, in its order."""
import tomllib
import unittest

from here import TOP, Room, text_of
from motesim.faults import Fault
from project import spec_lists

TREE = tomllib.loads(text_of('spec_lists.toml'))


class Lists(Room):
    def setUp(self) -> None:
        super().setUp()
        for name, text in TREE['files'].items():
            self.put(name, text)

    def test_what_is_imported_is_listed_from_the_top_down(self) -> None:
        self.assertEqual(spec_lists.headline(self.room), TREE['list'])

    def test_a_file_of_another_form_is_told(self) -> None:
        for text, said in (('-- What is near.\nuse Rattle.low.specs.Gone.{x}\n',
                            'there is no file for the import Rattle.low.specs.Gone'),
                           ('-- What is near.\nuse {x} from Rattle\n', 'an import has a form'),
                           ('abbrev near : Type 0\n', 'has to begin with a comment')):
            self.put('crates/low/specs/Near.antt', text)
            with self.assertRaisesRegex(Fault, said):
                spec_lists.headline(self.room)


class ThisTree(unittest.TestCase):
    def test_the_headline_rests_on_files_that_come_behind_it(self) -> None:
        rests = spec_lists.Rests(TOP)
        self.assertGreater(len(rests.files), 20)
        places = {path: rests.crates.index(spec_lists.crate_of(TOP, path)) for path in rests.files}
        for path, below in rests.files.items():
            for it in below:
                self.assertLessEqual(places[it], places[path])
