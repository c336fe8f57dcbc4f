"""One name, one thing: a type, and a definition whose name begins with a capital, stands once in all crates. And
contracts rest on definitions: they cite no proofs."""
import re
import unittest
from collections import defaultdict
from pathlib import Path

from here import TOP

TYPE = re.compile(r'^(?:pub(?:\(\w+\))? )?(?:struct|enum|trait|type) (\w+)', re.MULTILINE)
DEFINITION = re.compile(r"^(?:abbrev )?(?:pub )?(?:record |data )?(?:pub )?([A-Z][\w'-]*)(?=[^\n]*:)", re.MULTILINE)
CITED = re.compile(r'\bRattle\.(\w+)\.proofs\b')
# Names of two things or more: a better name is worth more than a row here. `simulation` and `claim_check` each have a
# command line, which is defined in the same words.
COMMAND_LINES = {'Asked', 'Options', 'AskedIn', 'AsksFor', 'Commands', 'FaultOf', 'RefusesWords', 'Reported',
                 'ReturnsSome'}
SHARED_TYPES = {'Count', 'Entry', 'Fault', 'Found', 'Limits', 'Part', 'Place', 'Reach', 'Reader', 'Scope', 'Timer',
                'Waiting'}
SHARED_DEFINITIONS = {'Answer', 'Answered', 'AreAnswers', 'Extends', 'Grows', 'IsAt', 'IsCopyOf', 'IsInside',
                      'IsRefused', 'IsSettled', 'IsSound', 'IsWithinLimits', 'Looks', 'LossTablesAgree',
                      'OrderMeansNothing', 'Refuses', 'RefusesFaults', 'Runs', 'RunsWith', 'UnsentIsNothing'}
# The answers of a `Trial` come with a proof that they are what a survey rests on, which only a lemma can give.
GIVES_A_PROOF = {'crates/net_survey/src/net_trial.rt'}


def files(part: str, ending: str) -> list[Path]:
    return sorted((TOP / 'crates').glob('*/%s/**/*%s' % (part, ending)))


def shared(paths: list[Path], form: re.Pattern[str]) -> dict[str, set[str]]:
    """The names that stand in several files, each with its files."""
    found = defaultdict(set)
    for path in paths:
        for name in form.findall(path.read_text('utf-8')):
            found[name].add(str(path.relative_to(TOP)))
    return {name: where for name, where in found.items() if len(where) > 1}


class Names(unittest.TestCase):
    def test_a_type_has_a_name_of_its_own(self) -> None:
        paths = [it for it in files('src', '.rt') if 'tests' not in str(it.relative_to(TOP))]
        self.assertGreater(len(paths), 200)
        self.assertEqual({*shared(paths, TYPE)} - COMMAND_LINES, SHARED_TYPES)

    def test_a_definition_has_a_name_of_its_own(self) -> None:
        self.assertEqual({*shared(files('specs', '.antt'), DEFINITION)} - COMMAND_LINES, SHARED_DEFINITIONS)

    def test_a_contract_cites_no_proofs(self) -> None:
        for path in files('src', '.rt') + files('specs', '.antt'):
            cited = set(CITED.findall(path.read_text('utf-8'))) - {'std'}
            name = str(path.relative_to(TOP))
            self.assertTrue(not cited or name in GIVES_A_PROOF, '%s cites the proofs of %s' % (name, cited))
