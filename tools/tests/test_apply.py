"""The corrected lines of all messages. How the command writes them is in sessions/explain.toml."""
import pytest
from motesim.explain.applied import changes, in_net
from motesim.scenario.faults import find_fault

BROKEN = 'process a;\nautostart a;\ncode a {\n  var n = 0;\n  body {\n    %s\n  }\n}\n'


@pytest.mark.parametrize('body, lines, is_right', [
    ('n++;\n    print n\n    print m;', ['    n = (n + 1);', '    print n;', '  var m = 0;'], True),
    ('print (1);\n    goto out;', ['    print 1;'], False)])
def test_each_correction_is_made_up_to_the_first_error_without_one(body: str, lines: list[str], is_right: bool) -> None:
    made = list(changes(in_net('p', BROKEN % body)))
    assert [it.edits[0].lines for it, _ in made] == [(it,) for it in lines]
    assert (find_fault(made[-1][1].encode()) is None) == is_right


@pytest.mark.parametrize('name, program', [
    ('blink.c', 'blink'), ('/tmp/My-Program.c', 'my_program'), ('-', 'p'), ('3.c', '3'),
    ('a_very_long_name_of_a_program.c', 'a_very_long_name')])
def test_a_program_gets_an_allowed_name(name: str, program: str) -> None:
    assert "\n%s = '''\nx\n'''\n" % program in in_net(name, 'x')
    assert find_fault(in_net(name, 'process a; code a { body { } }').encode()) is None
