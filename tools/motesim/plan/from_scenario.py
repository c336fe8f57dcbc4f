"""Makes a plan from a scenario: its numbers become parameters, and its programs, places and losses are in files next
to the plan.

The plan makes the same net: the same motes by their numbers, programs, losses and lengths of queues. Programs that no
mote runs are left out.
"""
from __future__ import annotations

from collections.abc import Iterator
from pathlib import Path

from motesim.faults import Fault
from motesim.scenario import Scenario

HEAD = """# Written by tools/scenario --from %s. Each parameter may be varied by tools/sweep, and named in the
# programs as well: ${NAME}.
end = "${end}"

[medium]
range = "${range}"
base = "${base}"
per = "${per}"
collide = %s

[parameters]
end = %d
range = %d
base = %d
per = %d
"""


def _stem(name: str) -> str:
    """The name of a plan without its endings."""
    return Path(name).name.removesuffix('.toml').removesuffix('.plan')


def files_of(scenario: Scenario, source: str, plan: str) -> dict[str, str]:
    """The plan and the files next to it, by their names."""
    stem = _stem(plan)
    found = {name + '.mote': _text(name, text) for name, text in scenario.programs.items()
             if any(place.program == name for place in scenario.places)}
    found[stem + '.places.csv'] = 'x,y,program\n' + ''.join(
        '%d,%d,%s.mote\n' % (place.x, place.y, place.program) for place in scenario.places)
    if scenario.losses:
        found[stem + '.losses.csv'] = 'from,to,every\n' + ''.join(
            '%d,%d,%d\n' % (*link, every) for link, every in scenario.losses.items())
    found[Path(plan).name] = ''.join(_plan(scenario, source, stem))
    return found


def _text(name: str, text: str) -> str:
    """A program's text; one with `${` is refused, because it would have parameters."""
    if '${' in text:
        raise Fault('the program %s has `${` in a comment, which names a parameter in a plan: change it first' % name)
    return text


def _plan(scenario: Scenario, source: str, stem: str) -> Iterator[str]:
    yield HEAD % (Path(source).name, str(scenario.collide).lower(), scenario.end, scenario.range, scenario.base,
                  scenario.per)
    yield '\n[places]\nrule = "csv"\nfile = "%s.places.csv"\nprogram = "%s.mote"\n' % (
        stem, scenario.places[0].program)
    if scenario.losses:
        yield '\n[[loss]]\nrule = "csv"\nfile = "%s.losses.csv"\n' % stem
    used = {name: length for name, length in scenario.queue.items()
            if any(place.program == name for place in scenario.places)}
    if used:
        yield '\n[queue]\n' + ''.join('%s = %d\n' % it for it in used.items())


def write_plan(scenario: Scenario, source: str, plan: Path) -> list[Path]:
    """Writes a plan and the files next to it. Doesn't overwrite a file that has another text."""
    files = files_of(scenario, source, str(plan))
    for name, text in files.items():
        path = plan.parent / name
        if path.exists() and path.read_bytes() != text.encode():
            raise Fault('%s is there already, and is another file: choose another folder for the plan' % path)
    for name, text in files.items():
        (plan.parent / name).write_text(text, encoding='utf-8', newline='\n')
    return [plan.parent / name for name in files]
