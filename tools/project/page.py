"""Makes `web/motesim.html`: the page that runs motesim without a server, in one file.

    make_page(module)      the text of the page, from the bytes of web/motecheck.wasm, which also writes reports

The page is a function of the module, of its sources in tools/motesim, of the examples and of web/run_module.js.
"""
from __future__ import annotations

import base64
import gzip
import json
import shutil
import subprocess
import sys
from pathlib import Path

from motesim.faults import Fault
from motesim.files import write_whole
from motesim.notation.faults import RULES as PROGRAM_RULES
from motesim.runner.programs import TOP
from motesim.scenario.faults import RULES as SCENARIO_RULES
from motesim.studio.examples import offered
from motesim.studio.reference import reference
from motesim.timeline.bundle import bundle
from motesim.timeline.html import MARK, TEMPLATE, style

PAGE = TOP / 'tools/motesim/web/page'
MODULE = TOP / 'web/motecheck.wasm'
RUN, HTML = TOP / 'web/run_module.js', TOP / 'web/motesim.html'
# The page may fetch nothing, and run only its own scripts and module.
POLICY = ('<meta http-equiv="Content-Security-Policy" content="default-src \'none\'; script-src \'unsafe-inline\' '
          '\'wasm-unsafe-eval\'; worker-src blob:; style-src \'unsafe-inline\'; img-src data: blob:; base-uri '
          '\'none\'; form-action \'none\'">')
LONGEST = 720_000
# (the browsers that the page needs have all of this language)
MINIFY = ['esbuild', '--minify', '--target=es2022', '--log-level=error']
NO_ESBUILD = 'this needs esbuild: on Debian `apt-get install esbuild` installs it'


def data() -> str:
    """The examples, the words of the notation, those of corrections, and the rules that errors break, as JSON."""
    rules = {'program %d' % kind: '%s: %s' % rule for kind, rule in PROGRAM_RULES.items()} | SCENARIO_RULES
    return json.dumps({**offered(), 'rules': rules}, separators=(',', ':'), ensure_ascii=False).replace('<', '\\u003c')


def script(entry: Path, before: str = '') -> str:
    """A module with all that it imports, as the text of an element, made small by esbuild."""
    if not shutil.which(MINIFY[0]):
        raise Fault(NO_ESBUILD)
    done = subprocess.run(MINIFY, input=before + bundle(entry), capture_output=True, encoding='utf-8')
    if done.returncode:
        raise Fault('esbuild failed: %s' % done.stderr.strip())
    return done.stdout.replace('</script', '<\\/script')


def packed(module: bytes) -> str:
    """A module, compressed, in base64."""
    return base64.b64encode(gzip.compress(module, 9, mtime=0)).decode('ascii')


def make_page(module: bytes) -> str:
    """The text of the page, with the module of `motecheck`."""
    fill = {
        'HELP': reference(), 'TITLE': 'motesim', 'KIND': 'lone', 'STYLE': style(), 'DATA': data(), 'POLICY': POLICY,
        'MODULE': packed(module),
        'WORKER': script(PAGE / 'worker.js', RUN.read_text('utf-8')),
        'SCRIPT': '<script>\n%s\n</script>' % script(PAGE / 'lone.js'),
    }
    return MARK.sub(lambda mark: fill[mark[1]], TEMPLATE.read_text('utf-8'))


def main() -> int:
    """Writes the page from the committed module, and prints its size."""
    text = make_page(MODULE.read_bytes()).encode('utf-8')
    write_whole(HTML, [text])
    print('%s: %s bytes' % (HTML.relative_to(TOP), '{:,}'.format(len(text))))
    return 0 if len(text) <= LONGEST else 1


if __name__ == '__main__':
    sys.exit(main())
