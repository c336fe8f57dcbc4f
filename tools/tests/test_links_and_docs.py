"""Links of pages, their parts that are made from the code, and the docs of the crates' public items."""
import re
import unittest
from collections.abc import Iterator
from pathlib import Path

from here import TOP
from motesim.version import VERSION
from project import pages

PAGES = ('*.md', 'docs/**/*.md', 'bench/*.md', 'examples/**/*.md', 'tests/**/*.md', 'tools/**/*.md', 'log/*.md')
PUBLIC = re.compile(r' *pub (fn|struct|enum|trait|const) (\w+)')


def files(*patterns: str) -> list[Path]:
    found = {path for pattern in patterns for path in TOP.glob(pattern) if path.is_file()}
    return sorted(it for it in found if not {'out', '__pycache__', 'node_modules'} & set(it.relative_to(TOP).parts))


def place(path: Path, line: int) -> str:
    return '%s:%d' % (path.relative_to(TOP), line)


def anchors(path: Path) -> set[str]:
    """The anchors of a page's headings."""
    heads = re.findall(r'(?m)^#+ (.*)$', path.read_text('utf-8'))
    return {re.sub(r'[^\w\- ]', '', re.sub(r'\[([^]]*)\]\([^)]*\)', r'\1', it).lower()).strip().replace(' ', '-')
            for it in heads}


def broken_links() -> Iterator[str]:
    """Links of pages to files or headings that aren't there."""
    for path in files(*PAGES):
        for number, line in enumerate(path.read_text('utf-8').splitlines(), 1):
            for target in re.findall(r'\]\(([^)\s]+)\)', line):
                name, _, anchor = target.partition('#')
                file = (path.parent / name).resolve() if name else path
                if not name.startswith(('http:', 'https:', 'mailto:')) and not (
                        file.exists() and (not anchor or file.suffix != '.md' or anchor in anchors(file))):
                    yield '%s: %s' % (place(path, number), target)


def faults_of_docs() -> Iterator[str]:
    """Public items without a doc comment, and functions that return a result but have no section on errors."""
    for path in files('crates/*/src/**/*.rt'):
        lines, doc = path.read_text('utf-8').splitlines(), list[str]()
        for number, line in enumerate(lines, 1):
            bare = line.strip()
            if bare.startswith('///'):
                doc.append(bare[3:].strip())
            elif not (doc and bare.startswith(('#[', 'ghost '))):
                head = ' '.join([line, *([] if line.endswith(';') else lines[number:number + 15])]).partition('{')[0]
                if PUBLIC.match(line) and (not doc or '-> Result<' in head and '# Errors' not in doc):
                    yield place(path, number)
                doc = []


class LinksAndDocs(unittest.TestCase):
    def test_no_link_is_broken(self) -> None:
        self.assertEqual([*broken_links()], [])

    def test_the_parts_that_are_made_from_the_code_are_up_to_date(self) -> None:
        for path in files('docs/*/*.md'):
            text = path.read_text('utf-8')
            self.assertEqual(pages.page_of(text), text, '%s: tools/dev/pages writes it' % path.name)
        page = (TOP / 'docs/use/SCENARIO.md').read_text('utf-8')
        changed = page.replace('| `medium` | `range` |', '| `medium` | `reach` |')
        self.assertNotEqual(pages.page_of(changed), changed)

    def test_the_citation_is_about_this_version(self) -> None:
        text = (TOP / 'CITATION.cff').read_text('utf-8')
        found = dict(re.findall(r'^([a-z-]+): *(.*)$', text, re.M))
        self.assertLessEqual({'authors', 'cff-version', 'message', 'title'}, set(found))
        self.assertEqual((found['version'], found['cff-version'], found['type']),
                         ('"%s"' % VERSION, '1.2.0', 'software'))
        changes = (TOP / 'CHANGES.md').read_text('utf-8')
        self.assertIn('## %s, %s\n' % (VERSION, found['date-released']), changes)

    def test_public_items_have_docs(self) -> None:
        self.assertEqual([*faults_of_docs()], [])
