"""The reference inside the pages: the notation at a glance, the forms of expectations and faults, and the grammar of
claims, from docs/use.
"""
from __future__ import annotations

import html
import re
from collections.abc import Iterator

from motesim.runner.programs import TOP

PARTS = [('LANGUAGE.md', 'The notation', '## At a glance\n', '\n## '),
         ('CARD.md', 'Expectations', '## Expectations\n', '\n## '), ('CARD.md', 'Faults', '## Faults\n', '\n## '),
         ('EXPECTATIONS.md', 'Claims', '<!-- written by tools/dev/pages: grammar of claims -->\n', '<!-- end -->')]


def inline(text: str) -> str:
    """The words of a paragraph or a cell: code stays code, and of a link only its words stay."""
    text = re.sub(r'\[([^\]]*)\]\([^)]*\)', r'\1', html.escape(text, quote=False))
    return re.sub(r'`([^`]*)`', r'<code>\1</code>', text.replace('\\|', '|')).strip()


def blocks(text: str) -> Iterator[str]:
    """The blocks of a page: code, tables and paragraphs."""
    for code, rest in re.findall(r'```[^\n]*\n(.*?)```|((?:(?!```).)+)', text, re.S):
        if code:
            yield '<pre>%s</pre>' % html.escape(code, quote=False)
        for block in filter(str.strip, rest.split('\n\n')):
            rows = block.strip().split('\n')
            if rows[0].startswith('|'):
                cells = [[inline(it) for it in re.split(r'(?<!\\)\|', row.strip('|'))] for row in rows
                         if not row.startswith('|---')]
                yield '<table>%s</table>' % ''.join('<tr>%s</tr>' % ''.join('<td>%s</td>' % it for it in row)
                                                    for row in cells)
            else:
                yield '<p>%s</p>' % inline(' '.join(rows))


def reference() -> str:
    """The reference as HTML; '' where the pages aren't installed."""
    found = []
    for name, title, begin, end in PARTS:
        path = TOP / 'docs/use' / name
        if path.exists():
            text = path.read_text('utf-8').partition(begin)[2].partition(end)[0]
            found.append('<h3>%s</h3>%s' % (title, ''.join(blocks(text))))
    return ''.join(found)
