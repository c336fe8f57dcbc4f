"""What pages on which scenarios are written offer to begin with: the examples, the words of the notation and the rules
of corrections."""
from __future__ import annotations

import json
from typing import Any

from motesim.explain.rules import rules
from motesim.home import EXAMPLES, PACKAGE
from motesim.notation.grammar import COLOURS, NAMING

CARDS = PACKAGE / 'web/examples.json'


def offered() -> dict[str, Any]:
    """The cards of some examples, the texts of all by the names of their files, the words of the notation, and the
    rules of corrections."""
    paths = sorted(EXAMPLES.glob('*.toml'))
    texts = {path.stem: path.read_text('utf-8') for path in paths if not path.name.endswith('.expect.toml')}
    cards = [it for it in json.loads(CARDS.read_text('utf-8')) if it['file'] in texts]
    return {'cards': cards, 'texts': texts, 'words': {'colours': COLOURS, 'naming': NAMING},
            'corrections': rules()}
