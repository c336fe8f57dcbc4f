"""The comments by which scenarios that tools have written are recognised."""
from __future__ import annotations

import re

MADE_SMALL, PARAMETERS = '# Made small by tools/shrink from ', 'Parameters: '
# The line about a plan of which a parameter is 0.
ZERO_GIVEN = re.compile(r'^# %s(?:.*, )?\w+ = 0(?:,|$)' % PARAMETERS, re.M)
