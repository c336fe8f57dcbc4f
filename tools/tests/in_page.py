"""The page without a server in a headless browser: what its tests have in common."""
from __future__ import annotations

import base64
import functools
import zlib
from typing import Any

from here import TOP, room_of
from browser import InBrowser
from project.page import MODULE, make_page

FLOODING = (TOP / 'examples/flooding.toml').read_text()
CODES = {'Tab': 9, 'Enter': 13, 'Escape': 27, 'ArrowLeft': 37, 'ArrowUp': 38, 'ArrowRight': 39, 'ArrowDown': 40,
         'Delete': 46}


def fragment(text: str) -> str:
    """The end of a link that carries a text."""
    packing = zlib.compressobj(wbits=-15)
    packed = packing.compress(text.encode()) + packing.flush()
    return '#t=1.' + base64.urlsafe_b64encode(packed).decode().rstrip('=')


@functools.cache
def made_page() -> str:
    return make_page(MODULE.read_bytes())


class InPage(InBrowser):
    """Tests of the page, opened as a file."""

    def setUp(self) -> None:
        super().setUp()
        self.room = room_of(self)
        self.page = self.room / 'motesim.html'
        self.page.write_text(made_page(), 'utf-8')

    def open(self, fragment: str = '', size: tuple[int, int] = (1366, 768)) -> None:
        """Opens the page as a file."""
        self.browser.size(*size)
        self.browser.open(self.page, fragment)
        # (no run is stopped because the machine is busy)
        self.browser.run('(motesim.backend.most = 1e6, 1)')
        self.browser.settle()

    def forget_session(self) -> None:
        """The next visit is one of another tab, which has no steps of this one."""
        self.value('(Storage.prototype.setItem = () => {}, sessionStorage.clear())')

    def said(self) -> Any:
        return self.value('by("said").textContent')

    def key(self, name: str) -> None:
        self.browser.key(name, name, CODES[name], '\r' if name == 'Enter' else None)

    def undo(self, key: str = 'z') -> None:
        for kind in 'rawKeyDown', 'keyUp':
            self.browser.call('Input.dispatchKeyEvent', type=kind, key=key, code='Key' + key.upper(), modifiers=2,
                              windowsVirtualKeyCode=ord(key.upper()))
        self.browser.settle()

    def place(self, mote: int) -> Any:
        """The place of a mote in the window."""
        return self.value('((map, box) => [box.x + map.x(%d), box.y + map.y(%d)])(m.maps[0], '
                          'm.maps[0].canvas.getBoundingClientRect())' % (mote, mote))
