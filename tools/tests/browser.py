"""A headless Chromium for tests of pages, driven by the DevTools protocol over a WebSocket (python3-websocket).

    browser, why = Browser.start()      # None if no browser is installed or it doesn't start, and why
    with browser:
        browser.open(path)
        browser.run('1 + 1')
"""
from __future__ import annotations

import atexit
import base64
import contextlib
import functools
import json
import os
import shutil
import subprocess
import tempfile
import unittest
import urllib.request
from pathlib import Path
from typing import Any

from here import SECONDS, until

try:
    import websocket
except ImportError:
    websocket = None

# (the first is Chromium without its windows, and needs half of the time)
NAMES = ['chromium-headless-shell', 'chromium', 'chromium-browser', 'google-chrome', 'google-chrome-stable', 'chrome']
STILL = [{'name': 'prefers-reduced-motion', 'value': 'reduce'}]


class BrowserFault(Exception):
    """The browser doesn't start, doesn't answer, or the page has a fault."""


class Navigated(BrowserFault):
    """The page became another one before it could answer."""


# The errors that end a session with the browser.
FAULTS: tuple[type[Exception], ...] = (OSError, BrowserFault, ValueError,
                                       *([websocket.WebSocketException] if websocket else []))


class Browser:
    """One page of a headless browser with a profile of its own."""

    def __init__(self, program: str):
        self.room = tempfile.mkdtemp(prefix='motesim-browser-')
        words = [program, '--headless=new', '--no-sandbox', '--disable-gpu', '--disable-dev-shm-usage',
                 '--no-first-run',
                 '--disable-extensions', '--disable-background-networking', '--remote-debugging-port=0',
                 '--remote-allow-origins=*', '--window-size=1280,800', '--user-data-dir=' + self.room, 'about:blank']
        self.process = subprocess.Popen(words, stdin=subprocess.DEVNULL, stdout=subprocess.DEVNULL,
                                        stderr=subprocess.DEVNULL, start_new_session=True)
        self.socket: Any = None
        self.number = 0
        self.faults: list[str] = []
        try:
            self.socket = websocket.create_connection(self.page_address(), timeout=SECONDS, suppress_origin=True)
            for name in ('Page.enable', 'Runtime.enable'):
                self.call(name)
        except FAULTS:
            self.close()
            raise

    @classmethod
    def start(cls) -> tuple[Browser | None, str]:
        """A browser, or None and why there is none."""
        if websocket is None:
            return None, 'on Debian `apt-get install python3-websocket` installs what drives one'
        named = os.environ.get('MOTESIM_BROWSER')
        found = [named] if named else [path for path in (shutil.which(it) for it in NAMES) if path]
        if not found:
            return None, 'there is no Chromium: on Debian `apt-get install chromium-headless-shell` installs it'
        try:
            return cls(found[0]), ''
        except FAULTS as fault:
            return None, '%s doesn\'t start: %s' % (found[0], fault)

    def page_address(self) -> str:
        """The address of the page, once the browser has written it."""
        file, pages = Path(self.room, 'DevToolsActivePort'), list[dict[str, Any]]()

        def has_page() -> bool:
            if self.process.poll() is not None:
                raise BrowserFault('it ends with status %d' % self.process.returncode)
            with contextlib.suppress(OSError, IndexError, ValueError):
                port = int(file.read_text().split()[0])
                with urllib.request.urlopen('http://127.0.0.1:%d/json' % port, timeout=SECONDS) as answer:
                    pages.extend(page for page in json.load(answer) if page['type'] == 'page')
            return bool(pages)
        if not until(has_page):
            raise BrowserFault('it writes no port')
        return str(pages[0]['webSocketDebuggerUrl'])

    def call(self, name: str, **words: Any) -> dict[str, Any]:
        """Calls the browser, and waits for the answer; errors of the page meanwhile are kept."""
        self.number += 1
        self.socket.send(json.dumps({'id': self.number, 'method': name, 'params': words}))
        while True:
            said = json.loads(self.socket.recv())
            if said.get('method') == 'Runtime.exceptionThrown':
                details = said['params']['exceptionDetails']
                self.faults.append(details.get('exception', {}).get('description') or details['text'])
            if said.get('id') == self.number:
                if 'error' in said:
                    kind = Navigated if 'navigated' in said['error']['message'] else BrowserFault
                    raise kind('%s: %s' % (name, said['error']['message']))
                result: dict[str, Any] = said['result']
                return result

    def run(self, script: str) -> Any:
        """The value of a script in the page; of a promise what it brings."""
        done = self.call('Runtime.evaluate', expression=script, returnByValue=True, awaitPromise=True)
        if 'exceptionDetails' in done:
            details = done['exceptionDetails']
            raise BrowserFault(details.get('exception', {}).get('description') or details['text'])
        return done['result'].get('value')

    def size(self, width: int, height: int, dots: float = 1) -> None:
        self.call('Emulation.setDeviceMetricsOverride', width=width, height=height, deviceScaleFactor=dots,
                  mobile=False)

    def dark(self, is_dark: bool) -> None:
        scheme = {'name': 'prefers-color-scheme', 'value': 'dark' if is_dark else 'light'}
        self.call('Emulation.setEmulatedMedia', features=[*STILL, scheme])

    def open(self, path: Path, fragment: str = '') -> None:
        """Opens a page, and waits until it is ready."""
        self.call('Page.navigate', url='about:blank')
        self.call('Page.navigate', url=Path(path).resolve().as_uri() + fragment)
        self.wait('window.motesim && window.motesim.ready')

    def visit(self, address: str, ready: str) -> None:
        """Opens a page that a server has, and waits until a script in it is true."""
        self.call('Page.navigate', url='about:blank')
        self.call('Page.navigate', url=address)
        self.wait(ready)

    def type(self, text: str) -> None:
        """Types text at the caret, as a keyboard does."""
        self.call('Input.insertText', text=text)

    def wait(self, script: str) -> None:
        def is_so() -> Any:
            # (while another page is loaded, there is none to ask)
            with contextlib.suppress(Navigated):
                return self.faults or self.run('Boolean(%s)' % script)
        if not until(is_so) or self.faults:
            shown = self.run('document.body && document.body.innerText.slice(0, 300)')
            raise BrowserFault('the page is not ready: %s %s' % (shown, self.faults))

    def settle(self) -> None:
        """Waits until what was asked for is drawn."""
        self.run('new Promise(done => requestAnimationFrame(() => requestAnimationFrame(() => done(1))))')

    def click(self, x: float, y: float) -> None:
        for kind in ('mousePressed', 'mouseReleased'):
            self.call('Input.dispatchMouseEvent', type=kind, x=x, y=y, button='left', clickCount=1)
        self.settle()

    def drag(self, x: float, y: float, to_x: float, to_y: float) -> None:
        self.call('Input.dispatchMouseEvent', type='mousePressed', x=x, y=y, button='left', clickCount=1)
        self.call('Input.dispatchMouseEvent', type='mouseMoved', x=to_x, y=to_y, button='left', buttons=1)
        self.call('Input.dispatchMouseEvent', type='mouseReleased', x=to_x, y=to_y, button='left', clickCount=1)
        self.settle()

    def move(self, x: float, y: float) -> None:
        self.call('Input.dispatchMouseEvent', type='mouseMoved', x=x, y=y)
        self.settle()

    def wheel(self, x: float, y: float, by: float, keys: int = 0) -> None:
        self.call('Input.dispatchMouseEvent', type='mouseWheel', x=x, y=y, deltaX=0, deltaY=by, modifiers=keys)
        self.settle()

    def key(self, key: str, code: str = '', number: int = 0, text: str | None = None) -> None:
        text = key if text is None and len(key) == 1 else text or ''
        self.call('Input.dispatchKeyEvent', type='keyDown', key=key, code=code, windowsVirtualKeyCode=number, text=text)
        self.call('Input.dispatchKeyEvent', type='keyUp', key=key, code=code, windowsVirtualKeyCode=number)
        self.settle()

    def print(self, path: Path) -> None:
        """The printed page, as PDF."""
        done = self.call('Page.printToPDF', preferCSSPageSize=True, printBackground=True)
        Path(path).write_bytes(base64.b64decode(done['data']))

    def close(self) -> None:
        """Ends the browser that was started here, and removes its profile."""
        with contextlib.suppress(*FAULTS):
            if self.socket:
                self.call('Browser.close')
                self.socket.close()
        self.process.terminate()
        self.process.wait(SECONDS)

        def is_removed() -> bool:
            # (its other processes may still write)
            shutil.rmtree(self.room, ignore_errors=True)
            return not os.path.exists(self.room)
        until(is_removed)

    def __enter__(self) -> Browser:
        return self

    def __exit__(self, *_: object) -> None:
        self.close()


@functools.cache
def shared() -> tuple[Browser | None, str]:
    """The browser of this process, in which its tests follow one another; or why there is none."""
    browser, why = Browser.start()
    if browser:
        atexit.register(_close, browser, os.getpid())
    return browser, why


def _close(browser: Browser, process: int) -> None:
    # (a process that was forked for a test ends too)
    if os.getpid() == process:
        browser.close()


class InBrowser(unittest.TestCase):
    """Tests in one browser, which are skipped if it doesn't start. Scripts know the page's parts by short names."""
    browser: Any
    known = ('const m = motesim, pane = m.panes[0], run = pane && pane.run, web = m.web, text = web.history.text, '
             'by = id => document.getElementById(id), button = (box, words) => '
             '[...by(box).querySelectorAll("button")].find(it => it.textContent.includes(words)), find = words => {'
             'const it = by("log-asked"); it.value = words; if (by("log").hidden) by("tab-log").click(); '
             'it.form.requestSubmit(); m.chosen.line = -1; m.act("n"); }')

    @classmethod
    def setUpClass(cls) -> None:
        cls.browser, why = shared()
        if cls.browser is None:
            raise unittest.SkipTest('browser: ' + why)

    def setUp(self) -> None:
        self.browser.call('Page.navigate', url='about:blank')
        # (nothing moves by itself, which would need most of the time)
        self.browser.call('Emulation.setEmulatedMedia', features=STILL)
        self.browser.call('Storage.clearDataForOrigin', origin='file://', storageTypes='local_storage')
        self.browser.faults.clear()

    def tearDown(self) -> None:
        self.assertEqual(self.browser.faults, [])

    def value(self, script: str) -> Any:
        return self.browser.run('(() => { %s; return %s; })()' % (self.known, script))

    def wait(self, script: str) -> None:
        self.browser.wait('(() => { %s; return %s; })()' % (self.known, script))

    def unnamed(self) -> Any:
        """What is drawn, or can be used, without a name for readers of screens."""
        return self.value('''[...document.querySelectorAll("button, input, select, canvas, textarea")].filter(it =>
          it.getClientRects().length && !(it.textContent.trim() && it.matches("button")) && !it.labels?.length &&
          !it.getAttribute("aria-label") && !it.getAttribute("aria-hidden")).map(it => it.outerHTML)''')

    def downloaded(self, path: Path, press: str) -> Path:
        """The file that a button hands out, once it is complete."""
        self.browser.call('Browser.setDownloadBehavior', behavior='allow', downloadPath=str(path.parent))
        self.press(press)
        # (another name is that of a part of a file, and an empty one only keeps the place)
        until(lambda: path.exists() and path.stat().st_size > 0 and not [*path.parent.glob('*.crdownload')])
        return path

    def press(self, name: str) -> None:
        self.value('by(%s).click()' % json.dumps(name))

    def press_in(self, box: str, words: str) -> None:
        self.value('button(%s, %s).click()' % (json.dumps(box), json.dumps(words)))

    def put(self, text: str) -> None:
        """Replaces the whole text of the page, as a paste does."""
        self.value('(it => { it.focus(); it.value = %s; it.dispatchEvent(new Event("input")); })(by("text"))'
                   % json.dumps(text))
