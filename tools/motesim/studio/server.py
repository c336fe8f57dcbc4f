"""Serves the studio's page on this machine only, to users who have its address.

The address has a random token. A request without it, with another `Host`, or from a page of another origin gets the
status 403 and nothing else.
"""
from __future__ import annotations

import contextlib
import functools
import hmac
import json
import secrets
import socket
import sys
from collections.abc import Callable
from http.server import BaseHTTPRequestHandler, ThreadingHTTPServer
from pathlib import Path
from typing import Any

from motesim.faults import Fault
from motesim.runner.module import file_of
from motesim.studio.reference import reference
from motesim.studio.session import HTML, JSON, Session, as_json
from motesim.timeline.bundle import bundle, modules_of
from motesim.timeline.html import MARK, TEMPLATE, style

FOLDER = Path(__file__).resolve().parent.parent
ENTRY, WORKER = FOLDER / 'studio/page/studio.js', FOLDER / 'web/page/worker.js'
RUN = file_of('motesim').with_name('run_module.js')
SCRIPT = '<script type="module" src="studio/page/studio.js"></script>'
JAVASCRIPT = 'text/javascript; charset=utf-8'
LONGEST_QUESTION = 8 << 20
HEADERS = {
    'Cache-Control': 'no-store', 'Referrer-Policy': 'no-referrer', 'X-Content-Type-Options': 'nosniff',
    'X-Frame-Options': 'DENY', 'Cross-Origin-Resource-Policy': 'same-origin',
    'Cross-Origin-Opener-Policy': 'same-origin',
    'Content-Security-Policy': "default-src 'none'; script-src 'self' 'wasm-unsafe-eval'; worker-src blob:; style-src "
                               "'self' 'unsafe-inline'; img-src 'self' data: blob:; connect-src 'self'; base-uri "
                               "'none'; form-action 'none'; frame-ancestors 'none'",
}


@functools.cache
def modules() -> dict[str, bytes]:
    """The modules of the page by their addresses, which are their paths in the package."""
    return {path.relative_to(FOLDER).as_posix(): text.encode('utf-8') for path, text in modules_of(ENTRY).items()}


def worker() -> bytes:
    """The script of the page's workers."""
    return (RUN.read_text('utf-8') + bundle(WORKER)).encode('utf-8')


# Other files of the page: their kinds, and functions that return them.
FILES: dict[str, tuple[str, Callable[[], bytes]]] = {
    'motecheck.wasm': ('application/wasm', lambda: file_of('motecheck').read_bytes()),
    'motesim.html': (HTML, lambda: file_of('motesim').with_suffix('.html').read_bytes()),
    'worker.js': (JAVASCRIPT, worker)}


def page() -> bytes:
    """The page."""
    # (a browser that knows all modules from the beginning needn't find one after another)
    loads = ''.join('<link rel="modulepreload" href="%s">\n' % name for name in modules())
    fill = {'HELP': reference(), 'TITLE': 'motesim studio', 'KIND': 'served', 'STYLE': style(), 'POLICY': loads,
            'SCRIPT': SCRIPT}
    return MARK.sub(lambda mark: fill.get(mark[1], ''), TEMPLATE.read_text('utf-8')).encode('utf-8')


class Handler(BaseHTTPRequestHandler):
    """Handles one request."""
    protocol_version = 'HTTP/1.1'
    server_version = 'motesim'
    sys_version = ''
    timeout = 600
    # (the head and the body of an answer are two writes; without this option the second one would wait for the first)
    disable_nagle_algorithm = True
    server: Server

    def log_message(self, *_: object) -> None:
        """Prints nothing: the address has the token, so it is printed only once, at the start."""

    def is_allowed(self) -> bool:
        """True if the request has the token and this server's name, and comes from its own page."""
        served = self.server
        hosts = {'127.0.0.1:%d' % served.port, 'localhost:%d' % served.port}
        if self.headers.get('Host') not in hosts or not self.is_tokened():
            return False
        origin, mode = self.headers.get('Origin'), self.headers.get('Sec-Fetch-Mode')
        if origin is not None and origin not in {'http://' + host for host in hosts}:
            return False
        site = self.headers.get('Sec-Fetch-Site', 'same-origin')
        return mode == 'navigate' or site in ('same-origin', 'none')

    def is_tokened(self) -> bool:
        given = self.path.split('/')[1:2]
        return bool(given) and hmac.compare_digest(given[0].encode('utf-8', 'replace'), self.server.token.encode())

    def reply(self, status: int, kind: str, data: bytes) -> None:
        self.send_response(status)
        self.send_header('Content-Type', kind)
        self.send_header('Content-Length', str(len(data)))
        for name, value in HEADERS.items():
            self.send_header(name, value)
        self.end_headers()
        if self.command != 'HEAD':
            self.wfile.write(data)

    def refuse(self, status: int, why: str) -> None:
        self.close_connection = True
        self.reply(status, 'text/plain; charset=utf-8', (why + '\n').encode('utf-8'))

    def do_GET(self) -> None:
        if not self.is_allowed():
            return self.refuse(403, 'Not allowed: the address of this page has a token, which tools/studio prints.')
        found = self.server.file(self.path.split('/', 2)[2] if self.path.count('/') > 1 else None)
        if found is None:
            return self.refuse(404, 'There is no such page.')
        self.reply(200, *found)

    do_HEAD = do_GET

    def do_POST(self) -> None:
        if not self.is_allowed() or self.headers.get('Content-Type') != JSON:
            return self.refuse(403, 'Not allowed.')
        length = self.headers.get('Content-Length', '')
        if not length.isdecimal() or int(length) > LONGEST_QUESTION:
            return self.refuse(413, 'The question is too long.')
        try:
            asked = json.loads(self.rfile.read(int(length)))
            if type(asked) is not dict:
                raise ValueError
        except (ValueError, RecursionError):
            return self.refuse(400, 'The question is not JSON.')
        self.reply_to(self.path.split('/', 2)[-1], asked)

    def reply_to(self, what: str, asked: dict[str, Any]) -> None:
        try:
            answered = self.server.session.answer(what, asked)
        except Fault as fault:
            answered = as_json({'refused': str(fault)})
        except MemoryError:
            answered = as_json({'refused': 'the studio is out of memory'})
        except Exception as fault:
            # (without an answer the page would report a lost connection, and repeat the same request for ever)
            error = '%s: %s' % (type(fault).__name__, fault)
            print('studio: an error in the studio itself: %s' % error, file=sys.stderr)
            answered = as_json({'refused': 'This is an error in the studio itself: %s' % error})
        self.reply(200, answered.kind, answered.data)


class Server(ThreadingHTTPServer):
    """The studio's server. A browser opens its `address`."""
    daemon_threads = True

    def __init__(self, session: Session, port: int = 0, token: str | None = None):
        self.session = session
        self.token = token or secrets.token_urlsafe(24)
        self.connections: set[socket.socket] = set()
        super().__init__(('127.0.0.1', port), Handler)

    def get_request(self) -> tuple[socket.socket, Any]:
        request, address = super().get_request()
        self.connections.add(request)
        return request, address

    def close_request(self, request: Any) -> None:
        self.connections.discard(request)
        super().close_request(request)

    def server_close(self) -> None:
        """Also ends the connections that a browser keeps open."""
        super().server_close()
        for connection in list(self.connections):
            with contextlib.suppress(OSError):
                connection.shutdown(socket.SHUT_RDWR)

    @property
    def port(self) -> int:
        return self.server_address[1]

    @property
    def address(self) -> str:
        return 'http://127.0.0.1:%d/%s/' % (self.port, self.token)

    def handle_error(self, request: object, client_address: object) -> None:
        """Reports an error in one line, unless a browser only closed its connection."""
        fault = sys.exc_info()[1]
        if not isinstance(fault, (ConnectionError, TimeoutError)):
            print('studio: a request failed: %s: %s' % (type(fault).__name__, fault), file=sys.stderr)

    def file(self, name: str | None) -> tuple[str, bytes] | None:
        """A file of the page: its kind and its bytes."""
        if name is None:
            return None
        name = name.partition('?')[0]
        if name == '':
            return HTML, page()
        if name in FILES:
            return FILES[name][0], FILES[name][1]()
        return (JAVASCRIPT, modules()[name]) if name in modules() else None
