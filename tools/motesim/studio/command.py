"""Serves the studio until it is stopped. tools/studio is the command."""
from __future__ import annotations

import argparse
import contextlib
import gc
import os
import signal
import sys
import tempfile
import webbrowser
from collections.abc import Iterator
from pathlib import Path

from motesim.explain.within import limits_of
from motesim.faults import Fault, in_words
from motesim.judge.expectations import text_of
from motesim.runner.programs import program_path
from motesim.report.run import refuse_others
from motesim.scenario.fault_text import faults_asked
from motesim.studio.desk import Desk
from motesim.studio.server import Server
from motesim.studio.session import Session

PORT = 20917


def has_screen() -> bool:
    """True if a browser can open its own window. A browser in the terminal would hide the terminal."""
    return sys.platform in ('darwin', 'win32') or bool(os.environ.get('DISPLAY') or os.environ.get('WAYLAND_DISPLAY'))


def room() -> tempfile.TemporaryDirectory[str]:
    """A folder for the file that opens the page. It is in the home of the user, because browsers that are installed as
    snaps can't read other folders."""
    try:
        return tempfile.TemporaryDirectory(prefix='motesim-studio-', dir=Path.home())
    except (OSError, RuntimeError):
        return tempfile.TemporaryDirectory(prefix='motesim-studio-')


@contextlib.contextmanager
def opened(address: str, wanted: bool) -> Iterator[None]:
    """Opens the page through a file that only this user can read, because other users can see the arguments of a
    browser."""
    if not (wanted and has_screen()):
        yield
        return
    with room() as folder:
        page = Path(folder, 'open.html')
        page.write_text('<!DOCTYPE html><meta http-equiv="refresh" content="0; url=%s">' % address)
        with contextlib.suppress(webbrowser.Error):
            webbrowser.open(page.as_uri())
        yield


def serve(server: Server, is_open: bool) -> None:
    """Serves until Ctrl-C; the caller handles Ctrl-C."""
    # (if the terminal is closed, or a signal ends the process, this has the same effect as Ctrl-C)
    for number in (signal.SIGTERM, signal.SIGHUP):
        signal.signal(number, signal.default_int_handler)
    print(server.address, flush=True)
    with opened(server.address, is_open):
        server.serve_forever(poll_interval=0.2)


def pinned(path: str) -> str:
    """The text of the scenario whose run is pinned."""
    refuse_others(path)
    return text_of(Path(path))


def server_of(session: Session) -> Server:
    """A server at the port of earlier studios, because a browser keeps the texts that weren't saved for their address;
    at another port if this one isn't free."""
    with contextlib.suppress(OSError):
        return Server(session, port=PORT)
    return Server(session)


def status_of(asked: argparse.Namespace) -> int:
    """Runs tools/studio with its arguments."""
    # (the studio runs for hours, so it needs the garbage collector, unlike other commands)
    gc.enable()
    program_path()
    session = Session(Desk(asked.file), limits_of(asked), pinned(asked.against) if asked.against else None,
                      faults_asked(asked))
    session.desk.first()
    try:
        server = server_of(session)
    except OSError as fault:
        raise Fault('no page can be served: %s' % in_words(fault)) from None
    with server:
        with contextlib.suppress(KeyboardInterrupt):
            serve(server, not asked.no_open)
        session.stop()
    print('studio: ended', file=sys.stderr)
    return 0
