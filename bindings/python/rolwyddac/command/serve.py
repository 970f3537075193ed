"""`rolwyddac view --serve`: the page at an address of this machine alone, where boards are driven by hand."""

from __future__ import annotations

import http.server
import json
import secrets
import threading
from typing import Any, Callable, Dict, Optional, Type

from ..view.live import Session
from . import files
from .faults import FileFault

HOST = '127.0.0.1'
# bytes of what a page may send
_MOST = 1000
_TOKEN = 16


def _handler(page: bytes, session: Session, token: str) -> Type[http.server.BaseHTTPRequestHandler]:
    """What answers: the page, and the engine's answer to a call; anything else is not there."""
    lock = threading.Lock()

    class Handler(http.server.BaseHTTPRequestHandler):
        """One request."""

        protocol_version = 'HTTP/1.1'
        # seconds that it waits for a browser that says nothing
        timeout = 60

        def _is_ours(self, path: str) -> bool:
            """Is it for this address, and does it have the token? A page of another site has neither."""
            server: Any = self.server
            hosts = ['%s:%d' % (host, server.server_address[1]) for host in (HOST, 'localhost')]
            origin = self.headers.get('Origin')
            return (self.headers.get('Host') in hosts and secrets.compare_digest(self.path.encode(), path.encode())
                    and (origin is None or origin in ['http://' + host for host in hosts]))

        def _answer(self, status: int, kind: str, content: bytes) -> None:
            self.send_response(status)
            self.send_header('Content-Type', kind + '; charset=utf-8')
            self.send_header('Content-Length', str(len(content)))
            self.send_header('Cache-Control', 'no-store')
            self.send_header('Content-Security-Policy', "default-src 'none'; script-src 'unsafe-inline'; style-src 'unsafe-inline'; connect-src 'self'")
            self.send_header('Referrer-Policy', 'no-referrer')
            self.end_headers()
            self.wfile.write(content)

        def do_GET(self) -> None:
            """The page."""
            if self._is_ours('/%s/' % token):
                self._answer(200, 'text/html', page)
            else:
                self._answer(404, 'text/plain', b'not here\n')

        def do_POST(self) -> None:
            """One event."""
            if not self._is_ours('/%s/event' % token):
                self._answer(404, 'text/plain', b'not here\n')
                return
            length = self.headers.get('Content-Length', '')
            asked = self._asked(self.rfile.read(int(length))) if length.isdigit() and int(length) <= _MOST else None
            if asked is None:
                self.close_connection = True
                self._answer(400, 'text/plain', b'no event\n')
                return
            with lock:
                told = session.event(**asked)
            self._answer(200, 'application/json', json.dumps(told).encode())

        @staticmethod
        def _asked(content: bytes) -> Optional[Dict[str, int]]:
            try:
                asked = json.loads(content)
            except ValueError:
                return None
            good = isinstance(asked, dict) and set(asked) == {'kind', 'which'} and all(type(each) is int and 0 <= each < 2 ** 32 for each in asked.values())
            return asked if good else None

        def log_message(self, format: str, *args: Any) -> None:  # pylint: disable=redefined-builtin
            """Nothing is told of requests."""

    return Handler


class _Server(http.server.ThreadingHTTPServer):
    """A thread for each connection; they end with the command."""

    daemon_threads = True

    def handle_error(self, request: Any, client_address: Any) -> None:
        """A browser that goes away in the middle is no fault to be told."""


def serve(page: bytes, session: Session, port: int, is_told: Callable[[str], None] = files.say) -> None:
    """Answers until the terminal ends it."""
    token = secrets.token_urlsafe(_TOKEN)
    try:
        found = _Server((HOST, port), _handler(page, session, token))
    except OSError as error:
        raise FileFault('port %d of %s: %s' % (port, HOST, error.strerror)) from None
    with found as server:
        is_told('http://%s:%d/%s/\n' % (HOST, server.server_address[1], token))
        server.serve_forever()
