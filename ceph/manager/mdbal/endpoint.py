"""The metrics over HTTP, for Prometheus."""
import threading
import time
from http.server import BaseHTTPRequestHandler, HTTPServer
from typing import Callable, Optional


AGAIN = 60  # seconds until a port that could not be had is tried again


class Endpoint:
    """Serves a text at a port of all addresses. Port 0 is none."""

    def __init__(self, text: Callable[[], str]) -> None:
        self.text = text
        self.port = 0
        self.next = 0.0  # when the port is tried again, if it could not be had
        self.server = None  # type: Optional[HTTPServer]

    def use(self, port: int) -> None:
        """Serves at this port from now on. Raises OSError at the first try where that can't be had, and tries it again at later calls."""
        is_new, now = port != self.port, time.monotonic()
        if is_new:
            self.end()
        elif self.server or not port or now < self.next:
            return
        self.port, self.next = port, now + AGAIN
        try:
            if port:
                self.serve(port)
        except OSError:
            if is_new:
                raise

    def end(self) -> None:
        if self.server:
            self.server.shutdown()
            self.server.server_close()
            self.server = None

    def serve(self, port: int) -> None:
        text = self.text

        class Handler(BaseHTTPRequestHandler):
            def do_GET(self) -> None:
                content = text().encode()
                self.send_response(200)
                self.send_header('Content-Type', 'text/plain; version=0.0.4; charset=utf-8')
                self.send_header('Content-Length', str(len(content)))
                self.end_headers()
                self.wfile.write(content)

            def log_message(self, *words: object) -> None:
                pass

        self.server = HTTPServer(('', port), Handler)
        threading.Thread(target=self.server.serve_forever, name='mdbal-metrics', daemon=True).start()
