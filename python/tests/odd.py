"""A player over HTTP that answers in its own way. It needs no solver."""

from __future__ import annotations

import threading
import unittest
from collections.abc import Callable
from http.server import BaseHTTPRequestHandler, ThreadingHTTPServer
from typing import Any


class Odd:
    """A server that answers in its own way, while a test runs."""

    def __init__(self, test: unittest.TestCase, says: Callable[[str], str | None]):
        heard = self.heard = list[str]()

        class Handler(BaseHTTPRequestHandler):
            def do_POST(self) -> None:
                text = self.rfile.read(int(self.headers["Content-Length"])).decode()
                heard.append(text)
                told = says(text)
                if told is None:
                    self.send_error(500)
                    return
                self.send_response(200)
                self.end_headers()
                self.wfile.write(told.encode())

            def log_message(self, format: str, *words: Any) -> None:
                pass

        class Server(ThreadingHTTPServer):
            daemon_threads = True

            def handle_error(self, request: Any, client_address: Any) -> None:
                pass

        self.server = Server(("127.0.0.1", 0), Handler)
        self.url = f"http://127.0.0.1:{self.server.server_address[1]}"
        threading.Thread(target=self.server.serve_forever, args=(0.05,), daemon=True).start()
        test.addCleanup(self.server.server_close)
        test.addCleanup(self.server.shutdown)
