#!/usr/bin/python3
"""Gives explore.html, and passes requests for /loki on to a front, as Grafana's server does: serve.py PORT FRONT_URL"""
import http.server
import pathlib
import sys
import urllib.error
import urllib.request

PAGE = pathlib.Path(__file__).with_name("explore.html").read_bytes()


class Handler(http.server.BaseHTTPRequestHandler):
    """Answers GET."""

    def do_GET(self) -> None:
        if self.path.startswith("/loki/"):
            try:
                with urllib.request.urlopen(sys.argv[2] + self.path, timeout=30) as answer:
                    self.answer(answer.status, answer.read(), answer.headers["Content-Type"])
            except urllib.error.HTTPError as answer:
                self.answer(answer.code, answer.read(), answer.headers["Content-Type"])
        else:
            self.answer(200, PAGE, "text/html; charset=utf-8")

    def answer(self, status: int, body: bytes, kind: str) -> None:
        self.send_response(status)
        self.send_header("Content-Type", kind)
        self.send_header("Content-Length", str(len(body)))
        self.end_headers()
        self.wfile.write(body)

    def log_message(self, *_) -> None:
        """Says nothing."""


http.server.ThreadingHTTPServer(("127.0.0.1", int(sys.argv[1])), Handler).serve_forever()
