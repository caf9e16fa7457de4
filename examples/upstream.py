#!/usr/bin/env python3
"""A small service to record, on port 9000 of 127.0.0.1 or on the port that is given: `GET /count` answers 1, 2, 3 and so on,
`POST /echo` what it was sent. It goes on until Ctrl-C."""
import http.server, itertools, sys

numbers = itertools.count(1)


class Service(http.server.BaseHTTPRequestHandler):
    protocol_version = "HTTP/1.1"

    def answer(self, content):
        self.send_response(200)
        self.send_header("Content-Type", "text/plain")
        self.send_header("Content-Length", str(len(content)))
        self.end_headers()
        self.wfile.write(content)

    def do_GET(self):
        self.answer(str(next(numbers)).encode())

    def do_POST(self):
        self.answer(self.rfile.read(int(self.headers.get("Content-Length", 0))))


port = int(sys.argv[1]) if len(sys.argv) > 1 else 9000
http.server.ThreadingHTTPServer(("127.0.0.1", port), Service).serve_forever()
