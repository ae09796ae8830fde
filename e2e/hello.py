"""hello.py [PORT]: a web server on 127.0.0.1, port 8000, that answers every GET: the origin of the README's transcript."""

import sys
from http.server import BaseHTTPRequestHandler, ThreadingHTTPServer


class Hello(BaseHTTPRequestHandler):
    protocol_version = "HTTP/1.1"

    def do_GET(self):
        self.log_request(200)
        self.send_response_only(200)
        self.send_header("Date", "Sun, 06 Nov 1994 08:49:37 GMT")
        self.send_header("ETag", '"x"')
        self.send_header("Cache-Control", "max-age=2147483647")
        self.send_header("Content-Length", "5")
        self.end_headers()
        self.wfile.write(b"hello")


port = int(sys.argv[1]) if len(sys.argv) > 1 else 8000
ThreadingHTTPServer(("127.0.0.1", port), Hello).serve_forever()
