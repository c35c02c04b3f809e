#!/usr/bin/env python3
"""A web server that serves one file, and falsifies it at will: for scripts/by_hand/remote_image.sh.

lying_server.py FILE PORT SEED: answers HEAD, and GET of ranges. Of every second answer, as the seed has it, a byte is changed,
or the bytes come from another place, or are any bytes, or are cut off; it answers otherwise each time it is asked.
"""
import random
import re
import sys
from http.server import BaseHTTPRequestHandler, ThreadingHTTPServer

PATH, PORT, SEED = sys.argv[1], int(sys.argv[2]), int(sys.argv[3])
with open(PATH, "rb") as file:
    IMAGE = file.read()
CHANCE = random.Random(SEED)


def lie(data):
    """Bytes in place of those that were asked for."""
    kind = CHANCE.randrange(4)
    if kind == 0:
        at = CHANCE.randrange(len(data))
        return data[:at] + bytes([data[at] ^ (1 << CHANCE.randrange(8))]) + data[at + 1 :]
    if kind == 1:
        at = CHANCE.randrange(len(IMAGE) - len(data) + 1)
        return IMAGE[at : at + len(data)]
    if kind == 2:
        return CHANCE.randbytes(len(data))
    return data[: CHANCE.randrange(len(data))]


class Answers(BaseHTTPRequestHandler):
    protocol_version = "HTTP/1.1"

    def head(self, status, length):
        self.send_response(status)
        self.send_header("Accept-Ranges", "bytes")
        self.send_header("Content-Length", str(length))
        self.end_headers()

    def do_HEAD(self):
        self.head(200, len(IMAGE))

    def do_GET(self):
        asked = re.fullmatch(r"bytes=(\d+)-(\d+)", self.headers.get("Range", ""))
        first, last = (int(asked[1]), int(asked[2])) if asked else (0, len(IMAGE) - 1)
        data = IMAGE[first : last + 1]
        told = lie(data) if CHANCE.randrange(2) == 0 else data
        self.head(206 if asked else 200, len(data))
        self.wfile.write(told)
        if len(told) < len(data):
            self.close_connection = True

    def log_message(self, *_):
        pass


if __name__ == "__main__":
    ThreadingHTTPServer(("127.0.0.1", PORT), Answers).serve_forever()
