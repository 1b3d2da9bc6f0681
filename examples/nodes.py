#!/usr/bin/env python3
"""Plays storage nodes on loopback addresses, each in a subnet of its own.

    nodes.py FOLDER KEYS [--port P]

Node i listens at 127.0.i.1, port P (7001). KEYS has a line `node NUMBER KEY` for each node, as the satellite handed them
out. A node keeps the pieces that are put under a good limit in FOLDER/i/SEGMENT-INDEX. It answers what docs/FORMATS.md
says under "Asking a node". Files in FOLDER say how it misbehaves, and are looked at with each request, so that they can be
made and removed while it runs:

    FOLDER/i/silent     it doesn't answer
    FOLDER/i/altered    it answers with other bytes, as many
    FOLDER/i/lost       it has lost every piece
    FOLDER/i/slow       it waits so many seconds, as the file says, before it answers with bytes

Each request is told on standard output: the node, the method, the piece and what it was answered.
"""
import argparse
import hashlib
import hmac
import http.server
import pathlib
import re
import sys
import threading
import time

PIECE = re.compile(r"^/piece/(\d+)/(\d+)$")
GET_AUDIT, GET_REPAIR, PUT, PUT_REPAIR, GET = 3, 4, 1, 5, 2


def tag(key, data):
    return hmac.new(key, data, hashlib.sha256).digest()


class Storage:
    """A node's number, its key and its folder."""

    def __init__(self, number, key, folder):
        self.number, self.key, self.folder = number, key, folder
        folder.mkdir(parents=True, exist_ok=True)

    def does(self, what):
        return (self.folder / what).exists()

    def slowness(self):
        return float((self.folder / "slow").read_text()) if self.does("slow") else 0

    def path(self, segment, index):
        return self.folder / f"{segment}-{index}"

    def allows(self, order, actions, segment, index):
        """Whether an order's limit is the satellite's leave for these: a node can't read the order's own tag."""
        if len(order) != 123 or order[0] != 1 or order[1] not in actions:
            return False
        place = int.from_bytes(order[10:14], "big"), int.from_bytes(order[14:22], "big"), order[22]
        return place == (self.number, segment, index) and hmac.compare_digest(tag(self.key, order[:51]), order[51:83])


class Handler(http.server.BaseHTTPRequestHandler):
    def log_message(self, *args):
        pass

    def told(self, status, what):
        # (one string, so that lines of several nodes don't meet)
        print(f"{self.server.storage.number} {self.command} {self.path} {status} {what}\n", end="", flush=True)

    def say(self, status, body=b"", what=""):
        self.told(status, what)
        self.send_response(status)
        self.send_header("content-length", str(len(body)))
        self.send_header("connection", "close")
        self.end_headers()
        self.wfile.write(body)

    def asked(self, actions):
        """The segment and the index that are asked for, or None where it was answered already."""
        storage, match = self.server.storage, PIECE.match(self.path)
        if storage.does("silent"):
            self.told("-", "silent")
            self.close_connection = True
            return None
        if match is None:
            return self.say(404, what="no piece")
        segment, index = int(match[1]), int(match[2])
        order = bytes.fromhex(self.headers.get("x-order", ""))
        if not storage.allows(order, actions, segment, index):
            return self.say(403, what="no leave")
        return segment, index

    def do_GET(self):
        asked, storage = self.asked((GET, GET_AUDIT, GET_REPAIR)), self.server.storage
        if asked is None:
            return
        path = storage.path(*asked)
        if storage.does("lost") or not path.exists():
            return self.say(404, what="lost")
        offset, length = int(self.headers.get("x-offset", "0")), int(self.headers.get("x-length", "-1"))
        piece = path.read_bytes()
        share = piece[offset:] if length < 0 else piece[offset : offset + length]
        time.sleep(storage.slowness())
        if storage.does("altered"):
            return self.say(200, bytes(byte ^ 1 for byte in share), f"{len(share)} bytes altered")
        self.say(200, share, f"{len(share)} bytes")

    def do_PUT(self):
        asked = self.asked((PUT, PUT_REPAIR))
        if asked is None:
            return
        body = self.rfile.read(int(self.headers.get("content-length", "0")))
        self.server.storage.path(*asked).write_bytes(body)
        self.say(200, what=f"{len(body)} bytes")


def keys_in(text):
    for line in text.splitlines():
        match = re.match(r"^node (\d+) ([0-9a-f]{64})$", line)
        if match:
            yield int(match[1]), bytes.fromhex(match[2])


def serve(storage, address, port):
    server = http.server.ThreadingHTTPServer((address, port), Handler)
    server.storage = storage
    threading.Thread(target=server.serve_forever, daemon=True).start()


def main():
    words = argparse.ArgumentParser(description="Plays storage nodes on loopback addresses.")
    words.add_argument("folder", type=pathlib.Path)
    words.add_argument("keys", type=pathlib.Path)
    words.add_argument("--port", type=int, default=7001)
    said = words.parse_args()
    keys = dict(keys_in(said.keys.read_text()))
    if not keys:
        sys.exit("nodes: no line `node NUMBER KEY`")
    for number, key in keys.items():
        serve(Storage(number, key, said.folder / str(number)), f"127.0.{number}.1", said.port)
    print(len(keys), "nodes", flush=True)
    threading.Event().wait()


main()
