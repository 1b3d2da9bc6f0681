"""Rows, requests and answers of a store with a secret of 32 zero bytes, as texts, and a list of cases with what is expected."""

import hashlib
import hmac
import json

from parts import Part

SECRET = bytes(32)
NOW = 1772323200  # 2026-03-01
DAY = 86400
CAPS = (65536, 65536, 262144, 4194304, 4194304, 1048576)


def big(value, width):
    return value.to_bytes(width, "big")


def tag(key, text):
    return hmac.new(key, text, hashlib.sha256).digest()


def node_key(node):
    return tag(SECRET, b"\x01" + big(node, 4))


def customer_key(customer):
    return tag(SECRET, b"\x03" + big(customer, 4))


def operator_key(secret=SECRET):
    return tag(secret, b"\x04")


def order(serial, node, amount, limit=1000):
    """An order of a GET of piece 3 of segment 5, for customer 9."""
    head = (
        bytes([1, 2]) + big(serial, 8) + big(node, 4) + big(5, 8) + big(3, 1) + big(limit, 8)
        + big(NOW, 8) + big(NOW + DAY, 8) + big(9, 4)
    )
    head += tag(node_key(node), head)
    said = big(node, 4) + big(amount, 8)
    return head + big(amount, 8) + tag(tag(SECRET, b"\x02" + big(serial, 8)), said)


# ---- rows

def settings_row(secret=SECRET, scheme=(2, 3, 4, 6), share=256, vet=100, fresh=5, caps=CAPS, first=24314):
    body = bytes([2]) + secret + bytes(scheme) + big(share, 2) + big(vet, 2) + big(fresh, 1)
    body += b"".join(big(cap, 4) for cap in caps) + big(first, 4)
    return (1, b"", body)


def marks_row(time=NOW, segment=1, serial=1, plan=1, month=24314, hour=None):
    hour = time // 3600 if hour is None else hour
    return (2, b"", big(time, 8) + big(segment, 8) + big(serial, 8) + big(plan, 8) + big(month, 4) + big(hour, 8))


def node_row(node, alpha=10000, beta=0, passes=0):
    body = bytes([10, 0, node, 1]) + big(7000 + node, 2) + big(10**12, 8) + big(NOW, 8)
    return (3, big(node, 4), body + big(alpha, 4) + big(beta, 4) + big(passes, 4) + b"\x00")


def customer_row(customer):
    return (4, big(customer, 4), big(NOW, 8))


def settled_row(serial, node, amount, at):
    return (6, big(serial, 8) + big(node, 4), bytes([2]) + big(amount, 8) + big(at, 8))


def tariff_row(first=24314):
    return (16, big(first, 4), b"".join(big(rate, 8) for rate in (20000000, 10000000, 10000000, 1500000)))


def segment_row(segment, places, stripes=1, version=1):
    """A live segment of stripes of 512 bytes, with these pieces: an index and a node each."""
    pieces = bytes([len(places)]) + b"".join(big(index, 1) + big(node, 4) for index, node in places)
    return (5, big(segment, 8), big(1, 4) + big(512 * stripes, 8) + big(version, 8) + pieces)


def contained_row(node, segment, index, stripe, share):
    return (12, big(node, 4), big(segment, 8) + big(index, 1) + big(stripe, 8) + hashlib.sha256(share).digest() + big(0, 1))


def row_text(row):
    kind, key, body = row
    return f"{kind} {key.hex() or '-'} {body.hex() or '-'}"


def new_store():
    return [settings_row(), marks_row(), tariff_row()]


def some_store():
    """Seven nodes and a customer."""
    return [settings_row(), marks_row(), *map(node_row, range(1, 8)), customer_row(1), tariff_row()]


# ---- requests and answers

def request(path, key, body):
    text = json.dumps(body, separators=(",", ":"))
    return f"POST {path} HTTP/1.1\\r\\nx-key: {key.hex()}\\r\\ncontent-length: {len(text)}\\r\\n\\r\\n{text}"


def settle(serial, node, amount):
    return request(f"/n/{node}/settle", node_key(node), {"order": order(serial, node, amount).hex()})


STOP = request("/op/stop", operator_key(), {})
BEGIN = request("/c/1/segments", customer_key(1), {"request": 1, "len": 1})
CUSTOMER = request("/op/customers", operator_key(), {"request": 1})

PHRASES = {
    200: "OK", 400: "Bad Request", 401: "Unauthorized", 404: "Not Found", 405: "Method Not Allowed", 409: "Conflict", 413: "Payload Too Large", 422: "Unprocessable Entity",
    431: "Request Header Fields Too Large", 503: "Service Unavailable", 507: "Insufficient Storage",
}


def answer(body, status=200):
    text = json.dumps(body, separators=(",", ":"), sort_keys=True)
    head = f"HTTP/1.1 {status} {PHRASES[status]}\\r\\ncontent-type: application/json\\r\\n"
    return f"{head}content-length: {len(text)}\\r\\nconnection: close\\r\\n\\r\\n{text}"


def settled(amount):
    return answer({"amount": amount, "result": "settled"})


def again(amount):
    return answer({"amount": amount, "result": "again"})


def edge(name, status):
    return answer({"error": name}, status)


# ---- cases

class Case(Part):
    def __init__(self):
        super().__init__()
        self.fixtures = []

    def note(self, line):
        self.ask(line)

    def fixture(self, name, rows):
        """A store that others begin with: its rows stand below its name."""
        self.say(f"store {name}")
        for row in rows:
            self.note("row " + row_text(row))
        self.fixtures.append((name, list(rows)))

    def store(self, rows=()):
        """A store of these rows, of which those of the greatest fixture aren't said again."""
        rows = list(rows)
        self.say("store")
        fits = [it for it in self.fixtures if all(row in rows for row in it[1])]
        name, common = max(fits, key=lambda it: len(it[1]), default=(None, []))
        if name:
            self.note(f"like {name}")
        for row in rows:
            if row not in common:
                self.note("row " + row_text(row))

    def lane(self, links, failing="-", moments=None):
        """A lane of connections, each a text, or its failing calls and a text. Its clock stands still."""
        self.note(f"lane {failing}")
        if moments is None:
            moments = [NOW] * len(links)
        self.note("moments " + (",".join(map(str, moments)) or "-"))
        for link in links:
            fails, text = link if isinstance(link, tuple) else ("-", link)
            self.note(f"link {fails} {text}")

    def run(self, words, status, console, lines=()):
        self.ask("run " + words, f"status {status} {console}", *lines)

    def race(self, words, status, console, lines=()):
        self.ask("race " + words, f"status {status} {console}", *lines)

    def rows(self, rows):
        rows = sorted(rows, key=lambda row: (row[0], row[1]))
        self.ask("rows", f"rows {len(rows)}", *map(row_text, rows))


INIT = "init --store s --k 2 --m 3 --o 4 --n 6"
WITH_SECRET = f"{INIT} --secret {SECRET.hex()}"
SERVE = "serve --store s --port 1"


def operator_line(secret=SECRET):
    return f"operator {operator_key(secret).hex()}\\n"
