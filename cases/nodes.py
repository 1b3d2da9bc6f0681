"""Whole runs of a storage node: cases of trial_node.

It knows the formats of orders, requests, answers and rows, and what a node does with them. Nothing of it was taken from the
program.
"""

import hashlib
import hmac
import json

from parts import Part

NODE, KEY, OTHER_KEY = 7, bytes([7] * 32), bytes([8] * 32)
WORDS = ["run", "--node", str(NODE), "--key", KEY.hex(), "--dir", "d", "--port", "1", "--satellite", "2"]
RUN = " ".join(WORDS)
NOW, DAY, SETTLE_TIME = 1772323200, 86400, 172800
PUT, GET, GET_AUDIT, GET_REPAIR, PUT_REPAIR = 1, 2, 3, 4, 5
MAX_PIECE = 4194304
PHRASES = {200: "OK", 400: "Bad Request", 403: "Forbidden", 404: "Not Found", 503: "Service Unavailable"}


def big(number, width):
    return number.to_bytes(width, "big")


def tag(key, data):
    return hmac.new(key, data, hashlib.sha256).digest()


class Limit:
    """What a limit says; one of piece 3 of segment 5, for this node, unless another is said."""

    def __init__(self, serial, action=GET, limit=1000, **others):
        said = dict(node=NODE, segment=5, index=3, issued=NOW, expires=NOW + DAY, customer=9, key=KEY, version=1)
        said.update(others)
        self.serial, self.action, self.limit = serial, action, limit
        self.__dict__.update(said)

    def bytes(self):
        data = (
            bytes([self.version, self.action]) + big(self.serial, 8) + big(self.node, 4) + big(self.segment, 8)
            + big(self.index, 1) + big(self.limit, 8) + big(self.issued, 8) + big(self.expires, 8) + big(self.customer, 4)
        )
        return data + tag(self.key, data)

    def order(self, amount):
        """An order of so many bytes. Its own tag is the uplink's, and no node can test it."""
        return self.bytes() + big(amount, 8) + bytes(32)


# ---- requests and answers

def escaped(data, plain=range(32, 127)):
    out = []
    for byte in data:
        if byte == 13:
            out.append("\\r")
        elif byte == 10:
            out.append("\\n")
        elif byte in plain:
            out.append(chr(byte))
        else:
            out.append(f"\\x{byte:02x}")
    return "".join(out)


def sent(data):
    """The text of bytes that a link sends. In these a backslash and angles say something."""
    return escaped(data, [it for it in range(32, 127) if chr(it) not in "\\<>"])


def fetch(order, offset, length, path="/piece/5/3"):
    return (
        f"GET {path} HTTP/1.1\r\nx-order: {order.hex()}\r\nx-offset: {offset}\r\nx-length: {length}\r\nconnection: close\r\n\r\n"
    ).encode()


def put(order, piece, path="/piece/5/3", length=None):
    length = len(piece) if length is None else length
    head = f"PUT {path} HTTP/1.1\r\nx-order: {order.hex()}\r\ncontent-length: {length}\r\nconnection: close\r\n\r\n"
    return head.encode() + piece


def message(status, kind, body):
    head = f"HTTP/1.1 {status} {PHRASES[status]}\r\ncontent-type: {kind}\r\ncontent-length: {len(body)}\r\nconnection: close\r\n\r\n"
    return head.encode() + body


def told(status, body):
    return message(status, "application/json", json.dumps(body, separators=(",", ":"), sort_keys=True).encode())


HEAD, MISSING, STORE = told(400, {"error": "head"}), told(404, {"error": "missing"}), told(503, {"error": "store"})
KEPT = told(200, {"result": "kept"})


def share(data):
    return message(200, "application/octet-stream", data)


# ---- the node

class Refused(Exception):
    """The first refusal of a take that holds."""

    def __init__(self, name, number):
        super().__init__(name)
        self.answer = told(403, {"error": name, "number": number})


class Failed(Exception):
    """A call of a device that fails."""


class Device:
    """Counts its calls, of which those of chosen numbers fail."""

    def __init__(self, failing=()):
        self.failing, self.calls = failing, 0

    def call(self):
        self.calls += 1
        if self.calls in self.failing:
            raise Failed


class Row:
    def __init__(self, order):
        self.order, self.served, self.done = order, 0, False

    @property
    def amount(self):
        return int.from_bytes(self.order[83:91], "big")

    @property
    def limit(self):
        return int.from_bytes(self.order[23:31], "big")

    @property
    def expires(self):
        return int.from_bytes(self.order[39:47], "big")

    def bytes(self):
        return self.order + big(self.served, 8) + bytes([self.done])


class Folder:
    """A node's folder: the rows of its orders, and its pieces."""

    def __init__(self):
        self.rows, self.pieces = {}, {}


class Run:
    """One run over a folder, link by link."""

    def __init__(self, folder, cap=65536, later=(), keeper=(), pieces=(), settler=()):
        self.folder, self.cap, self.later = folder, cap, later
        self.keeper, self.disk, self.settler = Device(keeper), Device(pieces), Device(settler)
        self.offers = []
        self.keeper.call()  # the rows are read

    def take(self, now, want):
        order = want["order"]
        if len(order) != 123:
            raise Refused("length", 1)
        if order[0] != 1:
            raise Refused("version", 2)
        if order[1] not in (PUT, GET, GET_AUDIT, GET_REPAIR, PUT_REPAIR):
            raise Refused("action", 3)
        if tag(KEY, order[:51]) != order[51:83]:
            raise Refused("limit-tag", 4)
        serial, node = int.from_bytes(order[2:10], "big"), int.from_bytes(order[10:14], "big")
        segment, index = int.from_bytes(order[14:22], "big"), order[22]
        new = Row(order)
        if node != NODE:
            raise Refused("other-node", 6)
        if (segment, index) != want["piece"]:
            raise Refused("other-piece", 40)
        if (order[1] in (PUT, PUT_REPAIR)) != want["put"]:
            raise Refused("wrong-action", 41)
        if now > new.expires:
            raise Refused("expired", 42)
        if new.amount > new.limit:
            raise Refused("over-limit", 9)
        row = self.folder.rows.get(serial)
        if row and row.order[:83] != order[:83]:
            raise Refused("other-limit", 43)
        if row and row.done:
            raise Refused("order-done", 44)
        served = row.served if row else 0
        if served + want["length"] > max(row.amount if row else 0, new.amount):
            raise Refused("spent", 45)
        if not row and len(self.folder.rows) >= self.cap:
            raise Refused("uses-full", 46)
        if row and row.amount >= new.amount:
            new = Row(row.order)
        new.served = served + want["length"]
        self.keeper.call()
        self.folder.rows[serial] = new

    def answer(self, now, want):
        """The bytes of the answer, and whether the request was taken."""
        try:
            self.take(now, want)
        except Refused as why:
            return why.answer, False
        except Failed:
            return STORE, False
        try:
            self.disk.call()
        except Failed:
            return STORE, True
        if want["put"]:
            self.folder.pieces.pop(want["piece"], None)
            self.folder.pieces[want["piece"]] = want["bytes"]
            return KEPT, True
        held = self.folder.pieces.get(want["piece"])
        if held is None:
            return MISSING, True
        return share(held[want["offset"] :][: want["length"]]), True

    def due(self, now):
        for serial in sorted(self.folder.rows):
            row = self.folder.rows[serial]
            over = row.served == row.limit or row.expires < now
            if not row.done and over and now <= min(row.expires + SETTLE_TIME, (1 << 64) - 1):
                return serial
        return None

    def offer(self, now):
        serial = self.due(now)
        if serial is None:
            return
        try:
            self.settler.call()
        except Failed:
            self.offers.append((serial, "failed"))
            return
        if self.settler.calls in self.later:
            self.offers.append((serial, "later"))
            return
        self.offers.append((serial, "done"))
        try:
            self.keeper.call()
        except Failed:
            return
        self.folder.rows[serial].done = True


# ---- cases

class Case(Part):
    def noted(self, line):
        self.ask(line, line.split(" ")[0])

    def begin(self, words):
        self.say(f"# {words}")
        self.noted("new")
        self.folder, self.links, self.served = Folder(), [], []
        self.settings = {}

    def failing(self, keeper=(), pieces=(), settler=(), lane=()):
        lists = [",".join(map(str, it)) or "-" for it in (keeper, pieces, settler, lane)]
        self.noted("failing " + " ".join(lists))
        self.settings.update(keeper=keeper, pieces=pieces, settler=settler)

    def later(self, numbers):
        self.noted("later " + ",".join(map(str, numbers)))
        self.settings.update(later=numbers)

    def row(self, row):
        self.noted(f"row 50 {row.order[2:10].hex()} {row.bytes().hex()}")
        self.folder.rows[int.from_bytes(row.order[2:10], "big")] = row

    def add(self, now, data, want):
        """A link that asks for what is wanted, or for nothing."""
        self.noted(f"link {now} - {sent(data)}")
        self.links.append((now, want))

    def fetch(self, now, order, length, offset=0, piece=(5, 3)):
        data = fetch(order, offset, length, f"/piece/{piece[0]}/{piece[1]}")
        self.add(now, data, dict(put=False, order=order, piece=piece, length=length, offset=offset))

    def put(self, now, order, data, piece=(5, 3)):
        want = dict(put=True, order=order, piece=piece, length=len(data), bytes=data)
        self.add(now, put(order, data, f"/piece/{piece[0]}/{piece[1]}"), want)

    def run(self, tells=True, cap=None):
        run = Run(self.folder, cap=cap or 65536, **self.settings)
        served = []
        for now, want in self.links:
            took = "nothing"
            answer = HEAD
            if want:
                answer, taken = run.answer(now, want)
                took = "taken" if taken else "refused"
            run.offer(now)
            served.append(f"{int(answer[9:12])} {took} whole {now} {escaped(answer)}")
        self.ask(RUN + (f" --cap {cap}" if cap else ""), f"0 {len(served)} ")
        if tells:
            for i, line in enumerate(served, 1):
                self.ask(f"served {i}", line)
        self.served = served
        self.offers = run.offers
        self.links, self.settings = [], {}

    def statuses(self):
        runs = []
        for line in self.served:
            status = line.split(" ")[0]
            if runs and runs[-1][0] == status:
                runs[-1][1] += 1
            else:
                runs.append([status, 1])
        self.ask("statuses", " ".join(["statuses"] + [f"{it[0]}*{it[1]}" for it in runs]))

    def kept(self):
        """What stands after the run: rows, pieces and offers."""
        rows = sorted(self.folder.rows.items())
        words = [f"{serial}:{it.served}:{'done' if it.done else 'open'}:{it.amount}" for serial, it in rows]
        self.ask("rows", " ".join(["rows", str(len(rows))] + words))
        words = [f"{s}-{j}:{data.hex()}" for (s, j), data in self.folder.pieces.items()]
        self.ask("pieces", " ".join(["pieces", str(len(words))] + words))
        self.ask("offers", " ".join(["offers"] + [f"{serial}:{answer}" for serial, answer in self.offers]))

    def end(self):
        self.say()


PIECE = bytes(range(200))


def hold(t):
    """Puts a piece, whose order is settled then."""
    t.put(NOW, Limit(1, PUT, 200).order(200), PIECE)


def count_cases(t):
    t.begin("An order of all of a limit: two fetches use it up, and one byte more is refused. It is offered at once, and never again.")
    hold(t)
    good = Limit(2)
    for length in (600, 400, 1):
        t.fetch(NOW, good.order(1000), length)
    t.run()
    t.kept()
    t.say("# Opened anew, it is done.")
    t.fetch(NOW, good.order(1000), 1)
    t.run()
    t.kept()
    t.end()

    t.begin("An order of half a limit is spent by a longer fetch; then one of all of it takes over, and is offered a second after it expires.")
    hold(t)
    t.fetch(NOW, good.order(500), 600)
    t.fetch(NOW, good.order(1000), 600)
    t.fetch(NOW + DAY, good.order(1000), 100)
    t.fetch(NOW + DAY + 1, good.order(1000), 100)
    t.run()
    t.kept()
    t.end()

    t.begin("A smaller order doesn't take over, and counts with the greater one.")
    for amount, length in ((900, 300), (400, 400), (400, 200), (900, 1)):
        t.fetch(NOW, good.order(amount), length)
    t.run()
    t.kept()
    t.end()

    t.begin("An order can be settled for two days; a second later it isn't offered.")
    t.fetch(NOW, good.order(1000), 10)
    t.fetch(NOW + DAY + SETTLE_TIME + 1, good.order(1000), 10)
    t.run()
    t.kept()
    t.fetch(NOW + DAY + SETTLE_TIME, good.order(1000), 10)
    t.run()
    t.kept()
    t.end()

    t.begin("One order is offered behind a link, the one of the least serial.")
    for serial in (9, 4, 6):
        t.fetch(NOW, Limit(serial, limit=10, expires=NOW + 100).order(10), 5)
    for _ in range(4):
        t.fetch(NOW + 101, b"", 1)
    t.run(tells=False)
    t.statuses()
    t.kept()
    t.end()


def refusal_cases(t):
    t.begin("Each refusal of an order, by the first cause that holds: each has all later ones as well, as far as both can hold.")
    kept = Limit(3, limit=100)
    t.row(Row(kept.order(100)))
    done = Row(Limit(4, limit=100).order(100))
    done.done = True
    t.row(done)
    good = kept.order(100)
    late = NOW + DAY + 1
    # what is wrong is added from the last cause to the first
    for now, order, piece in (
        (late, good + b"\0", (5, 3)),
        (late, b"", (5, 3)),
        (late, bytes([2, 9]) + good[2:], (5, 3)),
        (late, bytes([1, 9]) + good[2:], (5, 3)),
        (late, bytes([1, 0]) + good[2:], (5, 3)),
        (late, Limit(3, PUT, 5, key=OTHER_KEY, node=8).order(100), (5, 4)),
        (late, Limit(3, PUT, 5, node=8).order(100), (5, 4)),
        (late, Limit(3, PUT, 5).order(100), (5, 4)),
        (late, Limit(3, PUT, 5).order(100), (6, 3)),
        (late, Limit(3, PUT, 5).order(100), (5, 3)),
        (late, Limit(3, PUT_REPAIR, 5).order(100), (5, 3)),
        (late, Limit(3, GET, 5).order(100), (5, 3)),
        (NOW + DAY, Limit(3, GET, 5).order(100), (5, 3)),
        (NOW, Limit(3, GET_AUDIT, 500).order(100), (5, 3)),
        (NOW, Limit(4, GET_AUDIT, 500).order(100), (5, 3)),
        (NOW, Limit(4, limit=100).order(100), (5, 3)),
        (NOW, good, (5, 3)),
        (NOW, Limit(5).order(200), (5, 3)),
        (NOW, Limit(5).order(201), (5, 3)),
    ):
        t.fetch(now, order, 201, piece=piece)
    t.put(NOW, Limit(6, GET_REPAIR).order(100), b"ab")
    t.put(NOW, Limit(6, PUT, 1).order(1), b"ab")
    t.run(cap=2)
    t.kept()
    t.end()


def device_cases(t):
    t.begin("A commit that fails: nothing is served, and the row is as it was.")
    t.failing(keeper=(3, 6))
    hold(t)
    for _ in range(3):
        t.fetch(NOW, Limit(2).order(1000), 100)
    t.fetch(NOW, Limit(2).order(1000), 700)
    t.run()
    t.kept()
    t.end()

    t.begin("A piece that can't be read or kept: its bytes were counted, and what is held is as it was.")
    t.failing(pieces=(2, 3))
    hold(t)
    t.put(NOW, Limit(2, PUT, 9).order(5), b"other")
    t.fetch(NOW, Limit(3, GET_AUDIT).order(1000), 100)
    t.fetch(NOW, Limit(3, GET_AUDIT).order(1000), 100, 150)
    t.fetch(NOW, Limit(3, GET_AUDIT).order(1000), 100, 200)
    t.fetch(NOW, Limit(3, GET_AUDIT).order(1000), 100, (1 << 64) - 1)
    t.run()
    t.kept()
    t.end()

    t.begin("A satellite that fails, puts off, and settles.")
    t.failing(settler=(1,))
    t.later((2, 3))
    hold(t)
    for _ in range(4):
        t.fetch(NOW, Limit(2).order(1000), 1)
    t.run()
    t.kept()
    t.end()

    t.begin("A note that an order is settled which can't be kept: it is offered again.")
    t.failing(keeper=(3,))
    hold(t)
    t.fetch(NOW, Limit(2).order(1000), 1)
    t.run()
    t.kept()
    t.end()

    t.begin("A wait that fails ends the run, with its line.")
    t.failing(lane=(2,))
    hold(t)
    hold(t)
    now, want = t.links[0]
    t.links = [(now, want)]
    t.settings = {}
    run = Run(t.folder)
    answer, _ = run.answer(now, want)
    run.offer(now)
    t.ask(RUN, "7 1 error: lane\\n")
    t.ask("served 1", f"200 taken whole {now} {escaped(answer)}")
    t.offers = run.offers
    t.kept()
    t.links = []
    t.end()

    t.begin("Reads and writes of a link that fail: without an answer, or one that is cut.")
    data = sent(fetch(Limit(2).order(1000), 0, 1))
    t.noted(f"link {NOW} 1 {data}")
    t.noted(f"link {NOW} 2 {data}")
    t.ask(RUN, "0 2 ")
    t.ask("served 1", f"0 nothing cut {NOW} ")
    t.ask("served 2", f"404 taken cut {NOW} ")
    t.folder.rows[2] = Row(Limit(2).order(1000))
    t.folder.rows[2].served = 1
    t.offers = []
    t.kept()
    t.end()


def request_cases(t):
    t.begin("No front of a fetch or of a put asks anything; the whole does, and what stands behind it isn't read.")
    hold(t)
    t.run(tells=False)
    order = Limit(2).order(1000)
    for data, want in (
        (fetch(order, 1, 2), dict(put=False, order=order, piece=(5, 3), length=2, offset=1)),
        (put(Limit(3, PUT).order(1000), b"two"), dict(put=True, order=Limit(3, PUT).order(1000), piece=(5, 3), length=3, bytes=b"two")),
    ):
        t.ask(f"fronts {NOW} {sent(data)}", "fronts")
        t.links += [(NOW, None)] * len(data)
        t.add(NOW, data, want)
        t.add(NOW, data + data, want)
        t.run(tells=False)
        t.statuses()
        t.kept()
    t.end()

    t.begin("Heads that are no request.")
    order = Limit(2).order(1000).hex()
    lines = {"x-order": order, "x-offset": "0", "x-length": "1"}

    def head(method="GET", path="/piece/5/3", version="HTTP/1.1", more="", **changes):
        said = {**lines, **{name.replace("_", "-"): value for name, value in changes.items()}}
        text = "".join(f"{name}: {value}\r\n" for name, value in said.items() if value is not None)
        return f"{method} {path} {version}\r\n{text}{more}\r\n".encode()

    whole = dict(put=False, order=Limit(2).order(1000), piece=(5, 3), length=1, offset=0)
    many = "".join(f"a{i}: b\r\n" for i in range(61))
    for data, want in (
        (head(), whole),
        (head(x_order=order.upper()), whole),
        (head(x_order=None), None),
        (head(x_order=order[1:]), None),
        (head(x_order="g" + order[1:]), None),
        (head(x_order=order[:-2]), {**whole, "order": Limit(2).order(1000)[:-1]}),
        (head(x_offset=None), None),
        (head(x_offset="-1"), None),
        (head(x_offset=str((1 << 64) - 1)), {**whole, "offset": (1 << 64) - 1}),
        (head(x_offset=str(1 << 64)), None),
        (head(x_length="0"), {**whole, "length": 0}),
        (head(x_length=str(MAX_PIECE)), {**whole, "length": MAX_PIECE}),
        (head(x_length=str(MAX_PIECE + 1)), None),
        (head(x_length=""), None),
        (head(method="POST"), None),
        (head(method="get"), None),
        (head(path="/piece/5/256"), None),
        (head(path="/piece/5"), None),
        (head(path="/piece/5/3/"), None),
        (head(path="/pieces/5/3"), None),
        (head(path=f"/piece/{1 << 64}/3"), None),
        (head(path="/piece/005/003"), whole),
        (head(more="transfer-encoding: chunked\r\n"), None),
        (head(more="X-Order: 00\r\n"), whole),
        (head(more=many), whole),
        (head(more=many + "c: d\r\n"), None),
        (head(more="a: " + "b" * 9000 + "\r\n"), None),
        (b"\x00\x01\x02\r\n\r\n", None),
        (b"", None),
    ):
        t.add(NOW, data, want)
    t.run()
    t.kept()
    t.end()

    t.begin("Puts whose length is missing, told twice, or too great; and a piece of no byte.")
    order = Limit(2, PUT).order(1000)
    plain = f"PUT /piece/5/3 HTTP/1.1\r\nx-order: {order.hex()}\r\n"
    for lengths, body, want in (
        ("", b"abc", None),
        ("content-length: 3\r\ncontent-length: 3\r\n", b"abc", None),
        ("content-length: 3x\r\n", b"abc", None),
        (f"content-length: {MAX_PIECE + 1}\r\n", b"abc", None),
        ("content-length: 4\r\n", b"abc", None),
        ("content-length: 2\r\n", b"abc", dict(put=True, order=order, piece=(5, 3), length=2, bytes=b"ab")),
        ("content-length: 0\r\n", b"", dict(put=True, order=order, piece=(5, 3), length=0, bytes=b"")),
    ):
        t.add(NOW, (plain + lengths + "\r\n").encode() + body, want)
    t.run()
    t.kept()
    t.end()


def opening_cases(t):
    t.begin("Rows of a store that are none of an order's use, each way once: the first is told, and nothing is served.")
    good = Row(Limit(2).order(1000))
    good.served = 400
    serial = big(2, 8).hex()
    body = good.bytes()
    spoiled = bytearray(body)
    spoiled[60] ^= 1
    above = Row(Limit(2).order(1000))
    above.served = 1001
    over = Row(Limit(2).order(1001))
    for words, kind, name, data in (
        ("another kind", 51, serial, body),
        ("an id that is short", 50, serial[2:], body),
        ("another serial", 50, big(3, 8).hex(), body),
        ("a body that is short", 50, serial, body[:-1]),
        ("a body that is long", 50, serial, body + b"\0"),
        ("a flag of 2", 50, serial, body[:-1] + b"\2"),
        ("a tag under no key", 50, serial, bytes(spoiled)),
        ("more served than ordered", 50, serial, above.bytes()),
        ("more ordered than the limit", 50, serial, over.bytes()),
    ):
        t.noted("new")
        t.say(f"# {words}")
        t.noted(f"row {kind} {name} {data.hex()}")
        t.noted(f"link {NOW} - {sent(fetch(good.order, 0, 1))}")
        t.ask(RUN, f"4 0 error: bad-store 0 {kind} {name}\\n")
    t.noted("new")
    t.say("# The keeper fails as the rows are read; then it doesn't.")
    t.noted("failing 1 - - -")
    t.noted(f"row 50 {serial} {body.hex()}")
    t.ask(RUN, "3 0 error: store\\n")
    t.ask(RUN, "0 0 ")
    t.ask("rows", "rows 1 2:400:open:1000")
    t.end()


def word_cases(t):
    t.say("# Words.")
    usual = f"run {NODE} {KEY.hex()} d 1 2 65536 2130706433"
    t.ask("words " + RUN, usual)

    def changed(name, value):
        words = list(WORDS)
        words[words.index(name) + 1] = value
        return " ".join(words)

    def without(name):
        at = WORDS.index(name)
        return " ".join(WORDS[:at] + WORDS[at + 2 :])

    for name in WORDS[1::2]:
        t.ask("words " + without(name), "none")
        t.ask(f"words {RUN} {name} 1", "none")
    for name, value, answer in (
        ("--node", "0", None),
        ("--node", "1", usual.replace(f"run {NODE}", "run 1")),
        ("--node", "4294967295", usual.replace(f"run {NODE}", "run 4294967295")),
        ("--node", "4294967296", None),
        ("--key", KEY.hex()[1:], None),
        ("--key", KEY.hex() + "0", None),
        ("--key", "AB" * 32, usual.replace(KEY.hex(), "ab" * 32)),
        ("--port", "0", None),
        ("--port", "65535", usual.replace(" 1 2 ", " 65535 2 ")),
        ("--port", "65536", None),
        ("--satellite", "0", None),
        ("--satellite", "65536", None),
        ("--dir", "-d", None),
        ("--dir", "_", None),
    ):
        t.ask("words " + changed(name, value), answer or "none")
    for more, answer in (
        ("--cap 0", None),
        ("--cap 4194304", usual.replace("65536", "4194304")),
        ("--cap 4194305", None),
        ("--addr 127.0.0.0", usual.replace("2130706433", str(127 << 24))),
        ("--addr 127.255.255.255", usual.replace("2130706433", str((128 << 24) - 1))),
        ("--addr 126.255.255.255", None),
        ("--addr 128.0.0.0", None),
        ("--addr 127.0.1", None),
        ("--addr 127.0.0.01", None),
        ("--other 1", None),
        ("--cap", None),
    ):
        t.ask(f"words {RUN} {more}", answer or "none")
    t.ask("words serve", "none")
    t.ask("words _", "none")
    t.ask("run", "2 0 error: usage\\n")
    t.end()


def part():
    t = Case()
    for cases in (count_cases, refusal_cases, device_cases, request_cases, opening_cases, word_cases):
        cases(t)
    return t
