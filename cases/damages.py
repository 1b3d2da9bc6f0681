"""Stores with a damaged row, and what is told of them: cases of trial_cases.

It knows the format of records and the rules of the tables. Each case is a sound store with few rows changed, and the
first row that is none, or the least rule that is broken with its first record, is known by how it was changed.
"""

from parts import Part

SETTINGS, MARKS, NODE, CUSTOMER, SEGMENT, SETTLED, TALLY, STATEMENT = range(1, 9)
AUDIT, RECHECK, REPAIR, CONTAINMENT, KEPT, EXIT, LEFT, TARIFF = range(9, 17)

NOW = 1772323200
MONTH = 24314
MOMENT = 1 << 36


def be(width, *numbers):
    return b"".join(number.to_bytes(width, "big") for number in numbers)


def settings(version=2, scheme=(2, 3, 4, 6), share=16, vet=100, fresh=5, caps=(100, 100, 100, 100, 1, 1), month=MONTH):
    body = be(1, version) + bytes([7]) * 32 + be(1, *scheme) + be(2, share, vet) + be(1, fresh)
    return b"", body + be(4, *caps) + be(4, month)


def marks(time=NOW, segment=3, serial=4, plan=2, month=MONTH, hour=0):
    return b"", be(8, time, segment, serial, plan) + be(4, month) + be(8, hour)


def node(number, addr=None, joined=NOW, alpha=10000, beta=0, status=0):
    addr = 256 * number if addr is None else addr
    body = be(4, addr) + be(2, 28967) + be(8, 1 << 40, joined) + be(4, alpha, beta, 0) + be(1, status)
    return be(4, number), body


def customer(number, added=NOW):
    return be(4, number), be(8, added)


def places(pieces):
    return be(1, len(pieces)) + b"".join(be(1, index) + be(4, number) for index, number in pieces)


def segment(number, owner, size, version, pieces):
    return be(8, number), be(4, owner) + be(8, size, version) + places(pieces)


def settled(serial, number, action=2, amount=1000, at=NOW):
    return be(8, serial) + be(4, number), be(1, action) + be(8, amount, at)


def offer(owner, number, serial, action, pieces, issued=NOW):
    body = be(1, 3) + be(4, owner) + be(8, number, serial) + be(1, action) + be(8, 64, issued) + be(1, len(pieces))
    return body + b"".join(be(1, index) + be(4, at, addr) + be(2, 28967) for index, at, addr in pieces)


def kept(caller, number, asked, done):
    return be(4, caller), be(8, number) + asked + done


def tariff(month, get=20000000, audit=10000000, repair=10000000, storage=1500000):
    return be(4, month), be(8, get, audit, repair, storage)


ALL = [(index, index + 1) for index in range(6)]
ADDED = be(1, 2) + be(1, 2) + be(4, 2)
BEGUN = be(1, 3) + be(8, 100)
OFFERED = offer(1, 2, 3, 1, [(0, 6, 1536)])
DELETED = be(1, 6) + be(8, 2)
GONE = be(1, 5) + be(8, 2)

SOUND = [
    (SETTINGS, *settings()),
    (MARKS, *marks()),
    *((NODE, *node(number)) for number in range(1, 7)),
    (CUSTOMER, *customer(1)),
    (CUSTOMER, *customer(2)),
    (SEGMENT, *segment(1, 1, 100, 1, ALL[:2])),
    (SEGMENT, *segment(2, 2, 100, 0, ALL)),
    (SETTLED, *settled(1, 1)),
    (SETTLED, *settled(1, 2)),
    (SETTLED, *settled(2, 1)),
    (KEPT, be(4, 0), be(8, 5) + ADDED),
    (KEPT, *kept(1, 5, BEGUN, OFFERED)),
    (KEPT, *kept(2, 5, DELETED, GONE)),
    (TARIFF, *tariff(MONTH)),
    (TARIFF, *tariff(MONTH + 1)),
]

def audit(plan=1, segment=1, version=1, stripe=0, serial=1, issued=NOW, asked=ALL[:2]):
    return b"", be(8, plan, segment, version, stripe, serial, issued) + places(asked)


def recheck(plan=1, serial=1, issued=NOW, node=1, segment=1):
    return b"", be(8, plan, serial, issued) + be(4, node) + be(8, segment) + be(1, 0) + be(8, 0) + bytes(32)


def repair(plan=1, segment=1, version=1, serial=1, issued=NOW, length=100, sources=ALL[:2], targets=ALL[2:3]):
    return b"", be(8, plan, segment, version, serial, issued, length) + places(sources) + places(targets)


def leave(leaving=(0, 1), targets=((0, 3),), **others):
    return b"", be(1, leaving[0]) + be(4, leaving[1]) + repair(targets=list(targets), **others)[1]


def contained(node=1, segment=1, index=0, stripe=0, tries=0):
    return be(4, node), be(8, segment) + be(1, index) + be(8, stripe) + bytes(32) + be(1, tries)


# a good row of each other kind; the tally and the statement break their rules
OTHERS = {
    TALLY: (be(8, 1) + be(4, 1), be(8, 1)),
    STATEMENT: (be(4, MONTH, 1), be(4, 1) + be(1, 75) + bytes(16 * 13)),
    AUDIT: audit(),
    RECHECK: recheck(),
    REPAIR: repair(),
    CONTAINMENT: contained(),
    EXIT: leave(),
    LEFT: (be(4, 1), be(8, NOW)),
}


class Cases(Part):
    def __init__(self):
        super().__init__()
        self.number = 0

    def rows(self, *rows):
        for row in rows:
            self.ask(line_of(row))

    def store(self, answer, *rows):
        self.number += 1
        self.say(f"store damaged-{self.number}")
        self.ask("like damaged-0")
        self.rows(*rows)
        self.ask("open", answer)
        self.say()

    def bad(self, *rows, first=None):
        """The first of the rows, or another one, is none."""
        kind, identity = (first or rows[0])[:2]
        self.store(f"row kind {kind} id {identity.hex()}", *rows)

    def broken(self, rule, kind, identity, *rows):
        self.store(f"rule {rule} kind {kind} id {identity.hex()}", *rows)


def line_of(row):
    """A row of two parts is taken away."""
    if len(row) == 2:
        return f"without {row[0]} {row[1].hex() or '-'}"
    return f"row {row[0]} {row[1].hex() or '-'} {row[2].hex() or '-'}"


def of_lengths(cases):
    cases.say("# A row of each kind: the body a byte short, a byte long and empty, and another id")
    for kind in range(1, 17):
        identity, body = next(((i, b) for k, i, b in SOUND if k == kind), OTHERS.get(kind, ("", "")))
        for changed in (body[:-1], body + b"\0", b""):
            cases.bad((kind, identity, changed))
        cases.bad((kind, identity + b"\0", body))
        if identity:
            cases.bad((kind, identity[:-1], body))


def of_bounds(cases):
    cases.say("# A number out of its bounds, an index out of order or twice, and what has no name")
    for body in (
        settings(version=1),
        settings(version=3),
        *(settings(scheme=scheme) for scheme in ((0, 3, 4, 6), (4, 3, 4, 6), (2, 4, 4, 6), (2, 3, 7, 6), (2, 3, 4, 129))),
        *(settings(share=share) for share in (0, 1025)),
        *(settings(vet=vet) for vet in (0, 1001)),
        settings(fresh=101),
        settings(caps=(0, 100, 100, 100, 1, 1)),
        settings(caps=(65537, 100, 100, 100, 1, 1)),
        settings(caps=(100, 100, 100, 100, 1, 1048577)),
        *(settings(month=month) for month in (23639, 49776)),
    ):
        cases.bad((SETTINGS, *body))
    for body in (marks(time=MOMENT), marks(month=23639), marks(month=49776), marks(hour=MOMENT + 1)):
        cases.bad((MARKS, *body))
    for body in (node(2, status=4), node(2, status=9), node(2, joined=MOMENT)):
        cases.bad((NODE, *body))
    cases.bad((CUSTOMER, *customer(2, added=MOMENT)))
    for pieces in ([(1, 2), (0, 1)], [(0, 1), (0, 2)], [(0, 1), (128, 2)]):
        cases.bad((SEGMENT, *segment(1, 1, 100, 1, pieces)))
    long = be(1, 129) + b"".join(be(1, index) + be(4, 1) for index in range(129))
    cases.bad((SEGMENT, be(8, 1), be(4, 1) + be(8, 100, 1) + long))
    for body in (settled(1, 1, action=0), settled(1, 1, action=6), settled(1, 1, at=MOMENT)):
        cases.bad((SETTLED, *body))
    for asked, done in (
        (be(1, 0), GONE),
        (be(1, 7) + be(8, 2), GONE),
        (DELETED, be(1, 0) + be(8, 2)),
        (DELETED, be(1, 6) + be(8, 2)),
        (BEGUN, offer(1, 2, 3, 0, [])),
        (BEGUN, offer(1, 2, 3, 6, [])),
        (BEGUN, offer(1, 2, 3, 1, [], issued=MOMENT)),
        (be(1, 4) + be(8, 1) + be(1, 129) + bytes(129), be(1, 4) + be(8, 1)),
    ):
        cases.bad((KEPT, *kept(1, 5, asked, done)))
    for body in (tariff(23639), tariff(49776), tariff(MONTH, get=10**9 + 1), tariff(MONTH, storage=10**9 + 1)):
        cases.bad((TARIFF, *body))


def of_kinds(cases):
    cases.say("# Kinds that there aren't; the first row that is none, whatever stands behind it and whatever rule is broken")
    for kind in (0, 17, 255):
        cases.bad((kind, b"", b""))
    late = (TARIFF, be(4, MONTH), b"")
    early = (NODE, be(4, 2), b"")
    cases.bad(late, early, first=early)
    cases.bad(late, (0, b"\1", b""), first=(0, b"\1"))
    cases.bad(late, (SETTINGS, b""), (NODE, be(4, 1)))
    cases.bad((17, b"", b""), (CUSTOMER, *customer(9)))


def of_plans(cases):
    cases.store("open", *((kind, *OTHERS[kind]) for kind in (AUDIT, RECHECK, REPAIR, CONTAINMENT, EXIT)))
    # what was drawn, the version, the stripe, and the pieces; of a segment that is gone, and of a later version, the first alone
    drawn = {"plan": 2}, {"serial": 4}, {"segment": 3}, {"issued": NOW + 1}
    for wrong in (*drawn, {"version": 0}, {"version": 2}, {"stripe": 4}, {"asked": ALL[2:3]}, {"asked": [(1, 1)]}):
        cases.broken(8, AUDIT, b"", (AUDIT, *audit(**wrong)))
    cases.store("open", (SEGMENT, be(8, 1)), (AUDIT, *audit(stripe=9)))
    for wrong in (*drawn, {"node": 7}):
        cases.broken(8, RECHECK, b"", (RECHECK, *recheck(**wrong)))
    for wrong in (
        *drawn,
        {"length": 99},
        {"sources": ALL[:1]},
        {"sources": ALL[2:4]},
        {"targets": []},
        {"targets": ALL[1:2]},
        {"targets": [(6, 3)]},
        {"targets": [(2, 7)]},
        {"targets": [(2, 3), (3, 3)]},
    ):
        cases.broken(8, REPAIR, b"", (REPAIR, *repair(**wrong)))
    cases.broken(8, AUDIT, b"", (AUDIT, *audit(plan=2)), (REPAIR, *repair(plan=2)))
    cases.broken(8, REPAIR, b"", (AUDIT, *audit()), (REPAIR, *repair(plan=2)))
    for wrong in ({"segment": 2}, {"index": 1}, {"stripe": 4}, {"tries": 3}):
        cases.broken(9, CONTAINMENT, be(4, 1), (CONTAINMENT, *contained(**wrong)))
    cases.broken(9, CONTAINMENT, be(4, 1), (NODE, *node(1, status=1)), (CONTAINMENT, *contained()))
    cases.broken(9, CONTAINMENT, be(4, 2), (CONTAINMENT, *contained()), (CONTAINMENT, *contained(2)), (CONTAINMENT, *contained(3)))
    for wrong in (
        *drawn,
        {"leaving": (2, 3)},
        {"sources": ALL[:1]},
        {"sources": [(0, 1), (1, 7)]},
        {"targets": []},
        {"targets": [(1, 3)]},
        {"targets": [(0, 7)]},
        {"targets": [(0, 2)]},
        {"targets": [(0, 3), (1, 4)]},
    ):
        cases.broken(11, EXIT, b"", (EXIT, *leave(**wrong)))
    cases.broken(12, LEFT, be(4, 1), (LEFT, *OTHERS[LEFT]))
    cases.broken(12, LEFT, be(4, 5), (NODE, *node(5, status=3)))
    cases.broken(12, LEFT, be(4, 5), (NODE, *node(5, status=3)), (NODE, *node(6, status=3)), (LEFT, be(4, 6), be(8, NOW)))
    cases.broken(12, LEFT, be(4, 5), (NODE, *node(5, status=3)), (LEFT, be(4, 5), be(8, NOW + 1)))
    cases.broken(12, LEFT, be(4, 6), (NODE, *node(5, status=3)), (LEFT, be(4, 5), be(8, NOW)), (NODE, *node(6, status=3)))
    cases.store("open", (NODE, *node(5, status=3)), (LEFT, be(4, 5), be(8, NOW)))


def of_rules(cases):
    cases.say("# Rules: a record that breaks one, the first of two that do, a missing one; and the least rule of two")
    cases.broken(1, SETTINGS, b"", (SETTINGS, b""))
    cases.broken(1, MARKS, b"", (MARKS, b""))
    cases.broken(1, SETTINGS, b"", (SETTINGS, b""), (MARKS, b""))
    for body in (marks(month=MONTH - 1), marks(month=MONTH + 1), marks(hour=NOW // 3600 + 2)):
        cases.broken(1, MARKS, b"", (MARKS, *body))
    for first in (0, 2**63 + 1):
        cases.broken(1, MARKS, b"", (MARKS, *marks(segment=first)))
    cases.broken(2, NODE, be(4, 4), (NODE, be(4, 3)))
    cases.broken(2, NODE, be(4, 0), (NODE, *node(0, addr=99 << 8)))
    cases.broken(2, NODE, be(4, 5), (NODE, *node(5, joined=NOW + 1)), (NODE, *node(6, joined=NOW + 1)))
    cases.broken(2, NODE, be(4, 6), (NODE, *node(6, alpha=20001)))
    cases.broken(2, NODE, be(4, 2), (NODE, *node(2, alpha=500, beta=499)))
    cases.broken(2, NODE, be(4, 6), (SETTINGS, *settings(caps=(5, 100, 100, 100, 1, 1))))
    cases.broken(3, CUSTOMER, be(4, 2), (CUSTOMER, be(4, 1)))
    cases.broken(3, CUSTOMER, be(4, 1), (CUSTOMER, *customer(1, NOW + 1)), (CUSTOMER, *customer(2, NOW + 1)))
    cases.broken(3, CUSTOMER, be(4, 2), (SETTINGS, *settings(caps=(100, 1, 100, 100, 1, 1))))
    # the customer of a segment, its nodes, its bytes, their subnets, its indexes and its version
    for body in (
        segment(1, 3, 100, 1, ALL[:2]),
        segment(1, 1, 100, 1, [(0, 1), (1, 7)]),
        segment(1, 1, 0, 1, ALL[:2]),
        segment(1, 1, 8388609, 1, ALL[:2]),
        segment(1, 1, 100, 1, [(0, 1), (6, 2)]),
        segment(1, 1, 100, 1, ALL[:1]),
        segment(1, 1, 100, 3, ALL[:2]),
        segment(1, 1, 100, 0, ALL[:5]),
    ):
        cases.broken(4, SEGMENT, body[0], (SEGMENT, *body))
    cases.broken(4, SEGMENT, be(8, 1), (NODE, *node(2, addr=257)))
    cases.broken(4, SEGMENT, be(8, 3), (SEGMENT, *segment(3, 1, 100, 1, ALL[:2])))
    cases.broken(4, SEGMENT, be(8, 2), (SETTINGS, *settings(caps=(100, 100, 1, 100, 1, 1))))
    cases.broken(5, SETTLED, be(8, 1) + be(4, 7), (SETTLED, *settled(1, 7)), (SETTLED, *settled(2, 9)))
    cases.broken(5, SETTLED, be(8, 2) + be(4, 1), (SETTLED, *settled(2, 1, at=NOW + 1)))
    cases.broken(5, SETTLED, be(8, 1) + be(4, 2), (SETTINGS, *settings(caps=(100, 100, 100, 1, 1, 1))))
    cases.broken(6, TALLY, OTHERS[TALLY][0], (TALLY, *OTHERS[TALLY]))
    cases.broken(7, STATEMENT, OTHERS[STATEMENT][0], (STATEMENT, *OTHERS[STATEMENT]))
    of_plans(cases)
    for caller, asked, done in (
        (0, DELETED, GONE),
        (1, be(1, 2), be(1, 2) + be(4, 2)),
        (3, DELETED, GONE),
        (1, BEGUN, GONE),
        (1, DELETED, be(1, 5) + be(8, 3)),
        (1, BEGUN, offer(2, 2, 3, 1, [])),
        (1, BEGUN, offer(1, 2, 3, 2, [])),
        (1, BEGUN, offer(1, 2, 4, 1, [])),
        (1, BEGUN, offer(1, 2, 3, 1, [(0, 7, 1)])),
        (1, BEGUN, offer(1, 2, 3, 1, [], issued=NOW + 1)),
    ):
        row = kept(caller, 5, asked, done)
        cases.broken(10, KEPT, row[0], (KEPT, *row))
    cases.broken(13, TARIFF, be(4, MONTH), (TARIFF, be(4, MONTH)))
    cases.broken(13, TARIFF, be(4, MONTH - 1), (TARIFF, *tariff(MONTH - 1)))
    cases.broken(3, CUSTOMER, be(4, 2), (CUSTOMER, be(4, 1)), (TARIFF, be(4, MONTH)))
    cases.broken(5, SETTLED, be(8, 1) + be(4, 7), (SETTLED, *settled(1, 7)), (LEFT, *OTHERS[LEFT]))


def part():
    cases = Cases()
    cases.say("store damaged-0")
    cases.rows(*SOUND)
    cases.ask("open", "open")
    cases.say()
    for some in (of_lengths, of_bounds, of_kinds, of_rules):
        some(cases)
    return cases
