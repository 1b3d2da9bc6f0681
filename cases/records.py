"""Rows, and what they are read as: cases of trial_texts.

It knows the format of records alone. A body is a list of fields, and what it is answered follows from reading it by
them. Cases are made of a few good rows by changing them where a bound is crossed.
"""

from parts import Part

U64 = (1 << 64) - 1
MOMENT = (0, (1 << 36) - 1)
MONTH = (23640, 49775)
HOUR = (0, 1 << 36)
RATE = (0, 10**9)
ANY = None


class Bad(Exception):
    """Bytes that no record has."""


class Number:
    """A number of some bytes, the most significant one first, within bounds."""

    def __init__(self, width, bounds=ANY):
        self.width = width
        self.low, self.high = bounds or (0, 256**width - 1)

    def read(self, data):
        if len(data) < self.width:
            raise Bad
        value = int.from_bytes(data[: self.width], "big")
        if not self.low <= value <= self.high:
            raise Bad
        return value, data[self.width :]

    def write(self, value):
        return value.to_bytes(self.width, "big")

    def good(self):
        """Values at the bounds."""
        return [self.low, self.high]

    def bad(self):
        """Values past them, as far as the width goes."""
        return [value for value in (self.low - 1, self.high + 1) if 0 <= value < 256**self.width]


class Raw:
    """So many bytes of any value."""

    def __init__(self, width):
        self.width = width

    def read(self, data):
        if len(data) < self.width:
            raise Bad
        return data[: self.width], data[self.width :]

    def write(self, value):
        return value

    def good(self):
        return [bytes(self.width), b"\xff" * self.width]

    def bad(self):
        return []


class Listed:
    """A byte that counts, and so many items, which rise where they are places of pieces."""

    def __init__(self, item, rises=False):
        self.item, self.rises = item, rises

    def read(self, data):
        if not data or data[0] > 128:
            raise Bad
        count, data, items = data[0], data[1:], []
        for _ in range(count):
            item, data = read_fields(self.item, data)
            items.append(item)
        if self.rises:
            indexes = [item[0] for item in items]
            if any(index >= 128 for index in indexes) or any(a >= b for a, b in zip(indexes, indexes[1:])):
                raise Bad
        return items, data

    def write(self, items):
        return bytes([len(items)]) + b"".join(write_fields(self.item, item) for item in items)

    def of(self, indexes):
        return [[index] + [field.good()[0] + index for field in self.item[1:]] for index in indexes]

    def good(self):
        return [[], self.of(range(128)), self.of([5, 9, 127])]

    def bad(self):
        lists = [range(129)]
        if self.rises:
            lists += [[5, 5], [5, 9, 7], [5, 128], [255]]
        return [self.of(indexes) for indexes in lists]


class Choice:
    """A byte that says which, and its fields."""

    def __init__(self, fields):
        self.fields = fields

    def read(self, data):
        if not data or data[0] not in self.fields:
            raise Bad
        values, rest = read_fields(self.fields[data[0]], data[1:])
        return (data[0], values), rest

    def write(self, value):
        kind, values = value
        return bytes([kind]) + write_fields(self.fields.get(kind, []), values)

    def good(self):
        return [(kind, [field.good()[k % len(field.good())] for field in fields])
                for kind, fields in self.fields.items() for k in range(3)]

    def bad(self):
        wrong = [(0, []), (max(self.fields) + 1, []), (255, [])]
        for kind, fields in self.fields.items():
            values = [field.good()[0] for field in fields]
            wrong += [(kind, values[:i] + [value] + values[i + 1 :])
                      for i, field in enumerate(fields) for value in field.bad()]
        return wrong


class Numbers:
    """Numbers that a rule ties to one another."""

    def __init__(self, widths, rule, good, bad):
        self.numbers, self.rule, self.goods, self.bads = [Number(width) for width in widths], rule, good, bad

    def read(self, data):
        values, data = read_fields(self.numbers, data)
        if not self.rule(*values):
            raise Bad
        return values, data

    def write(self, values):
        return write_fields(self.numbers, values)

    def good(self):
        return self.goods

    def bad(self):
        return self.bads


def read_fields(fields, data):
    values = []
    for field in fields:
        value, data = field.read(data)
        values.append(value)
    return values, data


def write_fields(fields, values):
    return b"".join(field.write(value) for field, value in zip(fields, values))


def is_whole(fields, data):
    try:
        return not read_fields(fields, data)[1]
    except Bad:
        return False


def is_scheme(k, m, o, n, share):
    return 1 <= k <= m < o <= n <= 128 and 1 <= share <= 1024


ID4, ID8, BYTE, MOMENTS = Number(4), Number(8), Number(1), Number(8, MOMENT)
SCHEME = Numbers(
    (1, 1, 1, 1, 2), is_scheme,
    [[29, 35, 80, 110, 256], [1, 1, 2, 2, 1], [127, 127, 128, 128, 1024]],
    [[0, 35, 80, 110, 256], [36, 35, 80, 110, 256], [29, 35, 35, 110, 256], [29, 35, 80, 79, 256],
     [29, 35, 80, 129, 256], [29, 35, 80, 110, 0], [29, 35, 80, 110, 1025]])
CAPS = [Number(4, (1, most)) for most in (65536, 65536, 262144, 4194304, 4194304, 1048576)]
RATES = [Number(8, RATE)] * 4
PLACES = Listed([BYTE, ID4], rises=True)
SETUP = [Raw(32), SCHEME, Number(2, (1, 1000)), Number(1, (0, 100))]
VERSION_1 = SETUP + RATES + CAPS + [Number(4, MONTH)]
REPAIR = [ID8, ID8, ID8, ID8, MOMENTS, ID8, PLACES, PLACES]
ASKED = Choice({1: [Number(4), Number(2), Number(8)], 2: [], 3: [ID8], 4: [ID8, Listed([BYTE])], 5: [ID8], 6: [ID8]})
OFFER = [ID4, ID8, ID8, Number(1, (1, 5)), ID8, MOMENTS, Listed([BYTE, ID4, Number(4), Number(2)])]
DONE = Choice({1: [ID4], 2: [ID4], 3: OFFER, 4: [ID8], 5: [ID8]})

# The fields of the id and of the body of each kind.
KINDS = {
    1: ([], [Number(1, (2, 2))] + SETUP + CAPS + [Number(4, MONTH)]),
    2: ([], [MOMENTS, ID8, ID8, ID8, Number(4, MONTH), Number(8, HOUR)]),
    3: ([ID4], [ID4, Number(2), ID8, MOMENTS, ID4, ID4, ID4, Number(1, (0, 3))]),
    4: ([ID4], [MOMENTS]),
    5: ([ID8], [ID4, ID8, ID8, PLACES]),
    6: ([ID8, ID4], [Number(1, (1, 5)), ID8, MOMENTS]),
    7: ([Number(8, HOUR), ID4], [ID8]),
    8: ([Number(4, MONTH), ID4], [ID4, BYTE] + [Number(16)] * 13),
    9: ([], [ID8, ID8, ID8, ID8, ID8, MOMENTS, PLACES]),
    10: ([], [ID8, ID8, MOMENTS, ID4, ID8, BYTE, ID8, Raw(32)]),
    11: ([], REPAIR),
    12: ([ID4], [ID8, BYTE, ID8, Raw(32), BYTE]),
    13: ([ID4], [ID8, ASKED, DONE]),
    14: ([], [BYTE, ID4] + REPAIR),
    15: ([ID4], [MOMENTS]),
    16: ([Number(4, MONTH)], RATES),
}


def answer(kind, identity, body):
    """What a row is answered, by the format."""
    if kind == 1 and not identity and is_whole(VERSION_1, body):
        setup, rates, caps, month = body[:41], body[41:73], body[73:97], body[97:]
        return f"upgrade {(bytes([2]) + setup + caps + month).hex()} {month.hex()} {rates.hex()}"
    if kind not in KINDS:
        return "kind"
    id_fields, body_fields = KINDS[kind]
    if not is_whole(id_fields, identity):
        return "id"
    return "same" if is_whole(body_fields, body) else "body"


class Cases(Part):
    def row(self, kind, identity, body):
        self.ask(f"row {kind} {identity.hex() or '-'} {body.hex() or '-'}", answer(kind, identity, body))


def plain(field, place):
    """A value within the bounds, another one at each place."""
    if isinstance(field, Number):
        return field.low + (0x0102030405060708 + place) % (field.high - field.low + 1)
    if isinstance(field, Raw):
        return bytes(range(place, place + field.width))
    return field.good()[2]


def some(fields):
    return [plain(field, place) for place, field in enumerate(fields)]


def changed(fields, values):
    """Each field in turn at its bounds, and past them."""
    for i, field in enumerate(fields):
        for value in field.good() + field.bad():
            yield values[:i] + [value] + values[i + 1 :]


def of_kind(cases, kind):
    id_fields, body_fields = KINDS[kind]
    ids, values = some(id_fields), some(body_fields)
    identity, body = write_fields(id_fields, ids), write_fields(body_fields, values)
    cases.say(f"# Kind {kind}: a row, its fields at their bounds and past them, an id of another length")
    cases.row(kind, identity, body)
    for other in changed(body_fields, values):
        cases.row(kind, identity, write_fields(body_fields, other))
    for other in changed(id_fields, ids):
        cases.row(kind, write_fields(id_fields, other), body)
    for other in (identity + b"\0", identity[:-1], b"\0" + identity, b""):
        cases.row(kind, other, body)
    cases.say(f"# Kind {kind}: a body a byte long, and one whose first byte is gone")
    for other in (body + b"\0", b"\0" + body, body[1:]):
        cases.row(kind, identity, other)
    cases.say(f"# Kind {kind}: a body that is cut at each byte; each byte changed in its lowest bit, and so that a bound is crossed")
    for i in range(len(body)):
        cases.row(kind, identity, body[:i])
        cases.row(kind, identity, body[:i] + bytes([body[i] ^ 1]) + body[i + 1 :])
        for byte in (9, 255, 0):
            other = body[:i] + bytes([byte]) + body[i + 1 :]
            if answer(kind, identity, other) == "body":
                cases.row(kind, identity, other)
                break
    cases.say()


def of_counts(cases):
    cases.say("# Counts that aren't the number of items")
    for kind in (5, 9, 11, 14):
        id_fields, body_fields = KINDS[kind]
        identity = write_fields(id_fields, some(id_fields))
        front = write_fields(body_fields, some(body_fields)).rindex(bytes([3, 5]))
        body = write_fields(body_fields, some(body_fields))
        for count in (0, 2, 4, 128, 129, 255):
            cases.row(kind, identity, body[:front] + bytes([count]) + body[front + 1 :])
    cases.say()


def of_version_1(cases):
    values = some(VERSION_1)
    body = write_fields(VERSION_1, values)
    cases.say("# Settings of version 1")
    cases.row(1, b"", body)
    for other in changed(VERSION_1, values):
        cases.row(1, b"", write_fields(VERSION_1, other))
    for other in (body[:-1], body + b"\0", bytes([1]) + body, bytes([2]) + body, bytes([2]) + body[:-1]):
        cases.row(1, b"", other)
    cases.row(1, b"\0", body)
    cases.row(2, b"", body)
    cases.say()


def of_other_kinds(cases):
    cases.say("# The row of each kind under every other, and under kinds that there aren't")
    for kind, (id_fields, body_fields) in KINDS.items():
        identity, body = write_fields(id_fields, some(id_fields)), write_fields(body_fields, some(body_fields))
        for other in [0, 17, 200, 255] + [k for k in KINDS if k != kind]:
            cases.row(other, identity, body)
    cases.row(0, b"", b"")
    cases.row(17, b"", b"")
    cases.say()


def part():
    cases = Cases()
    cases.say("# Rows and what they are read as, by the format of records.")
    cases.say()
    for kind in KINDS:
        of_kind(cases, kind)
    of_counts(cases)
    of_version_1(cases)
    of_other_kinds(cases)
    cases.say("# Lines of another form")
    for line in ("2", "2 -", "2 - - -", "256 - -", "-1 - -", "x - -", "2 0 -", "2 - 0g"):
        cases.ask("row " + line, "bad-line")
    return cases
