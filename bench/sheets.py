#!/usr/bin/env python3
"""Works payout sheets out of the rows of a store's file, and compares them with what the satellite prints.

    sheets.py draw FILE [SEED]        makes a store of a hundred nodes whose first twenty-four months are closed
    sheets.py show FILE MONTH         prints the sheet of a closed month, worked out here
    sheets.py compare FILE MONTH      compares it with a sheet on standard input
    sheets.py all FILE PROGRAM        compares the sheet of each closed month with that of `PROGRAM sheet`

It knows docs/FORMATS.md and docs/TARIFF.md alone. The sums of a month are worked out of the settled orders and the hours
that were tallied, the parts by the rates of the month, and each pot from that of the month before. The statements in the
file are read only for whether a node was disqualified when its month was closed, which no other row tells; they are then
compared byte by byte with those that were worked out. It ends with 1 at the first difference.
"""
import calendar
import random
import sqlite3
import subprocess
import sys
import time

SETTINGS, MARKS, NODE, SETTLED, TALLY, STATEMENT, LEFT, TARIFF = 1, 2, 3, 6, 7, 8, 15, 16
ACTIVE, DISQUALIFIED, EXITING, EXITED = range(4)
PAID_ACTIONS = {2: "get", 3: "audit", 4: "repair"}
SUMS = ("get", "audit", "repair", "byte_hours")
WIDTHS = (6, 4, 12, 12, 12, 12, 12, 3, 12, 12, 12, 12)
HEADINGS = ("node", "age", "get", "audit", "repair", "storage", "gross", "%", "held", "paid", "returned", "pot")
TABLE = "CREATE TABLE record(kind INTEGER NOT NULL, id BLOB NOT NULL, body BLOB NOT NULL, PRIMARY KEY(kind, id)) STRICT"


def be(width, *numbers):
    return b"".join(number.to_bytes(width, "big") for number in numbers)


def number(data):
    return int.from_bytes(data, "big")


def split(data, *widths):
    """The numbers of these widths at the front."""
    values, at = [], 0
    for width in widths:
        values.append(number(data[at : at + width]))
        at += width
    return values


def first_moment(month):
    return calendar.timegm((month // 12, month % 12 + 1, 1, 0, 0, 0))


def month_of(moment):
    date = time.gmtime(moment)
    return date.tm_year * 12 + date.tm_mon - 1


def month_in(text):
    year, place = text.split("-")
    return int(year) * 12 + int(place) - 1


def text_of(month):
    return f"{month // 12:04}-{month % 12 + 1:02}"


# ---- pay


def percent_at(age):
    for last, percent in (3, 75), (6, 50), (9, 25):
        if age <= last:
            return percent
    return 0


def close(sums, rates, age, gone, left, pot):
    """What a node's month comes to, but for its sums."""
    units = (10**12, 10**12, 10**12, 720 * 10**12)
    parts = [amount * rate // unit for amount, rate, unit in zip(sums, rates, units)]
    gross = sum(parts)
    percent = 100 if gone else percent_at(age)
    held = gross * percent // 100
    filled = pot + held
    if left:
        returned = filled
    elif age == 16 and not gone:
        returned = filled // 2
    else:
        returned = 0
    return {"age": age, "percent": percent, "sums": list(sums), "parts": parts, "gross": gross, "held": held,
            "paid": gross - held, "returned": returned, "pot": filled - returned}


def body_of(row):
    amounts = row["sums"] + row["parts"] + [row[name] for name in ("gross", "held", "paid", "returned", "pot")]
    return be(4, row["age"]) + be(1, row["percent"]) + be(16, *amounts)


class Store:
    """What pay goes by, of a store's rows."""

    def __init__(self, rows):
        self.nodes, self.left, self.tariffs, self.statements, self.sums = {}, {}, {}, {}, {}
        for kind, identity, body in rows:
            if kind == SETTINGS:
                self.first = number(body[-4:])
            elif kind == MARKS:
                self.next = number(body[32:36])
            elif kind == NODE:
                joined, status = number(body[14:22]), body[34]
                self.nodes[number(identity)] = month_of(joined), status
            elif kind == SETTLED:
                self.add_settled(number(identity[8:]), *split(body, 1, 8, 8))
            elif kind == TALLY:
                hour, node = split(identity, 8, 4)
                self.add(month_of(hour * 3600), node, "byte_hours", number(body))
            elif kind == STATEMENT:
                self.statements[tuple(split(identity, 4, 4))] = body
            elif kind == LEFT:
                self.left[number(identity)] = month_of(number(body))
            elif kind == TARIFF:
                self.tariffs[number(identity)] = split(body, 8, 8, 8, 8)

    def add(self, month, node, name, amount):
        sums = self.sums.setdefault((month, node), dict.fromkeys(SUMS, 0))
        sums[name] += amount

    def add_settled(self, node, action, amount, at):
        if action in PAID_ACTIONS:
            self.add(month_of(at), node, PAID_ACTIONS[action], amount)

    def rates(self, month):
        begun = [start for start in self.tariffs if start <= month]
        return self.tariffs[max(begun)] if begun else [0] * 4

    def was_gone(self, month, node):
        kept = self.statements.get((month, node))
        if kept is not None:
            return kept[4] == 100
        return self.nodes[node][1] == DISQUALIFIED

    def month(self, month, pots):
        """The month's statements in the order of nodes. The pots become those after it."""
        rows = {}
        for node, (joined, _) in sorted(self.nodes.items()):
            if joined > month:
                continue
            sums = self.sums.get((month, node), dict.fromkeys(SUMS, 0))
            left = node in self.left and self.left[node] <= month
            gone = self.was_gone(month, node)
            rows[node] = close([sums[name] for name in SUMS], self.rates(month), month + 1 - joined, gone, left, pots.get(node, 0))
            pots[node] = rows[node]["pot"]
        return rows

    def months(self, last):
        """Each month up to the last one, with its statements."""
        pots = {}
        for month in range(self.first, last + 1):
            yield month, self.month(month, pots)


# ---- sheets


def line_of(fields):
    return " ".join(str(field).rjust(width) for field, width in zip(fields, WIDTHS)) + "\n"


def columns_of(row):
    return row["parts"] + [row["gross"]], [row[name] for name in ("held", "paid", "returned", "pot")]


def sheet_of(rows):
    text = line_of(HEADINGS)
    earned, paid = [0] * 5, [0] * 4
    for node, row in rows.items():
        first, last = columns_of(row)
        text += line_of([node, row["age"], *first, row["percent"], *last])
        earned = [a + b for a, b in zip(earned, first)]
        paid = [a + b for a, b in zip(paid, last)]
    return text + line_of(["total", "-", *earned, "-", *paid])


def read(path):
    rows = sqlite3.connect(f"file:{path}?mode=ro", uri=True)
    return Store(rows.execute("SELECT kind, id, body FROM record ORDER BY kind, id"))


def closed_sheets(path):
    """The sheet of each closed month. The file's statements are compared on the way."""
    store = read(path)
    due = set()
    for month, rows in store.months(store.next - 1):
        for node, row in rows.items():
            due.add((month, node))
            if store.statements.get((month, node)) != body_of(row):
                sys.exit(f"sheets: the statement of {text_of(month)} of node {node} differs")
        yield month, sheet_of(rows)
    if due != set(store.statements):
        sys.exit(f"sheets: there are statements beside those of the closed months: {sorted(set(store.statements) - due)[:3]}")


def sheet(path, month):
    for at, text in closed_sheets(path):
        if at == month:
            return text
    sys.exit(f"sheets: {text_of(month)} isn't closed")


def compare(month, ours, theirs):
    if ours == theirs:
        return
    for place, (a, b) in enumerate(zip(ours.splitlines() + [""], theirs.splitlines() + [""]), 1):
        if a != b:
            sys.exit(f"sheets: {text_of(month)}, line {place}:\n{a}\n{b}")
    sys.exit(f"sheets: {text_of(month)}: the lengths differ")


def compare_all(path, program):
    count = 0
    for month, ours in closed_sheets(path):
        words = [program, "sheet", "--store", path, "--month", text_of(month)]
        run = subprocess.run(words, capture_output=True, text=True)
        if run.returncode:
            sys.exit(f"sheets: {text_of(month)}: status {run.returncode}: {run.stdout}")
        compare(month, ours, run.stdout)
        count += 1
    print(f"sheets: {count} agree")


# ---- a drawn store

FIRST, MONTHS, NODES = month_in("2023-11"), 24, 100


def draw_nodes(draw):
    """Of each node the moment of joining, the status, and when it left or was disqualified: some before the first month."""
    for node in range(1, NODES + 1):
        joined = draw.randrange(first_moment(FIRST - 20), first_moment(FIRST + MONTHS - 1))
        status = draw.choices((ACTIVE, DISQUALIFIED, EXITING, EXITED), (80, 8, 4, 8))[0]
        end = draw.randrange(max(joined, first_moment(FIRST)), first_moment(FIRST + MONTHS))
        yield node, joined, status, end


def draw_rows(seed):
    draw = random.Random(seed)
    last = first_moment(FIRST + MONTHS)
    yield SETTINGS, b"", be(1, 2) + bytes(32) + be(1, 2, 3, 4, 6) + be(2, 256, 100) + be(1, 5) \
        + be(4, 65536, 65536, 262144, 4194304, 4194304, 1048576) + be(4, FIRST)
    yield MARKS, b"", be(8, last, 1, 1, 1) + be(4, FIRST + MONTHS) + be(8, last // 3600)
    for start in [FIRST] + draw.sample(range(FIRST + 1, FIRST + MONTHS + 3), 5):
        yield TARIFF, be(4, start), be(8, *(draw.choice((0, 10**9, draw.randrange(10**9))) for _ in range(4)))
    serial = 0
    for node, joined, status, end in draw_nodes(draw):
        body = be(4, 0x0A000001 + 256 * node) + be(2, 7001) + be(8, 10**12, joined) + be(4, 1000, 0, 0) + be(1, status)
        yield NODE, be(4, node), body
        if status == EXITED:
            yield LEFT, be(4, node), be(8, end)
        start = max(joined, first_moment(FIRST))
        for _ in range(draw.randrange(60)):
            serial += 1
            amount = draw.choice((0, draw.randrange(4194304), draw.randrange(2**64)))
            yield SETTLED, be(8, serial) + be(4, node), be(1, draw.randrange(1, 6)) + be(8, amount, draw.randrange(start, last + 1))
        for hour in draw.sample(range(start // 3600, last // 3600), min(40, last // 3600 - start // 3600)):
            yield TALLY, be(8, hour) + be(4, node), be(8, draw.choice((1, 2**44, draw.randrange(1, 2**44))))


def gone_from(seed):
    """From which month on each disqualified node was so at a close."""
    draw = random.Random(f"gone {seed}")
    return {node: draw.randrange(FIRST, FIRST + MONTHS + 1) for node in range(1, NODES + 1)}


def statements(rows, seed):
    store, gone = Store(rows), gone_from(seed)
    store.was_gone = lambda month, node: store.nodes[node][1] == DISQUALIFIED and gone[node] <= month
    for month, lines in store.months(FIRST + MONTHS - 1):
        for node, row in lines.items():
            yield STATEMENT, be(4, month, node), body_of(row)


def draw_store(path, seed):
    rows = list(draw_rows(seed))
    store = sqlite3.connect(path)
    store.execute(TABLE)
    store.executemany("INSERT INTO record VALUES(?, ?, ?)", rows + list(statements(rows, seed)))
    store.commit()
    store.close()


def main():
    match sys.argv[1:]:
        case ["draw", path, *seed]:
            draw_store(path, int(seed[0]) if seed else 1)
        case ["show", path, month]:
            print(sheet(path, month_in(month)), end="")
        case ["compare", path, month]:
            # the program that writes it has the file open until it has ended
            theirs = sys.stdin.read()
            compare(month_in(month), sheet(path, month_in(month)), theirs)
            print("sheets: 1 agrees")
        case ["all", path, program]:
            compare_all(path, program)
        case _:
            sys.exit(__doc__)


main()
