#!/usr/bin/env python3
"""Makes a store whose first month is past, so that a month can be closed at once.

    past.py FILE [--month YYYY-MM] [--secret HEX64] [--version 1] [--loopback]

`satellite init` begins with the month of the clock, which can't be closed before it is over. This script writes the rows
of docs/FORMATS.md by itself: a scheme of 2, 3, 4, 6, six nodes that joined in the month before, a customer, and what the
nodes earned in the month, which is the first one and the next to close. The usual rates hold from it on. Node 1 earns for
300000000000 fetched bytes and 10^12 bytes kept in each of 720 hours. With `--version 1` the settings have the old form,
which the satellite replaces as it opens the store. With `--loopback` the nodes are at 127.0.N.1, where examples/nodes.py
plays them. It prints the keys of the operator, the customer and the nodes.
"""
import argparse
import calendar
import hashlib
import hmac
import os
import sqlite3
import sys

SETTINGS, MARKS, NODE, CUSTOMER, SETTLED, TALLY, TARIFF = 1, 2, 3, 4, 6, 7, 16
PUT, GET, AUDIT, REPAIR = 1, 2, 3, 4
RATES = (20000000, 10000000, 10000000, 1500000)
CAPS = (65536, 65536, 262144, 4194304, 4194304, 1048576)
NODES = 6
TABLE = "CREATE TABLE record(kind INTEGER NOT NULL, id BLOB NOT NULL, body BLOB NOT NULL, PRIMARY KEY(kind, id)) STRICT"


def be(width, *numbers):
    return b"".join(number.to_bytes(width, "big") for number in numbers)


def first_moment(month):
    return calendar.timegm((month // 12, month % 12 + 1, 1, 0, 0, 0))


def settings(secret, month, version):
    front = secret + be(1, 2, 3, 4, 6) + be(2, 256, 100) + be(1, 5)
    rates = be(8, *RATES) if version == 1 else b""
    return (b"" if version == 1 else be(1, 2)) + front + rates + be(4, *CAPS) + be(4, month)


def node(number, joined, net):
    # NET.0.NUMBER.1, each in a subnet of its own
    return be(4, (net << 24) + 1 + 256 * number) + be(2, 7001) + be(8, 10**12, joined) + be(4, 10000, 0, 100) + be(1, 0)


def earned(month):
    """What was settled in the month: node, action, bytes, so often."""
    yield 1, GET, 10**9, 300
    yield 1, PUT, 10**9, 5  # storing a piece pays nothing
    for number in range(2, NODES + 1):
        yield number, GET, 10**9 * number, 10
        yield number, AUDIT, 256, 30 * number
        yield number, REPAIR, 4194304, number


def settled(month):
    serial, at = 0, first_moment(month)
    for number, action, amount, count in earned(month):
        for _ in range(count):
            serial, at = serial + 1, at + 60
            yield SETTLED, be(8, serial) + be(4, number), be(1, action) + be(8, amount, at)


def tallies(month):
    first = first_moment(month) // 3600
    for hour in range(first, min(first + 720, first_moment(month + 1) // 3600)):
        yield TALLY, be(8, hour) + be(4, 1), be(8, 10**12)
        for number in range(2, NODES + 1):
            yield TALLY, be(8, hour) + be(4, number), be(8, 10**9 * number)


def rows(secret, month, version, net):
    last = first_moment(month + 1) - 1
    joined = first_moment(month) - 86400
    yield SETTINGS, b"", settings(secret, month, version)
    yield MARKS, b"", be(8, last, 1, 1000, 1) + be(4, month) + be(8, last // 3600 + 1)
    for number in range(1, NODES + 1):
        yield NODE, be(4, number), node(number, joined, net)
    yield CUSTOMER, be(4, 1), be(8, joined)
    yield from settled(month)
    yield from tallies(month)
    if version != 1:
        yield TARIFF, be(4, month), be(8, *RATES)


def key(secret, text):
    return hmac.new(secret, text, hashlib.sha256).hexdigest()


def month_of(text):
    """A month whose nodes can have joined in the one before, and that can be over."""
    year, _, place = text.partition("-")
    month = int(year) * 12 + int(place) - 1
    if len(year) != 4 or len(place) != 2 or not 1 <= int(place) <= 12 or not 23641 <= month <= 49770:
        raise ValueError(text)
    return month


def secret_of(text):
    secret = bytes.fromhex(text)
    if len(secret) != 32:
        raise ValueError(text)
    return secret


def main():
    words = argparse.ArgumentParser(description="Makes a store whose first month is past.")
    words.add_argument("file")
    words.add_argument("--month", type=month_of, default=month_of("2026-03"))
    words.add_argument("--secret", type=secret_of, default=bytes(32))
    words.add_argument("--version", type=int, choices=(1, 2), default=2)
    words.add_argument("--loopback", dest="net", action="store_const", const=127, default=10)
    said = words.parse_args()
    if os.path.exists(said.file):
        sys.exit(f"past: {said.file} is there already")
    store = sqlite3.connect(said.file)
    store.execute(TABLE)
    store.executemany("INSERT INTO record VALUES(?, ?, ?)", rows(said.secret, said.month, said.version, said.net))
    store.commit()
    store.close()
    print("operator", key(said.secret, b"\4"))
    print("customer 1", key(said.secret, b"\3" + be(4, 1)))
    for number in range(1, NODES + 1):
        print("node", number, key(said.secret, b"\1" + be(4, number)))


main()
