#!/usr/bin/env python3
"""Writes orders as lines of `satellite settle`, with the script's own HMAC.

    orders.py example           the file that the README settles, one line of each sort
    orders.py one               one order, settled exactly at its limit
    orders.py load BYTES SEED   a workload of at most BYTES bytes: mostly new orders, some repeats
"""
import hashlib
import hmac
import random
import struct
import sys

SECRET = bytes(32)
ISSUED = 1772323200
EXPIRES = ISSUED + 86400
LAST = EXPIRES + 172800


def tag(key, text):
    return hmac.digest(key, text, hashlib.sha256)


def limit(serial, node, most, action=2, segment=5, index=3, customer=9):
    body = struct.pack(">BBQIQBQQQI", 1, action, serial, node, segment, index, most, ISSUED, EXPIRES, customer)
    return body + tag(tag(SECRET, b"\x01" + struct.pack(">I", node)), body)


def order(serial, node, most, amount, **fields):
    key = tag(SECRET, b"\x02" + struct.pack(">Q", serial))
    text = struct.pack(">Q", amount)
    return limit(serial, node, most, **fields) + text + tag(key, struct.pack(">I", node) + text)


def line(node, moment, data):
    return f"{node} {moment} {data.hex()}\n"


def example():
    bad = bytearray(order(2, 7, 1000, 10))
    bad[122] ^= 1
    return [
        line(7, ISSUED, order(1, 7, 1000, 1000)),  # settled
        line(7, LAST + 1, order(1, 7, 1000, 1000)),  # again
        line(7, ISSUED, order(1, 7, 1000, 999)),  # differs
        line(8, ISSUED, order(1, 7, 1000, 1000)),  # other-node
        line(8, ISSUED, order(1, 8, 1000, 1000)),  # settled
        line(7, ISSUED, order(2, 7, 1000, 1001)),  # over-limit
        line(7, LAST + 1, order(3, 7, 1000, 10)),  # late
        line(7, ISSUED, bytes(bad)),  # order-tag
        "seven moments ago\n",  # bad-line
    ]


def load(room, seed):
    draw = random.Random(seed)
    lines, size, sent = [], 0, []
    while True:
        if sent and draw.random() < 0.1:
            text = draw.choice(sent)
        else:
            serial, node = draw.getrandbits(40), draw.randrange(1, 2000)
            most = draw.randrange(1, 1 << 20)
            text = line(node, ISSUED + draw.randrange(86400), order(serial, node, most, draw.randrange(most + 1)))
            sent.append(text)
        if size + len(text) > room:
            return lines
        lines.append(text)
        size += len(text)


def main(words):
    if words == ["example"]:
        lines = example()
    elif words == ["one"]:
        lines = [line(7, ISSUED, order(1, 7, 1000, 1000))]
    elif len(words) == 3 and words[0] == "load":
        lines = load(int(words[1]), int(words[2]))
    else:
        sys.exit(__doc__)
    sys.stdout.write("".join(lines))


if __name__ == "__main__":
    main(sys.argv[1:])
