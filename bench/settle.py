#!/usr/bin/env python3
"""A straightforward script that does the job of `satellite settle`, to compare its speed and its answers.

    settle.py SECRETHEX < orders
"""
import hashlib
import hmac
import struct
import sys

SETTLE_SECONDS = 172800
SECRET = bytes.fromhex(sys.argv[1])
CAP = 4194304
DIGITS = set(b"0123456789")


def tag(key, text):
    return hmac.new(key, text, hashlib.sha256).digest()


def number(text, most):
    if not 1 <= len(text) <= 20 or not set(text) <= DIGITS:
        return None
    value = int(text)
    return value if value <= most else None


def answer(rows, line):
    parts = line.split(b" ", 2)
    if len(parts) != 3:
        return "bad-line"
    node, moment = number(parts[0], 2**32 - 1), number(parts[1], 2**36 - 1)
    try:
        data = bytes.fromhex(parts[2].decode("ascii")) if b" " not in parts[2] else None
    except ValueError:
        data = None
    if node is None or moment is None or data is None:
        return "bad-line"
    if len(data) != 123:
        return f"length {len(data)}"
    if data[0] != 1:
        return f"version {data[0]}"
    if not 1 <= data[1] <= 5:
        return f"action {data[1]}"
    _, _, serial, owner, _, _, limit, _, expires, _ = struct.unpack(">BBQIQBQQQI", data[:51])
    if tag(tag(SECRET, b"\x01" + data[10:14]), data[:51]) != data[51:83]:
        return "limit-tag"
    if tag(tag(SECRET, b"\x02" + data[2:10]), data[10:14] + data[83:91]) != data[91:123]:
        return "order-tag"
    if owner != node:
        return f"other-node {owner}"
    amount = int.from_bytes(data[83:91], "big")
    kept = rows.get((serial, node))
    if kept is not None:
        return f"again {amount}" if kept == amount else f"differs {kept}"
    until = min(expires + SETTLE_SECONDS, 2**64 - 1)
    if moment > until:
        return f"late {until}"
    if amount > limit:
        return f"over-limit {limit}"
    if len(rows) == CAP:
        return f"settled-full {CAP}"
    rows[(serial, node)] = amount
    return f"settled {amount}"


def main():
    text = sys.stdin.buffer.read()
    lines = text.split(b"\n")
    if lines[-1] == b"":
        lines.pop()
        ended = True
    else:
        ended = False
    rows = {}
    out = []
    for i, line in enumerate(lines):
        last = i == len(lines) - 1 and not ended
        out.append(answer(rows, line if last or not line.endswith(b"\r") else line[:-1]))
    sys.stdout.write("".join(a + "\n" for a in out))


main()
