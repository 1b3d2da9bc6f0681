#!/usr/bin/env python3
"""Puts a file as a segment, or gets one: an uplink by docs/FORMATS.md alone.

    uplink.py put URL CUSTOMER KEY REQUEST FILE K SHARE    uses the requests REQUEST and REQUEST + 1, prints the segment
    uplink.py get URL CUSTOMER KEY REQUEST SEGMENT LENGTH K SHARE > FILE

URL is one of the satellite's ports, as http://127.0.0.1:8000. K and SHARE are those of the store's scheme.
"""
import hashlib
import hmac
import json
import sys
import urllib.error
import urllib.request


def tables():
    exp, log, value = [0] * 510, [0] * 256, 1
    for power in range(255):
        exp[power] = exp[power + 255] = value
        log[value] = power
        value = value << 1 ^ (0x11D if value & 128 else 0)
    return exp, log


EXP, LOG = tables()


def times(a, b):
    return EXP[LOG[a] + LOG[b]] if a and b else 0


def over(a, b):
    return EXP[LOG[a] + 255 - LOG[b]] if a else 0


def weights(points, at):
    """The Lagrange weights by which values at these points give the value at another."""
    weighed = []
    for i, p in enumerate(points):
        weight = 1
        for j, q in enumerate(points):
            if i != j:
                weight = times(weight, over(at ^ q, p ^ q))
        weighed.append(weight)
    return weighed


def combined(weighed, rows):
    total = bytearray(len(rows[0]))
    for weight, row in zip(weighed, rows):
        table = bytes(times(weight, byte) for byte in range(256))
        total = bytearray(a ^ b for a, b in zip(total, row.translate(table)))
    return bytes(total)


def rows_of(data, k, share):
    """Row i of every stripe, one behind the other: piece i for i below k."""
    stripe = k * share
    whole = data + bytes(-len(data) % stripe)
    return [b"".join(whole[at + i * share : at + (i + 1) * share] for at in range(0, len(whole), stripe)) for i in range(k)]


def piece(rows, index):
    return rows[index] if index < len(rows) else combined(weights(list(range(len(rows))), index), rows)


def joined(rows, share):
    return b"".join(row[at : at + share] for at in range(0, len(rows[0]), share) for row in rows)


def asked(url, key, path, body):
    request = urllib.request.Request(url + path, json.dumps(body).encode(), {"x-key": key}, method="POST")
    try:
        with urllib.request.urlopen(request, timeout=30) as answer:
            return json.load(answer)
    except urllib.error.HTTPError as error:
        sys.exit(f"uplink: {path}: {error.code} {error.read().decode()}")


def order(offer, place):
    said = place["node"].to_bytes(4, "big") + offer["piece_length"].to_bytes(8, "big")
    mark = hmac.new(bytes.fromhex(offer["serial_key"]), said, hashlib.sha256).hexdigest()
    return place["limit"] + said[4:].hex() + mark


def at_node(offer, place, method, data=None):
    """What a node answers, or None."""
    url = f"http://{place['addr']}:{place['port']}/piece/{offer['segment']}/{place['index']}"
    headers = {"x-order": order(offer, place), "x-offset": "0", "x-length": str(offer["piece_length"])}
    try:
        with urllib.request.urlopen(urllib.request.Request(url, data, headers, method=method), timeout=10) as answer:
            return answer.read()
    except OSError:
        return None


def put(url, customer, key, request, name, k, share):
    data = open(name, "rb").read()
    rows = rows_of(data, k, share)
    offer = asked(url, key, f"/c/{customer}/segments", {"request": request, "len": len(data)})
    kept = [place["index"] for place in offer["offers"] if at_node(offer, place, "PUT", piece(rows, place["index"])) is not None]
    asked(url, key, f"/c/{customer}/segments/{offer['segment']}/commit", {"request": request + 1, "pieces": kept})
    print(offer["segment"])


def get(url, customer, key, request, segment, length, k, share):
    offer = asked(url, key, f"/c/{customer}/segments/{segment}/get", {"request": request})
    found = {}
    for place in offer["offers"]:
        data = at_node(offer, place, "GET")
        if data is not None and len(data) == offer["piece_length"]:
            found[place["index"]] = data
        if len(found) == k:
            break
    if len(found) < k:
        sys.exit(f"uplink: {len(found)} of {k} pieces")
    points = sorted(found)
    rows = [found[i] if i in found else combined(weights(points, i), [found[p] for p in points]) for i in range(k)]
    sys.stdout.buffer.write(joined(rows, share)[:length])


def main(words):
    if len(words) == 8 and words[0] == "put":
        put(words[1], int(words[2]), words[3], int(words[4]), words[5], int(words[6]), int(words[7]))
    elif len(words) == 9 and words[0] == "get":
        get(words[1], int(words[2]), words[3], *map(int, words[4:9]))
    else:
        sys.exit(__doc__)


main(sys.argv[1:])
