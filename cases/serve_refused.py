"""Every call refused once."""

from serve_rounds import HALF, auditor, repairer, worker, worn_store
from serve_texts import (
    BEGIN, CAPS, CUSTOMER, NOW, SECRET, SERVE, STOP, answer, big, contained_row, customer_key, customer_row, edge,
    marks_row, node_key, node_row, operator_key, request, segment_row, settings_row, settle, settled,
    settled_row, some_store, tariff_row,
)

APRIL = 1775001600  # 2026-04-01

SIX = tuple((index, index + 1) for index in range(6))
PASSED, FAILED = dict(alpha=10500, passes=1), dict(alpha=9500, beta=1000)


def six_store(marks, nodes, more=(), stripes=2):
    """A segment with pieces at six nodes."""
    segment = segment_row(1, SIX, stripes)
    return [settings_row(), marks, *nodes, customer_row(1), segment, *more, tariff_row()]


def refused_requests(t):
    t.say("# The bytes of a settle, cut before each byte.")
    t.store(some_store())
    cut = settle(1, 7, 1000)
    t.lane([])
    t.note("fronts " + cut)
    length = len(cut.replace("\\r", "r").replace("\\n", "n"))
    t.run(SERVE, 0, "entries 0\\n", [f"{length} times session 0 edge", f"{length} times link 0 " + edge("short", 400)])
    t.say("# No head, by the grammar of heads; too many lines of one, and too many bytes. NUL bytes, and ends of lines without CR.")
    bare = f"POST /op/stop HTTP/1.1\\nx-key: {operator_key().hex()}\\ncontent-length: 2\\n\\n{{}}"
    lines = "POST / HTTP/1.1\\r\\n<1500 a: b\\r\\n>\\r\\n"
    long = "POST / HTTP/1.1\\r\\na: b<8168 b>\\r\\n\\r\\n"
    nul = "POST / HTTP/1.1\\r\\na: \\x00\\r\\n\\r\\n"
    t.lane(["POST /\\xff", "\\x01\\r\\n", lines, long, nul, bare])
    t.run(SERVE, 0, "entries 1\\n", [
        "5 times session 0 edge", "session 0 entered 0", "link 0 " + edge("short", 400), "link 0 " + edge("head", 400),
        "2 times link 0 " + edge("head-size", 431), "link 0 " + edge("head", 400),
        "link 0 " + answer({"result": "stopping"}),
    ])
    t.say("# A length of twenty nines; two keys, of which the second is right; orders of 1026 and of 1024 digits.")
    nines = f"POST /op/stop HTTP/1.1\\r\\nx-key: {operator_key().hex()}\\r\\ncontent-length: {'9' * 20}\\r\\n\\r\\n{{}}"
    keys = f"x-key: {node_key(1).hex()}\\r\\nx-key: {operator_key().hex()}"
    two = f"POST /op/stop HTTP/1.1\\r\\n{keys}\\r\\ncontent-length: 2\\r\\n\\r\\n{{}}"
    orders = [request("/n/7/settle", node_key(7), {"order": "aB" * count}) for count in (513, 512)]
    t.lane([nines, two, *orders])
    t.run(SERVE, 0, "entries 1\\n", [
        "3 times session 0 edge", "session 0 entered 0", "link 0 " + edge("body-size", 413), "link 0 " + edge("key", 401),
        "link 0 " + answer({"error": "field", "field": "order"}, 422), "link 0 " + answer({"error": "length", "got": 512, "number": 1}, 409),
    ])
    t.rows(some_store())


def refused_devices(t):
    t.say("# The connection fails at its first or second read.")
    t.store(some_store())
    t.lane([("1", STOP), ("2", STOP[:30])])
    t.run(SERVE, 0, "entries 0\\n", ["2 times session 0 read-fault", "2 times link 0 "])
    t.say("# It fails as the answer is put: sent again, the numbered request gets the same answer, and acts once.")
    made = answer({"customer": 2, "key": customer_key(2).hex()})
    t.lane([("2", CUSTOMER), CUSTOMER])
    t.run(SERVE, 0, "entries 2\\n", ["session 0 entered 0 cut", "session 0 entered 1", "link 0 ", "link 0 " + made])
    kept = (13, big(0, 4), big(1, 8) + b"\x02" + b"\x02" + big(2, 4))
    t.rows([*some_store(), customer_row(2), kept])
    t.say("# The first, a middle and the last of the 128 words of a segment fail.")
    t.store(some_store())
    for number in (1, 64, 128):
        t.lane([BEGIN])
        t.note(f"words 128 5 {number}")
        t.run(SERVE, 0, "entries 0\\n", ["session 0 words-fault", "link 0 " + edge("words", 503)])
    t.rows(some_store())
    t.say("# The keeper fails at its first, second and third commit, which are the calls from the second on.")
    for number in (1, 2, 3):
        t.store(some_store())
        t.note(f"fail keeper {number + 1}")
        t.lane([settle(serial, 7, serial) for serial in (1, 2, 3)])
        said = ["link 0 " + (edge("store", 503) if serial == number else settled(serial)) for serial in (1, 2, 3)]
        t.run(SERVE, 0, "entries 3\\n", [*[f"session 0 entered {place}" for place in range(3)], *said])
        t.rows([*some_store(), *[settled_row(serial, 7, serial, NOW) for serial in (1, 2, 3) if serial != number]])
    t.say("# The lane fails at its second call.")
    t.store(some_store())
    t.lane([settle(1, 7, 1)], failing="2")
    t.run(SERVE, 7, "entries 1\\nerror: lane\\n", ["session 0 entered 0", "link 0 " + settled(1)])
    t.say("# The console fails at a read, and at a put, behind the two reads of a line and of the end.")
    for call, status, said in ((1, 11, "error: input\\n"), (3, 5, "")):
        t.note("input a\\n")
        t.note(f"fail console {call}")
        t.run(f"settle --secret {SECRET.hex()}", status, said)


def refused_rounds(t):
    t.say("# The words of audits fail at the second round: the entries before stand.")
    t.store(worn_store())
    auditor(t, ticks=2, words=4, failing="3")
    t.run(SERVE, 10, "entries 4\\nerror: words\\n", ["round audit through 0 1 2", "round audit words-fault 3"])
    nodes = range(1, 8)
    begun, ended = marks_row(segment=2), marks_row(segment=2, serial=2, plan=2)
    share = b"\x05" * 256
    t.say("# Each of six asks of an audit gets no answer, in turn: its node is contained, the five others pass.")
    for silent in range(1, 7):
        t.store(six_store(begun, map(node_row, nodes)))
        for index, node in SIX:
            t.note(f"holds audit {node} 1 {index} " + "05" * 512)
        worker(t, "audit", words=2, silent=str(silent))
        t.run(SERVE, 0, "entries 3\\n", ["round audit through 0 1 2"])
        after = [node_row(node, **({} if node in (silent, 7) else PASSED)) for node in nodes]
        t.rows(six_store(ended, after, [contained_row(silent, 1, silent - 1, 0, share)]))
    t.say("# Of the second stripe a node holds no byte, and another one a byte too few: both answers are altered.")
    t.store(six_store(begun, map(node_row, nodes)))
    for index, node in SIX:
        t.note(f"holds audit {node} 1 {index} " + "05" * {3: 256, 5: 511}.get(node, 512))
    worker(t, "audit", words=2, word=1)
    t.run(SERVE, 0, "entries 3\\n", ["round audit through 0 1 2"])
    after = [node_row(node, **({} if node == 7 else FAILED if node in (3, 5) else PASSED)) for node in nodes]
    t.rows(six_store(ended, after))
    t.say("# Answers without a byte, with a byte too many, and with one too few are altered ones.")
    good = "\\n".join(f"{index} 0505" for index in range(5))
    t.note(f"input {good}\\n9 050505\\n11 05\\n")
    t.run("judge --k 2 --share 2", 0, "blamed 9 11\\n")
    t.say("# One put of a repair fails: its target isn't placed, and the version is the next one.")
    t.store(worn_store())
    repairer(t, silent="3")
    t.run(SERVE, 0, "entries 3\\n", ["round repair through 0 1 2"])
    t.rows(repaired_store())


def repaired_store():
    """The worn store, of whose second segment a repair placed one of its two fresh pieces, at the fourth node."""
    rows = {row[:2]: row for row in worn_store()}
    for row in (marks_row(segment=3, serial=2, plan=2), segment_row(2, (*HALF[:2], (3, 4)), version=2)):
        rows[row[:2]] = row
    return list(rows.values())


def refused_months(t):
    t.say("# A close that would make more statements than there is room for.")
    t.store([settings_row(caps=(*CAPS[:5], 1)), marks_row(), node_row(1), node_row(2), tariff_row()])
    t.lane([request("/op/close", operator_key(), {"month": "2026-03"})], moments=[APRIL])
    t.run(SERVE, 0, "entries 1\\n", [
        "session 0 entered 0", "link 0 " + answer({"error": "table-full", "number": 28, "table": "statements"}, 409),
    ])


def refused_cases(t):
    t.say("# Every call refused once.")
    refused_requests(t)
    refused_months(t)
    refused_devices(t)
    refused_rounds(t)
