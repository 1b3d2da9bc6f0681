"""Cases of `init` and of `serve` with its lanes."""

from serve_texts import (
    BEGIN, CUSTOMER, INIT, NOW, SERVE, STOP, WITH_SECRET, again, answer, big, customer_key, edge, marks_row, new_store,
    node_key, node_row, operator_line, request, settings_row, settle, settled, settled_row, some_store, tariff_row,
)


def init_cases(t):
    t.say("# A store is made with the given secret, and once.")
    t.store()
    t.note(f"moments {NOW}")
    t.run(WITH_SECRET, 0, operator_line())
    t.rows(new_store())
    t.run(WITH_SECRET, 8, "error: refused store-not-empty\\n")
    t.rows(new_store())
    t.say("")
    t.say("# Without one, four words are drawn, most significant byte first.")
    drawn = big(0x0123456789ABCDEF, 8) * 4
    t.store()
    t.note(f"moments {NOW}")
    t.note(f"words 4 {0x0123456789ABCDEF} -")
    t.run(INIT, 0, operator_line(drawn))
    t.rows([settings_row(secret=drawn), marks_row(), tariff_row()])
    t.say("")
    t.say("# The third draw fails; the keeper's load and its commit; the console's write.")
    t.store()
    t.note(f"moments {NOW}")
    t.note("words 4 5 3")
    t.run(INIT, 10, "error: words\\n")
    t.rows([])
    for call in (1, 2):
        t.note(f"moments {NOW}")
        t.note(f"fail keeper {call}")
        t.run(WITH_SECRET, 3, "error: store\\n")
        t.rows([])
    t.note(f"moments {NOW}")
    t.note("fail console 1")
    t.run(WITH_SECRET, 5, "")
    t.rows(new_store())
    t.say("")
    t.say("# Words outside the grammar.")
    t.store()
    for words in (
        "", "serve", "serve --store s", f"{SERVE} --lanes 17", f"{SERVE} --lanes 0", f"{SERVE} --term 0",
        f"{SERVE} --term 65537", f"{SERVE} --tick 0", f"{SERVE} --tick 86401", "serve --store s --port 65521",
        "serve --store s --port 0", f"{SERVE} --port 2", f"{SERVE} --secret 00", "init --store s --k 2 --m 3 --o 4",
        "init --store s --k 3 --m 2 --o 4 --n 6", "stop", f"{INIT} --vet 0", f"{INIT} --fresh 101",
    ):
        t.run(words, 2, "error: usage\\n")
    t.rows([])


def open_cases(t):
    t.say("# Stores that aren't opened: the keeper fails, a row is no record, a rule is broken.")
    t.store(some_store())
    t.note("fail keeper 1")
    t.run(SERVE, 3, "error: store\\n")
    t.run(SERVE, 0, "entries 0\\n")
    t.store([*some_store(), (200, b"", b"")])
    t.run(SERVE, 4, "error: bad-store 0 200 \\n")
    t.store([*some_store(), (200, b"\x07", b"")])
    t.run(SERVE, 4, "error: bad-store 0 200 07\\n")
    t.store()
    t.run(SERVE, 4, "error: bad-store 1 1 \\n")
    t.store([settings_row(), tariff_row()])
    t.run(SERVE, 4, "error: bad-store 1 2 \\n")
    t.store([*some_store(), settled_row(1, 9, 10, NOW)])
    t.run(SERVE, 4, f"error: bad-store 5 6 {big(1, 8).hex()}{big(9, 4).hex()}\\n")
    t.store([*some_store(), node_row(9)])
    t.run(SERVE, 4, f"error: bad-store 2 3 {big(9, 4).hex()}\\n")


def session_cases(t):
    t.say("# Orders settle once, over one lane, and are kept.")
    t.store(some_store())
    t.lane([settle(1, 7, 1000), settle(1, 7, 1000), settle(1, 7, 999), settle(2, 7, 1001)])
    t.run(SERVE, 0, "entries 4\\n", [
        "session 0 entered 0", "session 0 entered 1", "session 0 entered 2", "session 0 entered 3",
        "link 0 " + settled(1000), "link 0 " + again(1000),
        "link 0 " + answer({"error": "differs", "kept": 1000, "number": 7}, 409),
        "link 0 " + answer({"error": "over-limit", "limit": 1000, "number": 9}, 409),
    ])
    t.rows([*some_store(), settled_row(1, 7, 1000, NOW)])
    t.lane([settle(1, 7, 1000)])
    t.run(SERVE, 0, "entries 1\\n", ["session 0 entered 0", "link 0 " + again(1000)])
    t.say("")
    t.say("# One request a connection: bytes behind it are left alone.")
    t.store(some_store())
    t.lane([settle(1, 7, 1000) + settle(2, 7, 1000)])
    t.run(SERVE, 0, "entries 1\\n", ["session 0 entered 0", "link 0 " + settled(1000)])
    t.rows([*some_store(), settled_row(1, 7, 1000, NOW)])
    t.say("")
    t.say("# Four orders in a term of three. Opened again, there are three.")
    t.store(some_store())
    t.lane([settle(serial, 7, 100 + serial) for serial in (1, 2, 3, 4)])
    t.run(f"{SERVE} --term 3", 6, "entries 3\\nerror: term-full\\n", [
        *[f"session 0 entered {place}" for place in (0, 1, 2)], "session 0 term-full 3",
        *["link 0 " + settled(100 + serial) for serial in (1, 2, 3)], "link 0 " + edge("term", 503),
    ])
    three = [settled_row(serial, 7, 100 + serial, NOW) for serial in (1, 2, 3)]
    t.rows([*some_store(), *three])
    t.lane([settle(3, 7, 103), settle(4, 7, 104)])
    t.run(SERVE, 0, "entries 2\\n", [
        "session 0 entered 0", "session 0 entered 1", "link 0 " + again(103), "link 0 " + settled(104),
    ])
    t.rows([*some_store(), *three, settled_row(4, 7, 104, NOW)])
    t.say("")
    t.say("# The keeper fails its third commit, which is its fourth call: sent again, the request acts once.")
    t.store(some_store())
    t.note("fail keeper 4")
    t.lane([settle(1, 7, 1), settle(2, 7, 2), settle(3, 7, 3), settle(3, 7, 3), settle(3, 7, 3)])
    t.run(SERVE, 0, "entries 5\\n", [
        *[f"session 0 entered {place}" for place in range(5)],
        "link 0 " + settled(1), "link 0 " + settled(2), "link 0 " + edge("store", 503), "link 0 " + settled(3),
        "link 0 " + again(3),
    ])
    t.rows([*some_store(), *[settled_row(serial, 7, serial, NOW) for serial in (1, 2, 3)]])
    t.say("")
    t.say("# A numbered request whose answer is cut off: the entry stands, and the same request gets the same answer.")
    t.store(some_store())
    made = answer({"customer": 2, "key": customer_key(2).hex()})
    t.lane([("2", CUSTOMER), CUSTOMER])
    t.run(SERVE, 0, "entries 2\\n", ["session 0 entered 0 cut", "session 0 entered 1", "link 0 ", "link 0 " + made])
    t.say("")
    t.say("# A read that fails, an empty input, a wrong key, a draw that fails.")
    t.store(some_store())
    t.lane([("1", STOP), "", request("/op/stop", node_key(1), {}), BEGIN])
    t.note("words 128 5 128")
    t.run(SERVE, 0, "entries 0\\n", [
        "session 0 read-fault", "2 times session 0 edge", "session 0 words-fault",
        "link 0 ", "link 0 " + edge("short", 400), "link 0 " + edge("key", 401), "link 0 " + edge("words", 503),
    ])
    t.rows(some_store())


def connection_cases(t):
    t.say("# curl's request, as it came.")
    t.store(some_store())
    body = settle(1, 7, 1000).partition("\\r\\n\\r\\n")[2]
    t.lane([
        "POST /n/7/settle HTTP/1.1\\r\\nHost: 127.0.0.1:8000\\r\\nUser-Agent: curl/7.88.1\\r\\nAccept: */*\\r\\n"
        f"x-key: {node_key(7).hex()}\\r\\ncontent-type: application/json\\r\\nContent-Length: {len(body)}\\r\\n\\r\\n{body}",
    ])
    t.run(SERVE, 0, "entries 1\\n", ["session 0 entered 0", "link 0 " + settled(1000)])
    t.say("")
    t.say("# Requests that ask nothing; bodies that are no order, of 128 nested lists, and above the bound.")
    t.store(some_store())
    nested = "<128 [><128 ]>"
    key = f"x-key: {node_key(7).hex()}\\r\\ncontent-length: "
    t.lane([
        request("/n/7/order", node_key(7), {}),
        request("/n/7/settle", node_key(7), {}).replace("POST", "GET"),
        request("/n/6/settle", node_key(7), {}),
        request("/n/7/settle", node_key(7), {"order": 5}),
        request("/n/7/settle", node_key(7), {"order": "01"}),
        f"POST /n/7/settle HTTP/1.1\\r\\n{key}256\\r\\n\\r\\n{nested}",
        f"POST /n/7/settle HTTP/1.1\\r\\n{key}65537\\r\\n\\r\\n{{}}",
    ])
    t.run(SERVE, 0, "entries 1\\n", [
        "4 times session 0 edge", "session 0 entered 0", "2 times session 0 edge",
        "link 0 " + edge("no-route", 404), "link 0 " + edge("method", 405), "link 0 " + edge("key", 401),
        "link 0 " + answer({"error": "field", "field": "order"}, 422),
        "link 0 " + answer({"error": "length", "got": 1, "number": 1}, 409), "link 0 " + edge("json", 400),
        "link 0 " + edge("body-size", 413),
    ])
    t.say("")


def end_cases(t):
    t.say("# A wait that fails at the lane's second call: its first session stands.")
    t.store(some_store())
    t.lane([settle(1, 7, 1), settle(2, 7, 2)], failing="2")
    t.run(SERVE, 7, "entries 1\\nerror: lane\\n", ["session 0 entered 0", "link 0 " + settled(1)])
    t.rows([*some_store(), settled_row(1, 7, 1, NOW)])
    t.say("")
    t.say("# A stop ends a lane, and the other at its next request. A second stop is refused.")
    t.store(some_store())
    t.lane([STOP, settle(1, 7, 1)])
    t.run(SERVE, 0, "entries 1\\n", ["session 0 entered 0", "link 0 " + answer({"result": "stopping"})])
    t.rows(some_store())
    t.lane([settle(1, 7, 1), settle(2, 7, 2)])
    t.lane([STOP, STOP])
    t.note("hold read:0 sent:1")
    t.run(SERVE, 0, "entries 2\\n", [
        "session 0 entered 1", "session 1 entered 0",
        "link 0 " + answer({"error": "stopped", "number": 27}, 503), "link 1 " + answer({"result": "stopping"}),
    ])
    t.rows(some_store())
    t.say("")
    t.say("# The console fails at the number of entries, and behind it at the fault's line.")
    t.store(some_store())
    t.note("fail console 1")
    t.lane([settle(1, 7, 1)])
    t.run(SERVE, 5, "", ["session 0 entered 0", "link 0 " + settled(1)])
    t.note("fail console 2")
    t.lane([settle(2, 7, 2)], failing="1")
    t.run(SERVE, 7, "entries 0\\n")
    t.say("")
    t.say("# A lane has 65536 sessions at most.")
    t.store(some_store())
    t.note("lane -")
    t.note("links 65537 ")
    t.run(SERVE, 6, "entries 0\\nerror: term-full\\n", ["65536 times session 0 edge", "65536 times link 0 " + edge("short", 400)])
    t.say("# The full term comes before a lane that failed.")
    t.store(some_store())
    t.lane([settle(1, 7, 1), settle(2, 7, 2)])
    t.lane([], failing="1")
    t.run(f"{SERVE} --term 1", 6, "entries 1\\nerror: term-full\\n", [
        "session 0 entered 0", "session 0 term-full 1", "link 0 " + settled(1), "link 0 " + edge("term", 503),
    ])


def gate_cases(t):
    t.say("# Two lanes: the first is held once it has read, until the second has sent; and the other way round. Workers that")
    t.say("# run one after another are late at one of the two.")
    for held, other in ((0, 1), (1, 0)):
        t.store(some_store())
        for lane in (0, 1):
            t.lane([settle(1 + lane, 7, 10 + lane)])
        t.note(f"hold read:{held} sent:{other}")
        places = {held: 1, other: 0}
        t.run(SERVE, 0, "entries 2\\n", [
            *[f"session {lane} entered {places[lane]}" for lane in (0, 1)],
            *[f"link {lane} " + settled(10 + lane) for lane in (0, 1)],
        ])
        t.rows([*some_store(), settled_row(1, 7, 10, NOW), settled_row(2, 7, 11, NOW)])
        t.lane([settle(1, 7, 10)])
        t.run(SERVE, 0, "entries 1\\n", ["session 0 entered 0", "link 0 " + again(10)])
    t.say("# What nobody passes is waited for, but not for ever.")
    t.store(some_store())
    t.lane([settle(1, 7, 10)])
    t.note("hold read:0 sent:1")
    t.run(SERVE, 0, "entries 1\\n", ["session 0 entered 0", "link 0 " + settled(10), "gate late"])
