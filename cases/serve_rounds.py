"""Cases of `serve` with its workers of rounds."""

from serve_texts import (
    NOW, SERVE, customer_row, marks_row, node_row, segment_row, settings_row, settle, settled, tariff_row,
)


def lost_node(node):
    kind, key, body = node_row(node)
    return (kind, key, body[:-1] + b"\x01")


# Every byte of both segments is 5, so each piece is: the values of a constant polynomial.
WHOLE = tuple((node - 1, node) for node in range(1, 6))
HALF = ((0, 1), (1, 2), (2, 6), (3, 7))


def worn_store():
    """A segment with five good pieces, and one of whose four pieces two are at nodes that were disqualified."""
    nodes = [*map(node_row, range(1, 6)), lost_node(6), lost_node(7)]
    segments = [segment_row(1, WHOLE), segment_row(2, HALF)]
    return [settings_row(), marks_row(segment=3), *nodes, customer_row(1), *segments, tariff_row()]


def hold(t, worker, segment, places):
    for index, node in places:
        t.note(f"holds {worker} {node} {segment} {index} " + "05" * 256)


def worker(t, name, ticks=1, words=0, silent="-", failing="-", word=0):
    """A worker of rounds with so many ticks and words."""
    t.note(f"worker {name} {ticks} {silent}")
    t.note("moments " + ",".join([str(NOW)] * 8))
    t.note(f"words {words} {word} {failing}")


def auditor(t, words=2, **more):
    hold(t, "audit", 1, WHOLE)
    worker(t, "audit", words=words, **more)


def repairer(t, words=256, **more):
    hold(t, "repair", 2, HALF[:2])
    worker(t, "repair", words=words, **more)


def round_cases(t):
    t.say("# An audit asks again first, where it has nobody to ask; then its plan and its end.")
    t.store(worn_store())
    auditor(t)
    t.run(SERVE, 0, "entries 3\\n", ["round audit through 0 1 2"])
    t.say("# A repair, and behind it no piece to move; then nothing to repair.")
    t.store(worn_store())
    repairer(t)
    t.run(SERVE, 0, "entries 3\\n", ["round repair through 0 1 2"])
    repairer(t)
    t.run(SERVE, 0, "entries 2\\n", ["round repair through 0 1"])
    t.say("# A tally at each tick.")
    t.store(worn_store())
    worker(t, "tally", ticks=3)
    t.run(SERVE, 0, "entries 3\\n", [f"round tally through {place}" for place in range(3)])
    t.say("")
    t.say("# Random words are wanting: for an audit, a repair, and the move of a piece.")
    for begin, words, lines in (
        (auditor, 1, ["round audit words-fault 0"]),
        (repairer, 127, ["round repair words-fault"]),
        (repairer, 128, ["round repair words-fault 0 1"]),
    ):
        t.store(worn_store())
        begin(t, words=words, ticks=2)
        entries = len(lines[0].split()) - 3
        t.run(SERVE, 10, f"entries {entries}\\nerror: words\\n", lines)
    t.say("# A lane that failed comes first, and so does a full term.")
    t.store(worn_store())
    t.lane([], failing="1")
    auditor(t, words=1)
    t.run(SERVE, 7, "entries 1\\nerror: lane\\n", ["round audit words-fault 0"])
    t.say("")
    t.say("# The term is full before and behind a plan, and between two parts.")
    for begin, term, line in (
        (auditor, 1, "round audit term-full 1 0"),
        (auditor, 2, "round audit term-full 2 0 1"),
        (repairer, 1, "round repair term-full 1 0"),
        (repairer, 2, "round repair term-full 2 0 1"),
    ):
        t.store(worn_store())
        begin(t, ticks=2)
        t.run(f"{SERVE} --term {term}", 6, f"entries {term}\\nerror: term-full\\n", [line])
    t.store(worn_store())
    worker(t, "tally", ticks=3)
    t.run(f"{SERVE} --term 1", 6, "entries 1\\nerror: term-full\\n", ["round tally through 0", "round tally term-full 1"])
    t.say("")
    t.say("# The keeper fails the commit of a plan, so that nobody is asked; and that of its end.")
    t.store(worn_store())
    t.note("fail keeper 2")
    auditor(t)
    t.run(SERVE, 0, "entries 2\\n", ["round audit through 0 1"])
    t.store(worn_store())
    t.note("fail keeper 3")
    auditor(t)
    t.run(SERVE, 0, "entries 3\\n", ["round audit through 0 1 2"])
    t.store(worn_store())
    t.note("fail keeper 2")
    repairer(t)
    t.run(SERVE, 0, "entries 2\\n", ["round repair through 0 1"])
    t.store(worn_store())
    t.note("fail keeper 2")
    worker(t, "tally")
    t.run(SERVE, 0, "entries 1\\n", ["round tally through 0"])


def race_cases(t):
    t.say("# A lane and a worker: each is held until the other came by. Workers that run one after another are late.")
    heard = ["session 0 entered", "link 0 " + settled(10)]
    for begin, point, line in ((auditor, "audit", "round audit through"), (repairer, "repair", "round repair through")):
        for held, other in ((point, "sent:0"), ("read:0", point)):
            t.store(worn_store())
            t.lane([settle(1, 5, 10)])
            begin(t)
            t.note(f"hold {held} {other}")
            t.race(SERVE, 0, "entries 4\\n", [heard[0], line + " entry entry entry", heard[1]])
    t.say("# An audit and a repair, and everybody at once.")
    for held, other in (("audit", "repair"), ("repair", "audit")):
        t.store(worn_store())
        t.lane([settle(1, 5, 10)])
        auditor(t)
        repairer(t)
        worker(t, "tally", ticks=2)
        t.note(f"hold {held} {other}")
        t.race(SERVE, 0, "entries 9\\n", [
            heard[0], "round audit through entry entry entry", "round repair through entry entry entry",
            "2 times round tally through entry", heard[1],
        ])
