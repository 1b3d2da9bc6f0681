"""The cases of `drill`: what each prints works out a model of its own, `drills.py`."""

from drills import text_of

# The number that begins a drill, and the number of its turns. A longer one stands in a file of its own.
DRILLS = ((0, 1), (2, 1000), (127, 1000))


def drill_cases(t):
    t.say("# Drills: of one turn, and with repairs in them.")
    t.store()
    for start, calls in DRILLS:
        t.run(f"drill --start {start} --calls {calls}", 0, text_of(start, calls).replace("\n", "\\n"))
    t.say("# The console fails, and numbers that no drill has.")
    t.note("fail console 1")
    t.run("drill --start 0 --calls 1", 5, "")
    for calls in (0, 20001):
        t.run(f"drill --start 0 --calls {calls}", 2, "error: usage\\n")
