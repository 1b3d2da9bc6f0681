"""Runs of all commands over devices in memory: cases of trial_serve.

It knows the formats of keys, orders, rows and answers, and what follows from each case. Nothing of it was taken from the
program.
"""

from serve_console import console_cases
from serve_drills import drill_cases
from serve_lanes import connection_cases, end_cases, gate_cases, init_cases, open_cases, session_cases
from serve_refused import refused_cases
from serve_rounds import race_cases, round_cases
from serve_texts import Case, new_store, some_store


def part():
    t = Case()
    t.say("# Stores that others begin with: a new one; and one of seven nodes and a customer.")
    t.fixture("new", new_store())
    t.fixture("seven", some_store())
    t.say("")
    for cases in (
        init_cases, open_cases, session_cases, connection_cases, end_cases, gate_cases, round_cases, race_cases, refused_cases,
        console_cases, drill_cases,
    ):
        cases(t)
        t.say("")
    return t
