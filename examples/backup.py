#!/usr/bin/env python3
"""Copies a store while no satellite has it open, and checks the copy.

    backup.py FILE COPY

What stands in FILE alone isn't all: behind a kill, the newest changes are in FILE-wal. So both are copied, as COPY and COPY-wal.
The copy is then opened by SQLite from a third place, so that it stays as it is, and has to be whole and to hold a store.
"""
import fcntl
import os
import shutil
import sqlite3
import sys
import tempfile

# The bytes that who has a database open locks.
LOCKED_FROM, LOCKED = 1 << 30, 512
SETTINGS = 1


def copy(source, to):
    """The file and its log, with their rights."""
    for end in ("", "-wal"):
        if os.path.exists(source + end):
            shutil.copy(source + end, to + end)
        elif os.path.exists(to + end):
            os.unlink(to + end)


def rows(name):
    """How many rows a store has. It is looked at in a place of its own."""
    with tempfile.TemporaryDirectory() as folder:
        copy(name, f"{folder}/store")
        base = sqlite3.connect(f"{folder}/store")
        whole = base.execute("PRAGMA integrity_check").fetchone()[0]
        settings = base.execute("SELECT count(*) FROM record WHERE kind = ?", (SETTINGS,)).fetchone()[0]
        count = base.execute("SELECT count(*) FROM record").fetchone()[0]
        base.close()
    if whole != "ok" or settings != 1:
        sys.exit(f"backup: {name} is no whole store: {whole}, {settings} rows of settings")
    return count


def main(source, to):
    with open(source, "r+b") as it:
        try:
            fcntl.lockf(it, fcntl.LOCK_EX | fcntl.LOCK_NB, LOCKED, LOCKED_FROM)
        except OSError:
            sys.exit(f"backup: another program has {source} open: stop it first")
        copy(source, to)
        wanted, found = rows(source), rows(to)
    if wanted != found:
        sys.exit(f"backup: {to} has {found} rows, and {source} has {wanted}")
    print(f"{to}: {found} rows")


if __name__ == "__main__":
    if len(sys.argv) != 3:
        sys.exit(__doc__.strip())
    try:
        main(*sys.argv[1:])
    except (OSError, sqlite3.Error) as why:
        sys.exit(f"backup: {why}")
