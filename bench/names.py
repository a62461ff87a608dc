#!/usr/bin/env python3
"""Prints how many calls a second `nfsd --stdio` answers on one processor that change names: CREATE and REMOVE in turn,
MKDIR and RMDIR in turn, and RENAME, in directories that keep 100 and 10,000 names, and how many SETATTRs of such a
directory. The name that goes is the oldest. Of several programs, which take turns, it prints also how many times as
quick as the first each is. A benchmark, not a test.

usage: bench/names.py [PROGRAM..]
"""
import sys

import nfsd

TURNS = 5
CHANGES = 200


def name(number):
    return b"name%08d" % number


def make_and_take(program, names, make, take):
    """The calls a second of so many pairs, in the root with so many names of the same kind."""
    with nfsd.Server(program) as server:
        server.answer((make(xid, name(xid)) for xid in range(names)), names * nfsd.CREATED)
        pairs = (
            record
            for number in range(CHANGES)
            for record in (make(2 * number, name(names + number)), take(2 * number + 1, name(number)))
        )
        return 2 * CHANGES / server.answer(pairs, CHANGES * (nfsd.CREATED + nfsd.TAKEN))


def rename(program, names):
    """The calls a second of so many RENAMEs, in the root with so many files."""
    with nfsd.Server(program) as server:
        server.answer((nfsd.create(xid, name(xid)) for xid in range(names)), names * nfsd.CREATED)
        renames = (nfsd.rename(number, name(number), name(names + number)) for number in range(CHANGES))
        return CHANGES / server.answer(renames, CHANGES * nfsd.RENAMED)


def touch(program, names):
    """The SETATTRs a second of the root, which has so many files."""
    with nfsd.Server(program) as server:
        server.answer((nfsd.create(xid, name(xid)) for xid in range(names)), names * nfsd.CREATED)
        touches = (nfsd.touch(number) for number in range(CHANGES))
        return CHANGES / server.answer(touches, CHANGES * nfsd.TAKEN)


MEASURES = {
    "CREATE and REMOVE": lambda program, names: make_and_take(program, names, nfsd.create, nfsd.remove),
    "MKDIR and RMDIR": lambda program, names: make_and_take(program, names, nfsd.mkdir, nfsd.rmdir),
    "RENAME": rename,
    "SETATTR": touch,
}


def main():
    programs = nfsd.programs(__doc__)
    for names in (100, 10_000):
        nfsd.compare(
            programs,
            TURNS,
            lambda program: {what: measure(program, names) for what, measure in MEASURES.items()},
            lambda what, rate: f"{what:17} among {names:6} names: {rate:9,.0f} calls a second",
        )


if __name__ == "__main__":
    main()
