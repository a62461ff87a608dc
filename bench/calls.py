#!/usr/bin/env python3
"""Prints how many GETATTR, LOOKUP and CREATE `nfsd --stdio` answers a second on one processor, in directories of 100
and of 10,000 names. Of several programs, which take turns, it prints also how many times as quick as the first each is.
A benchmark, not a test.

usage: bench/calls.py [PROGRAM..]
"""
import nfsd

TURNS = 5
GETATTRS, LOOKUPS, CREATES = 100_000, 50_000, 200


def name(number):
    return b"name%08d" % number


def fill(server, names):
    """Makes so many names."""
    server.answer((nfsd.create(xid, name(xid)) for xid in range(names)), names * nfsd.CREATED)


def read(program, names):
    """The seconds for GETATTRs of the root, which has so many names, and for LOOKUPs of each of them in turn."""
    with nfsd.Server(program) as server:
        fill(server, names)
        getattrs = [nfsd.call(xid, nfsd.GETATTR, nfsd.ROOT) for xid in range(GETATTRS)]
        lookups = [nfsd.lookup(xid, name(xid * 7919 % names)) for xid in range(LOOKUPS)]
        return server.answer(getattrs, GETATTRS * nfsd.SHOWN), server.answer(lookups, LOOKUPS * nfsd.FOUND)


def make(program, names):
    """The seconds for CREATEs in the root, which has so many names half way through."""
    with nfsd.Server(program) as server:
        first = names - CREATES // 2
        fill(server, first)
        creates = [nfsd.create(xid, name(xid)) for xid in range(first, first + CREATES)]
        return server.answer(creates, CREATES * nfsd.CREATED)


def rates(program, names):
    getattrs, lookups = read(program, names)
    creates = make(program, names)
    return {"GETATTR": GETATTRS / getattrs, "LOOKUP": LOOKUPS / lookups, "CREATE": CREATES / creates}


def main():
    programs = nfsd.programs(__doc__)
    for names in (100, 10_000):
        nfsd.compare(
            programs,
            TURNS,
            lambda program: rates(program, names),
            lambda what, rate: f"{what:7} among {names:6} names: {rate:9,.0f} calls a second",
        )


if __name__ == "__main__":
    main()
