#!/usr/bin/env python3
"""Measures the end of an era of 65,536 records, and how long calls wait at it.

A client fills eras over one connection. It sends the calls before their ends one by one, so it knows which call found
the era full, how long that one waited, and how long the others; and which time of a processor the server used from
there on until it had let go what was recorded. Records are of GETATTR, or of SETATTR, whose replies are kept. Then four
clients send GETATTRs in pieces of 64 for some seconds, and one beside them sends one after the other: how long it
waited at most, and how often longer than 10 ms. A benchmark, not a test.

usage: bench/eras.py [--eras N] [--seconds S] [PROGRAM]
"""
import concurrent.futures
import statistics
import time

import nfsd
import network

RECORDS = 65_536
SINGLE = 200  # calls that are sent one by one before an end
BATCH = 500
SETTLES = 1.0  # seconds until what was recorded is let go
LOADERS, PIECE = 4, 64


def getattr_of(xid):
    return nfsd.call(xid, nfsd.GETATTR, nfsd.ROOT), nfsd.SHOWN


def setattr_of(xid):
    return nfsd.touch(xid), nfsd.TAKEN


class Filler:
    """A client that fills eras."""

    def __init__(self, server, make):
        self.server, self.make = server, make
        self.connection = network.Connection(server.port)
        self.xid = 0
        self.wait()

    def call(self):
        self.xid += 1
        return self.make(self.xid)

    def fill(self, count):
        """So many records, in pieces."""
        for first in range(0, count, BATCH):
            calls = [self.call() for _ in range(min(BATCH, count - first))]
            self.connection.answer(b"".join(record for record, _ in calls), sum(length for _, length in calls))

    def wait(self):
        """How long a call waits for its answer."""
        return self.connection.answer(*self.call())

    def end(self):
        """Fills an era, in which one record is. The waits of single calls, that of the one which found it full and is
        the first of the next, and the processor's time behind it."""
        self.fill(RECORDS - 1 - SINGLE)
        waits = [self.wait() for _ in range(SINGLE)]
        before = self.server.used()
        at_the_end = self.wait()
        time.sleep(SETTLES)
        cost = self.server.used() - before
        return waits, at_the_end, cost


def tell_ends(program, name, make, eras):
    """Prints what so many ends cost."""
    with network.Server(program) as server:
        filler = Filler(server, make)
        waits, ends, costs = [], [], []
        for _ in range(eras):
            more, at_the_end, cost = filler.end()
            waits += more
            ends.append(at_the_end)
            costs.append(cost)
    print(
        f"{RECORDS:,} {name}: the call that finds the era full waits {1e3 * statistics.median(ends):.2f} ms (at most"
        f" {1e3 * max(ends):.2f}), others {1e3 * statistics.median(waits):.2f} ms; the end takes"
        f" {1e3 * statistics.median(costs):.1f} ms of a processor"
    )


def load(port, until):
    """GETATTRs in pieces, until then. How many."""
    connection = network.Connection(port)
    piece = b"".join(nfsd.call(xid, nfsd.GETATTR, nfsd.ROOT) for xid in range(PIECE))
    calls = 0
    while time.monotonic() < until:
        connection.answer(piece, PIECE * nfsd.SHOWN)
        calls += PIECE
    return calls


def tell_waits(program, seconds):
    """Prints how long one client waits beside others that load the server."""
    with network.Server(program) as server, concurrent.futures.ProcessPoolExecutor(LOADERS) as processes:
        connection = network.Connection(server.port)
        waits = []
        until = time.monotonic() + seconds
        loaders = [processes.submit(load, server.port, until) for _ in range(LOADERS)]
        while time.monotonic() < until:
            waits.append(connection.answer(nfsd.call(len(waits), nfsd.GETATTR, nfsd.ROOT), nfsd.SHOWN))
        calls = sum(loader.result() for loader in loaders) + len(waits)
    print(
        f"{calls / seconds:,.0f} calls a second in {calls // RECORDS} eras: one client waits"
        f" {1e3 * statistics.median(waits):.2f} ms, at most {1e3 * max(waits):.1f} ms, and longer than 10 ms"
        f" {sum(wait > 0.01 for wait in waits)} times of {len(waits):,}"
    )


def main():
    words = nfsd.parser(__doc__)
    words.add_argument("--eras", metavar="N", type=int, default=12, help="how many ends are measured of each kind (12)")
    words.add_argument("--seconds", metavar="S", type=float, default=20, help="how long clients load the server (20)")
    words.add_argument("program", metavar="PROGRAM", nargs="?", default=nfsd.PROGRAM, help="the program (this one)")
    given = words.parse_args()
    tell_ends(given.program, "GETATTRs", getattr_of, given.eras)
    tell_ends(given.program, "SETATTRs", setattr_of, given.eras)
    tell_waits(given.program, given.seconds)


if __name__ == "__main__":
    main()
