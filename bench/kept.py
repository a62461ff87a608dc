#!/usr/bin/env python3
"""Prints the resident memory of `nfsd --stdio` with so many kept replies: to CREATEs that find their file there, and to
WRITEs of 64 KiB. What was executed is let go after 16 records, so what stays is what is kept: of each call its record
and its reply. Further calls push out the first, and the memory grows by some more and comes to a bound: it is told when
the list is full, and when it was filled 8 times and 16 times, which is about the same. A benchmark, not a test.

usage: bench/kept.py [REPLIES] [PROGRAM]      (1024 where it is left out; a WRITE keeps some 70 KB and more)
"""
import struct
import sys

import nfsd

BATCH = 64
DATA = bytes(65_536)
EARLY, LATE = 8, 16
LARGER = 1.2  # what may be told of a memory that stays
WRITTEN = 164  # the bytes of a good reply of WRITE, with its mark


def create(file, xid):
    return nfsd.create(xid, b"x"), nfsd.CREATED


def write(file, xid):
    """WRITE of 64 KiB at the file's begin, UNSTABLE (RFC 1813, 3.3.7)."""
    return nfsd.call(xid, nfsd.WRITE, file + struct.pack(">QIII", 0, len(DATA), 0, len(DATA)) + DATA), WRITTEN


def send(server, file, make, first, last):
    """Calls with these transaction ids."""
    for start in range(first, last, BATCH):
        made = [make(file, xid) for xid in range(start, min(start + BATCH, last))]
        server.answer([record for record, _ in made], sum(length for _, length in made))


def measure(program, name, make, replies):
    """Whether the memory stays, when the list was filled so many times."""
    with nfsd.Server(program, "--era", "16", "--cache", str(replies)) as server:
        file = server.make(b"x")
        send(server, file, write, 1, 2)
        before = server.resident()
        told = {}
        for turn in range(1, LATE + 1):
            send(server, file, make, turn * replies, (turn + 1) * replies)
            told[turn] = server.resident()
    full, early, late = told[1], told[EARLY], told[LATE]
    print(f"{replies} replies to {name}: {before / 1e6:,.1f} MB before, {full / 1e6:,.1f} MB when they are kept, "
          f"{early / 1e6:,.1f} MB after {EARLY} times as many, {late / 1e6:,.1f} MB after {LATE}: "
          f"{(full - before) / replies:,.0f} to {(late - before) / replies:,.0f} bytes each")
    return late <= early * LARGER


def main():
    words = nfsd.parser(__doc__)
    words.add_argument("replies", metavar="REPLIES", nargs="?", type=int, default=1_024,
                       help="how many are kept (1024)")
    words.add_argument("program", metavar="PROGRAM", nargs="?", default=nfsd.PROGRAM, help="the program (this one)")
    given = words.parse_args()
    # each is measured, whatever the other comes to
    stays = [measure(given.program, name, make, given.replies) for name, make in (("CREATE", create), ("WRITE", write))]
    if not all(stays):
        sys.exit("memory grows with the calls")


if __name__ == "__main__":
    main()
