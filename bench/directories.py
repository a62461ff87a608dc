#!/usr/bin/env python3
"""Prints what calls on a directory of so many names cost `nfsd --stdio`, in microseconds of a processor each: CREATE
while it grows and at that size, LOOKUP, REMOVE of the newest names and of names anywhere, RENAME, and a name of whole
readings by READDIR and READDIRPLUS, which are compared with the names that were made; and what a name keeps in memory,
with its empty file. With --depth: what a RENAME of a directory costs to a target that lies so deep, and back. Other
work on the machine makes all of it dearer: compare programs by turns. A benchmark, not a test.

usage: bench/directories.py [--program PROGRAM] [--depth] NUMBER..
"""
import os
import pathlib
import random
import statistics
import struct

import nfsd

READDIR, READDIRPLUS = 16, 17
ENTRIES = 32 + 88 + 8  # what stands before the entries of a page: mark, header and status, attributes, verifier
SHOWN = 128  # what READDIRPLUS adds to each entry: attributes and a handle
MOST = 65536  # the bytes of a page
BATCH = 10_000
FEW = 40  # how many come and go beside those that stay


def name(number):
    return b"name%08d" % number


def processor(server):
    """The microseconds of a processor that the server had so far."""
    return int(pathlib.Path(f"/proc/{server.process.pid}/schedstat").read_text().split()[0]) / 1000


def cost(server, records, reply_bytes):
    """The microseconds of a processor for each of these records, whose replies have this length each."""
    records = list(records)
    begin = processor(server)
    server.answer(records, len(records) * reply_bytes)
    return (processor(server) - begin) / len(records)


def ask(server, record):
    """One record's reply, whose length its mark tells."""
    begin = server.written
    server.process.stdin.write(record)
    server.process.stdin.flush()
    reply = b""
    while len(reply) < 4 or len(reply) < 4 + (struct.unpack(">I", reply[:4])[0] & 0x7FFFFFFF):
        assert server.process.poll() is None, "the server runs"
        reply = os.pread(server.replies.fileno(), 1 << 20, begin)
    server.written += len(reply)
    assert reply[28:32] == bytes(4), "the call is done"
    return reply


def reading(server, procedure):
    """All names that a whole reading shows, and the microseconds of a processor that it takes."""
    cookie, shown, begin = 0, [], processor(server)
    while True:
        arguments = nfsd.ROOT + struct.pack(">QQI", cookie, 7, MOST)
        if procedure == READDIRPLUS:
            arguments += struct.pack(">I", MOST)
        reply, at = ask(server, nfsd.call(0, procedure, arguments)), ENTRIES
        while reply[at : at + 4] == b"\0\0\0\1":
            length = struct.unpack(">I", reply[at + 12 : at + 16])[0]
            shown.append(reply[at + 16 : at + 16 + length])
            at += 16 + (length + 3) // 4 * 4
            cookie = struct.unpack(">Q", reply[at : at + 8])[0]
            at += 8 + (SHOWN if procedure == READDIRPLUS else 0)
        if reply[at + 4 : at + 8] == b"\0\0\0\1":
            return shown, processor(server) - begin


def wide(program, names):
    """The costs in a directory of so many names, by what is called."""
    chance, costs = random.Random(1), {}
    with nfsd.Server(program) as server:
        before, passed = server.resident(), 0
        for first in range(0, names, BATCH):
            made = range(first, min(first + BATCH, names))
            passed += len(made) * cost(server, (nfsd.create(x, name(x)) for x in made), nfsd.CREATED)
        costs["CREATE of all, each"] = passed / names
        kept = (server.resident() - before) / names
        for procedure, told in ((READDIR, "READDIR, a name"), (READDIRPLUS, "READDIRPLUS, a name")):
            shown, passed = reading(server, procedure)
            assert shown == [b".", b"..", *map(name, range(names))], "each name is shown once, in order"
            costs[told] = passed / len(shown)
        asked = [name(chance.randrange(names)) for _ in range(4000)]
        costs["LOOKUP"] = cost(server, (nfsd.lookup(x, n) for x, n in enumerate(asked)), nfsd.FOUND)
        comes, goes = [], []
        for turn in range(25):
            newest = range(names + turn * FEW, names + turn * FEW + FEW)
            comes.append(cost(server, (nfsd.create(x, name(x)) for x in newest), nfsd.CREATED))
            goes.append(cost(server, (nfsd.remove(x, name(x)) for x in newest), nfsd.TAKEN))
        costs["CREATE"], costs["REMOVE of the newest"] = statistics.median(comes), statistics.median(goes)
        few = chance.sample(range(names), min(1000, names))
        costs["RENAME"] = cost(server, (nfsd.rename(x, name(x), b"moved%08d" % x) for x in few), nfsd.RENAMED)
        costs["REMOVE anywhere"] = cost(server, (nfsd.remove(x, b"moved%08d" % x) for x in few), nfsd.TAKEN)
    return kept, costs


def deep(program, depth):
    """The microseconds of a processor for a RENAME to a directory that lies so deep, and for the one back."""
    with nfsd.Server(program) as server:
        at = nfsd.ROOT
        for xid in range(depth):
            made = ask(server, nfsd.call(xid, nfsd.MKDIR, at + nfsd.place(b"d")[len(nfsd.ROOT) :] + bytes(24)))
            at = made[nfsd.HANDLE : nfsd.HANDLE + len(nfsd.ROOT)]
        ask(server, nfsd.mkdir(0, b"moved"))
        below = at + nfsd.place(b"moved")[len(nfsd.ROOT) :]
        for arguments in (nfsd.place(b"moved") + below, below + nfsd.place(b"moved")):
            begin = processor(server)
            ask(server, nfsd.call(0, nfsd.RENAME, arguments))
            yield processor(server) - begin


def main():
    words = nfsd.parser(__doc__)
    words.add_argument("numbers", metavar="NUMBER", nargs="+", type=int, help="how many names, or how deep")
    words.add_argument("--program", default=nfsd.PROGRAM, help="the program (default: this one)")
    words.add_argument("--depth", action="store_true", help="RENAME to a directory that lies so deep")
    given = words.parse_args()
    for number in given.numbers:
        if given.depth:
            down, up = deep(given.program, number)
            print(f"RENAME to a depth of {number}: {down / 1000:.2f} ms, and back {up / 1000:.2f} ms", flush=True)
            continue
        kept, costs = wide(given.program, number)
        print(f"{number} names, {kept:,.0f} bytes each", flush=True)
        for told, passed in costs.items():
            print(f"    {told:22} {passed:8.2f} µs", flush=True)


if __name__ == "__main__":
    main()
