#!/usr/bin/env python3
"""Measures how long exports that are to be replaced wait for calls, which all hold the exports with others: 32 clients
are busy for some seconds, and an operator hands exports in, one list after the other, half of them with a path more. It
prints how long a list waited until it was applied, and how many calls a second were answered meanwhile and without. A
benchmark, not a test.

usage: bench/exports.py [--seconds S] [PROGRAM]
"""
import concurrent.futures
import statistics
import struct
import time

import nfsd
import network

PROCESSES, CONNECTIONS, PIECE = 4, 8, 8  # of each process, and of each connection
PAUSE = 0.01  # seconds between two lists
FILE_BYTES = 4096
HERE = b"add /data,rw,*\n"


def getattrs(connection, name):
    """A piece of GETATTRs of the root, and how many bytes their replies have."""
    return b"".join(nfsd.call(xid, nfsd.GETATTR, nfsd.ROOT) for xid in range(PIECE)), PIECE * nfsd.SHOWN


def writes(connection, name):
    """A piece of UNSTABLE WRITEs of a file of its own (RFC 1813, 3.3.7)."""
    handle = connection.make(name)
    behind = struct.pack(">QIII", 0, FILE_BYTES, 0, FILE_BYTES) + bytes(FILE_BYTES)
    records = b"".join(nfsd.call(xid, nfsd.WRITE, handle + behind) for xid in range(PIECE))
    connection.socket.sendall(records)
    return records, sum(4 + len(connection.reply()) for _ in range(PIECE))


def load(port, number, make, until):
    """Keeps these connections busy until then. How many calls were answered."""
    connections = [network.Connection(port) for _ in range(CONNECTIONS)]
    pieces = [make(connection, b"%d.%d" % (number, index)) for index, connection in enumerate(connections)]
    calls = 0
    while time.monotonic() < until:
        for connection, (records, _) in zip(connections, pieces):
            connection.socket.sendall(records)
        for connection, (_, reply_bytes) in zip(connections, pieces):
            connection.take(reply_bytes)
        calls += CONNECTIONS * PIECE
    return calls


def applied(server, number):
    """How long a list of exports waits. Each other list has a path more, which is new."""
    lines = HERE + (b"add /more,rw,*\n" if number % 2 else b"") + b"apply\n"
    begin = time.perf_counter()
    server.operator.write(lines)
    server.operator.flush()
    assert server.answers.readline() == b"applied\n"
    return time.perf_counter() - begin


def measured(program, make, seconds, is_operated):
    """Calls a second of all clients, and the waits of the lists."""
    with network.Server(program, *["--control"] * is_operated, "--connections", "64", operated=is_operated) as server:
        with concurrent.futures.ProcessPoolExecutor(PROCESSES) as processes:
            until = time.monotonic() + seconds
            loads = [processes.submit(load, server.port, number, make, until) for number in range(PROCESSES)]
            waits = []
            while is_operated and time.monotonic() < until:
                waits.append(applied(server, len(waits)))
                time.sleep(PAUSE)
            return sum(one.result() for one in loads) / seconds, waits


def main():
    words = nfsd.parser(__doc__)
    words.add_argument("program", metavar="PROGRAM", nargs="?", default=nfsd.PROGRAM, help="default: this one")
    words.add_argument("--seconds", metavar="S", type=float, default=5, help="how long clients are busy (5)")
    given = words.parse_args()
    clients = PROCESSES * CONNECTIONS
    for name, make in (("GETATTRs of the root", getattrs), ("WRITEs of 4 KiB", writes)):
        alone, _ = measured(given.program, make, given.seconds, False)
        calls, waits = measured(given.program, make, given.seconds, True)
        print(
            f"{clients} clients with {name}: {len(waits)} lists waited {1e3 * statistics.median(waits):.2f} ms, at most"
            f" {1e3 * max(waits):.1f} ms; {calls:,.0f} calls a second meanwhile, {alone:,.0f} with no list"
        )


if __name__ == "__main__":
    main()
