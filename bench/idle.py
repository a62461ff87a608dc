#!/usr/bin/env python3
"""Prints the resident memory of 1,024 connections that are open: when nothing came over them yet, after a NULL over
each, and after a WRITE of 64 KiB and a READ of as much over each; and when all of them are closed. A benchmark, not a
test.

usage: bench/idle.py [PROGRAM]
"""
import resource
import struct
import time

import nfsd
import network

CONNECTIONS = 1_024
DATA = bytes(65_536)
SETTLES = 1  # seconds until the threads of connections have begun, or ended


def null(_):
    return nfsd.call(1, nfsd.NULL)


def write(file):
    """WRITE of 64 KiB at the file's begin, FILE_SYNC (RFC 1813, 3.3.7)."""
    return nfsd.call(2, nfsd.WRITE, file + struct.pack(">QIII", 0, len(DATA), 2, len(DATA)) + DATA)


def read(file):
    """READ of 64 KiB from the file's begin (3.3.6)."""
    return nfsd.call(3, nfsd.READ, file + struct.pack(">QI", 0, len(DATA)))


def main():
    words = nfsd.parser(__doc__)
    words.add_argument("program", metavar="PROGRAM", nargs="?", default=nfsd.PROGRAM, help="the program (this one)")
    resource.setrlimit(resource.RLIMIT_NOFILE, (2 * CONNECTIONS, 2 * CONNECTIONS))
    # Few records and replies are kept, so that what is told is the connections'.
    options = ["--connections", str(CONNECTIONS), "--era", "16", "--cache", "1"]
    with network.Server(words.parse_args().program, *options) as server:
        first = network.Connection(server.port)
        file = first.make(b"x")
        first.socket.close()
        time.sleep(SETTLES)
        before = server.resident()
        open_ones = [network.Connection(server.port) for _ in range(CONNECTIONS)]

        def tell(when):
            time.sleep(SETTLES)
            more = server.resident() - before
            print(f"{when}: {more / 1e6:,.1f} MB more than with none, {more / CONNECTIONS / 1e3:,.1f} KB a connection")

        tell("1,024 connections are open")
        for when, make in [("after a NULL over each", null), ("after a WRITE", write), ("after a READ", read)]:
            for connection in open_ones:
                connection.ask(make(file))
            tell(when)
        for connection in open_ones:
            connection.socket.close()
        tell("all are closed")


if __name__ == "__main__":
    main()
