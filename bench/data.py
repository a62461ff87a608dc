#!/usr/bin/env python3
"""Prints how many WRITEs and READs of 4 KiB and of 64 KiB `nfsd --stdio` answers a second on one processor, over a file
of 1 MiB, and how many megabytes that are. Of several programs, which take turns, it prints also how many times as quick
as the first each is. A benchmark, not a test.

usage: bench/data.py [PROGRAM..]
"""
import struct

import nfsd

TURNS = 5
FILE_BYTES = 1_048_576
MEGABYTES = 16  # how much is written, and how much is read, in each size
WRITTEN, DATA = 164, 132  # the bytes of a reply with its mark; READ's without the data


def write(file, xid, offset, data):
    """WRITE, UNSTABLE (RFC 1813, 3.3.7)."""
    arguments = struct.pack(">QIII", offset, len(data), 0, len(data)) + data
    return nfsd.call(xid, nfsd.WRITE, file + arguments)


def read(file, xid, offset, count):
    """READ (RFC 1813, 3.3.6)."""
    return nfsd.call(xid, nfsd.READ, file + struct.pack(">QI", offset, count))


def rates(program, size):
    """WRITEs a second through the whole file, block by block and again, and READs."""
    count = MEGABYTES * FILE_BYTES // size
    offsets = [xid * size % FILE_BYTES for xid in range(count)]
    with nfsd.Server(program) as server:
        file = server.make(b"x")
        writes = [write(file, xid, offset, b"x" * size) for xid, offset in enumerate(offsets)]
        reads = [read(file, xid, offset, size) for xid, offset in enumerate(offsets)]
        written = server.answer(writes, count * WRITTEN)
        return {"WRITE": count / written, "READ": count / server.answer(reads, count * (DATA + size))}


def main():
    programs = nfsd.programs(__doc__)
    for size in (4096, 65_536):
        nfsd.compare(
            programs,
            TURNS,
            lambda program: rates(program, size),
            lambda what, rate: f"{what:5} of {size:6} bytes: {rate:9,.0f} calls, {rate * size / 1e6:7,.1f} MB a second",
        )


if __name__ == "__main__":
    main()
