#!/usr/bin/env python3
"""Mounts as many long paths as the table of `nfsd --stdio` keeps, and then more, each of which drops the oldest. Lists
them, takes some of them back one by one, then all but each 256th, mounts the last of these again, and takes all back.
Prints the time of each, and the resident memory. A benchmark, not a test.

usage: bench/mounts.py [LIMIT [MORE]]      (65536 and 2000 where they are left out)
"""
import itertools
import struct
import subprocess
import time

import nfsd

MOUNT, MNT, DUMP, UMNT, UMNTALL = 100005, 1, 2, 3, 4
BATCH = 64  # records that are written before their replies are read


def paths():
    """Paths of 900 to 1,024 bytes, no two alike, that all name the directory `/data`."""
    for length in range(900, 1025):
        slashes = length - len("data")
        for front in range(1, slashes + 1):
            yield b"/" * front + b"data" + b"/" * (slashes - front)


def named(xid, procedure, path):
    """MNT or UMNT of a path (RFC 1813, 5.2.1 and 5.2.3)."""
    padding = b"\0" * (-len(path) % 4)
    return nfsd.call(xid, procedure, struct.pack(">I", len(path)) + path + padding, MOUNT)


def reply(replies):
    """The results of a reply, of a call that is accepted."""
    (mark,) = struct.unpack(">I", replies.read(4))
    body = replies.read(mark & 0x7FFFFFFF)
    assert body[20:24] == b"\0" * 4, "the call is accepted"
    return body[24:]


def answered(server, records):
    """The seconds that these calls take, each of which is OK where it has a status."""
    begin = time.perf_counter()
    while batch := list(itertools.islice(records, BATCH)):
        server.stdin.write(b"".join(batch))
        server.stdin.flush()
        for _ in batch:
            assert reply(server.stdout)[:4] in (b"", b"\0" * 4)
    return time.perf_counter() - begin


def dumped(server):
    """The seconds that DUMP takes (RFC 1813, 5.2.2), and how many bytes its list has."""
    begin = time.perf_counter()
    server.stdin.write(nfsd.call(1, DUMP, b"", MOUNT))
    server.stdin.flush()
    size = len(reply(server.stdout))
    return time.perf_counter() - begin, size


def resident(server):
    """The server's resident memory, in megabytes of 1,000,000 bytes."""
    with open(f"/proc/{server.pid}/status", encoding="ascii") as status:
        kilobytes = next(line.split()[1] for line in status if line.startswith("VmRSS:"))
    return int(kilobytes) * 1024 / 1e6


def tell(name, server, count, passed):
    """Prints what these calls come to."""
    each, kept = passed / count * 1e3, resident(server)
    print(f"{name}: {count} calls in {passed:.3f} s: {each:.3f} ms each, {kept:,.0f} MB resident")


def main():
    words = nfsd.parser(__doc__)
    words.add_argument("limit", metavar="LIMIT", nargs="?", type=int, default=65_536,
                       help="how many are listed (65536)")
    words.add_argument("more", metavar="MORE", nargs="?", type=int, default=2_000, help="how many more come (2000)")
    given = words.parse_args()
    limit, more = given.limit, given.more
    records = (named(xid, MNT, path) for xid, path in enumerate(paths()))
    taken = (named(xid, UMNT, path) for xid, path in enumerate(itertools.islice(paths(), more, limit, 16)))
    # Those that are mounted at the limit, by whether they stay.
    last, thinned = None, []
    for number, path in enumerate(itertools.islice(paths(), more, limit + more)):
        if number % 256 == 1:
            last = path
        else:
            thinned.append(named(number, UMNT, path))
    with subprocess.Popen([nfsd.PROGRAM, *nfsd.OPTIONS], stdin=subprocess.PIPE, stdout=subprocess.PIPE) as server:
        tell("MNT up to the limit", server, limit, answered(server, itertools.islice(records, limit)))
        tell("MNT at the limit", server, more, answered(server, itertools.islice(records, more)))
        passed, size = dumped(server)
        tell(f"DUMP of {size:,} bytes", server, 1, passed)
        tell("UMNT of a sixteenth", server, len(range(more, limit, 16)), answered(server, taken))
        tell("UMNT of all but each 256th", server, len(thinned), answered(server, iter(thinned)))
        again = (named(xid, MNT, last) for xid in range(more))
        tell("MNT of the last of these", server, more, answered(server, again))
        tell("UMNTALL", server, 1, answered(server, iter([nfsd.call(1, UMNTALL, b"", MOUNT)])))
        server.stdin.close()


if __name__ == "__main__":
    main()
