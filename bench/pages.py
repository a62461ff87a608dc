#!/usr/bin/env python3
"""Prints how many entries a second `nfsd --stdio` lists by READDIR and READDIRPLUS on one processor, in whole readings
of directories of 1,000, 10,000 and 20,000 names, page by page; and how long a whole reading takes, which grows with the
directory and not with its square. Of several programs, which take turns, it prints also how many times as quick as the
first each is. A benchmark, not a test.

usage: bench/pages.py [PROGRAM..]
"""
import struct

import nfsd

READDIR, READDIRPLUS = 16, 17
TURNS = 3
DOT, NAME = 28, 36  # the bytes of `.` or `..` and of a name of 12 bytes in a page of READDIR
SHOWN = 128  # what READDIRPLUS adds to each: attributes and a handle
AROUND = 4 + 24 + 4 + 104  # the bytes of a reply without its entries: mark, header, status, and what is around the list
MOST = 32768  # the bytes of a page (RFC 1813, 3.3.19: dtpref)


def name(number):
    return b"name%08d" % number


def reading(procedure, names):
    """The calls that list the root with so many names, and the bytes of their replies. The first name has cookie 3."""
    besides = SHOWN if procedure == READDIRPLUS else 0
    sizes = [DOT + besides] * 2 + [NAME + besides] * names
    calls, size, cookie = [], 0, 0
    while cookie < len(sizes):
        arguments = nfsd.ROOT + struct.pack(">QQI", cookie, 7, MOST)
        if procedure == READDIRPLUS:
            arguments += struct.pack(">I", MOST)
        calls.append(nfsd.call(len(calls), procedure, arguments))
        page = 104
        while cookie < len(sizes) and page + sizes[cookie] <= MOST:
            page += sizes[cookie]
            cookie += 1
        size += page + AROUND - 104
    return calls, size


def read(program, names):
    """The seconds for one whole reading by each procedure; the best of some."""
    with nfsd.Server(program) as server:
        server.answer((nfsd.create(xid, name(xid)) for xid in range(names)), names * nfsd.CREATED)
        for procedure in (READDIR, READDIRPLUS):
            calls, size = reading(procedure, names)
            times = max(1, 20_000 // names)
            passed = min(server.answer(calls * times, size * times) for _ in range(TURNS))
            yield procedure, passed / times


def main():
    programs = nfsd.programs(__doc__) or [nfsd.PROGRAM]
    for names in (1_000, 10_000, 20_000):
        first = {}
        for program in programs:
            for procedure, passed in read(program, names):
                first.setdefault(procedure, passed)
                ratio = f", {first[procedure] / passed:.2f} times the first" if len(programs) > 1 else ""
                told = "READDIR" if procedure == READDIR else "READDIRPLUS"
                rate = (names + 2) / passed
                print(f"{told:11} of {names:6} names: {passed * 1000:9.2f} ms, {rate:11,.0f} entries a second{ratio} "
                      f"({program})")


if __name__ == "__main__":
    main()
