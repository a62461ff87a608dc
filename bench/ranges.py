#!/usr/bin/env python3
"""Measures LOCK and UNLOCK over standard streams: on a file of which other owners have 1, 100 and 10,000 ranges, and on
one of 1, 100 and 10,000 files of which each has a lock.

A program's calls a second are those of its best batch of 2,000 calls: 1,000 times LOCK of a free range, and UNLOCK of
it. Each call is a new record.

With --tcp it measures over TCP what calls take beside locks, requests that wait and files of others, and how long a
GETATTR of another client waits meanwhile, as bench/others.py does, in its columns. Up to two programs take turns, and
each figure is the median of the rounds. Files have one bucket of locks where their numbers are equal modulo 64.

usage: bench/ranges.py [PROGRAM [OTHER]]
       bench/ranges.py --tcp [--rounds N] [--only WORD] [--quick] [--seconds S] [--patience S] [PROGRAM [OTHER]]
"""
import itertools
import os
import struct

import locking
import nfsd
import others

COUNTS = (1, 100, 10_000)
PAIRS, BATCHES = 1_000, 5
REPLY = 4 + 24 + len(locking.COOKIE) + 4
BUCKETS = 64
NUMBER = 20  # where a handle with its length has the file's number


def ranges(server, count, xids):
    """A file of which others have so many ranges, each of one byte, of two owners in turn."""
    handle = server.make(b"file")
    locks = [locking.locking(next(xids), handle, 2 + n % 2, 2 * n, 1) for n in range(count)]
    server.answer(locks, REPLY * count)
    return [handle], 2 * count + 10


def files(server, count, xids):
    """So many files, of each of which another has a range."""
    begin = server.written
    server.answer([nfsd.create(next(xids), b"file%d" % n) for n in range(count)], nfsd.CREATED * count)
    places = range(begin + nfsd.HANDLE, server.written, nfsd.CREATED)
    handles = [os.pread(server.replies.fileno(), len(nfsd.ROOT), place) for place in places]
    server.answer([locking.locking(next(xids), handle, 2, 0, 1) for handle in handles], REPLY * count)
    return handles, 10


def rate(program, held, count):
    """LOCK and UNLOCK a second, beside so much that others hold, on the files in turn."""
    xids = itertools.count(1)
    with nfsd.Server(program) as server:
        handles, free = held(server, count, xids)
        turns = itertools.cycle(handles)
        times = []
        for _ in range(BATCHES):
            calls = []
            for handle in itertools.islice(turns, PAIRS):
                calls.append(locking.locking(next(xids), handle, 1, free, 5))
                calls.append(locking.unlocking(next(xids), handle, 1, free, 5))
            times.append(server.answer(calls, REPLY * len(calls)))
        last = os.pread(server.replies.fileno(), REPLY, server.written - REPLY)
        assert locking.status(last[4:]) == locking.IS_GRANTED, "each lock is granted"
    return 2 * PAIRS / min(times)


def bucket(handle):
    return struct.unpack_from(">Q", handle, NUMBER)[0] % BUCKETS


def granted(peer, make, handle, *words):
    assert locking.status(peer.ask(make(next(peer.xids), handle, *words))) == locking.IS_GRANTED


def pairs(peer, handles, offset):
    """LOCK and UNLOCK of a free range, of these files in turn."""
    turns = itertools.cycle(handles)

    def turn():
        handle = next(turns)
        for make in (locking.locking, locking.unlocking):
            granted(peer, make, handle, 1, offset, 5)
        return 2

    return peer.repeat(turn)


def beside_ranges(count):
    """LOCK and UNLOCK beside so many ranges of one file: of the file, of another one of its bucket, and of one of
    another bucket."""

    def play(peer):
        names = (b"file%d" % number for number in itertools.count())
        (file,) = peer.made([next(names)])
        others_of = {}  # a file of the bucket, and one of another
        while len(others_of) < 2:
            (another,) = peer.made([next(names)])
            others_of[bucket(another) == bucket(file)] = another
        peer.prepare(
            (locking.locking(next(peer.xids), file, 2 + n % 2, 2 * n, 1) for n in range(count)), locking.STATUS
        )
        return [pairs(peer, [handle], 2 * count + 10) for handle in (file, others_of[True], others_of[False])]

    return play


def beside_files(count):
    """LOCK and UNLOCK of so many files in turn, of each of which another has a range."""

    def play(peer):
        handles = peer.made(b"file%d" % number for number in range(count))
        peer.prepare((locking.locking(next(peer.xids), handle, 2, 0, 1) for handle in handles), locking.STATUS)
        return [pairs(peer, handles, 10)]

    return play


def contended(count):
    """TEST before and behind so many locks that two owners take from each other in turn, by waiting. No host is
    called back, so no grant is answered."""

    def play(peer):
        handle = peer.connection.make(b"file")

        def test():
            peer.ask(locking.testing(next(peer.xids), handle, 3, 1000, 1))
            return 1

        def taken():
            for number in range(count):
                yield locking.locking(next(peer.xids), handle, 2 - number % 2, 0, 100, block=True)
                yield locking.unlocking(next(peer.xids), handle, 1 + number % 2, 0, 100)

        granted(peer, locking.locking, handle, 1, 0, 100)
        before = peer.repeat(test)
        for record in taken():
            peer.ask(record)
        return [before, peer.repeat(test)]

    return play


def uses(part):
    """What is measured over TCP, or with this part of its sizes."""
    one, few, thousand, locks, many, most = (max(1, n // part) for n in (1, 100, 1_000, 4_000, 10_000, 100_000))
    for count in (one, few, many, most):
        places = ("the file", "a file of the bucket", "another bucket")
        yield others.Use([f"LOCK or UNLOCK, {count:,} of {place}" for place in places], beside_ranges(count))
    for count in (one, few, many):
        yield others.Use([f"LOCK or UNLOCK, {count:,} files in turn"], beside_files(count))
    lines = [f"LOCK that waits beside {many:,}", f"UNLOCK that grants {many:,}"]
    yield others.Use(lines, others.waits(many), era=others.SHORT)
    for count in (thousand, many):
        yield others.Use([f"FREE_ALL of {count:,} files"], others.frees(count), era=others.SHORT)
    yield others.Use([f"TEST before {locks:,} contended locks", f"TEST behind {locks:,}"], contended(locks))


def main():
    words = nfsd.parser(__doc__)
    words.add_argument("--tcp", action="store_true", help="over TCP, beside what others hold and wait for")
    given = others.options(words)
    if given.tcp:
        others.measure(given, uses)
        return
    for held in (ranges, files):
        for count in COUNTS:
            for program in given.programs:
                what = f"{count:6} {held.__name__}"
                print(f"{what}: {rate(program, held, count):9,.0f} calls a second  {program}", flush=True)


if __name__ == "__main__":
    main()
