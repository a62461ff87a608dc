#!/usr/bin/env python3
"""Tries locks over TCP: two clients lock, contend for, wait for and free the ranges of a file, and are called back.

It starts nfsd on a port of the system's choice, with a host of its own that is called back, which answers the first
grant with GRANTED, so that the lock is held, and the second with DENIED, so that the lock is given back. Then a host
is called back behind one whose port is closed, and behind one that never answers, while calls go on; and behind one
that never answers and sends 100,000 calls whose results it is to be sent: what memory that takes is told.

usage: bench/locks.py [PROGRAM]
"""
import socket
import struct
import time

import locking
import network
import nfsd
from locking import IS_BLOCKED, IS_DENIED, IS_GRANTED, status

TEST_MSG = 6
FLOOD, BATCH = 100_000, 100
VOID = 28  # the bytes of a reply without results


def contends(one, other, handle):
    """Two clients want one range."""
    assert status(one.ask(locking.locking(1, handle, 1, 0, 100))) == IS_GRANTED
    assert status(other.ask(locking.locking(2, handle, 2, 50, 100))) == IS_DENIED
    assert status(other.ask(locking.testing(3, handle, 2, 50, 100))) == IS_DENIED
    assert status(other.ask(locking.locking(4, handle, 2, 100, 100))) == IS_GRANTED
    assert status(one.ask(locking.unlocking(5, handle, 1, 50, 50))) == IS_GRANTED
    assert status(other.ask(locking.locking(6, handle, 2, 50, 50))) == IS_GRANTED
    assert status(one.ask(locking.testing(7, handle, 1, 99, 1))) == IS_DENIED
    other.ask(locking.freeing(8, 2))
    assert status(one.ask(locking.testing(9, handle, 1, 50, 0))) == IS_GRANTED
    print("two clients: a range has one owner")


def waits(one, other, handle, host, number, answered):
    """A client waits for a range, gets it, and its host says whether it still wants it."""
    assert status(one.ask(locking.locking(10 * number, handle, 1, 0, 100))) == IS_GRANTED
    waiting = locking.locking(10 * number + 1, handle, 2, 0, 100, block=True)
    assert status(other.ask(waiting)) == IS_BLOCKED
    assert status(other.ask(waiting)) == IS_BLOCKED, "a repeat has the same reply"
    assert status(one.ask(locking.unlocking(10 * number + 2, handle, 1, 0, 100))) == IS_GRANTED
    message = host.next()
    assert struct.unpack_from(">6I", message) == (number, 0, 2, locking.NLM, 4, locking.GRANTED)
    assert message[52:] == struct.pack(">I", 1) + locking.lock(handle, 2, 0, 100)
    for attempt in range(200):
        held = status(one.ask(locking.testing(1000 * number + attempt, handle, 1, 0, 100))) == IS_DENIED
        if held == (answered == IS_GRANTED) and (not held or attempt > 20):
            break
        time.sleep(0.01)
    assert held == (answered == IS_GRANTED), "the lock is held just where the host wants it"
    print(f"grant {number}: the lock is", "held" if held else "free")
    other.ask(locking.freeing(10 * number + 3, 2))


def asked_for(xid, handle):
    """TEST_MSG, whose result is a call of the server's own, with a cookie of 1,000 bytes."""
    cookie = struct.pack(">I", 1000) + bytes(1000)
    return locking.call(xid, TEST_MSG, cookie + struct.pack(">I", True) + locking.lock(handle, 2, 0, 50))


def is_flooded(program, silent):
    """A host is called back behind one that never answers, and that sends many calls whose results it is to be sent."""
    host = locking.Host(IS_GRANTED)
    callbacks = ["--callback", f"127.0.0.1=127.0.0.1:{host.port}", "--callback", f"127.0.0.2=127.0.0.1:{silent}"]
    with network.Server(program, "--era", "1000", *callbacks) as server:
        one, other = network.Connection(server.port), network.Connection(server.port, "127.0.0.2")
        handle = one.make(b"file")
        assert status(one.ask(locking.locking(1, handle, 1, 0, 100))) == IS_GRANTED
        assert status(one.ask(locking.locking(2, handle, 3, 0, 100, block=True))) == IS_BLOCKED
        before = server.resident()
        for batch in range(FLOOD // BATCH):
            calls = (asked_for(batch * BATCH + number, handle) for number in range(BATCH))
            other.answer(b"".join(calls), BATCH * VOID)
        taken = (server.resident() - before) / 1e6
        print(f"results of {FLOOD} calls, for a host that never answers: they take {taken:.0f} MB")
        begin = time.monotonic()
        assert status(one.ask(locking.unlocking(4, handle, 1, 0, 100))) == IS_GRANTED
        host.next()
        print(f"behind them: called back after {time.monotonic() - begin:.2f} s")


def goes_on(program, silent, what):
    """A host is called back behind one that can't be, for which its lock is held all the same. Calls go on."""
    host = locking.Host(IS_GRANTED)
    callbacks = ["--callback", f"127.0.0.1=127.0.0.1:{host.port}", "--callback", f"127.0.0.2=127.0.0.1:{silent}"]
    with network.Server(program, *callbacks) as server:
        one, other = network.Connection(server.port), network.Connection(server.port, "127.0.0.2")
        handle = one.make(b"file")
        assert status(one.ask(locking.locking(1, handle, 1, 0, 100))) == IS_GRANTED
        assert status(other.ask(locking.locking(2, handle, 2, 0, 50, block=True))) == IS_BLOCKED
        assert status(one.ask(locking.locking(3, handle, 3, 50, 50, block=True))) == IS_BLOCKED
        begin = time.monotonic()
        assert status(one.ask(locking.unlocking(4, handle, 1, 0, 100))) == IS_GRANTED
        slowest = 0
        while not host.calls:
            asked = time.monotonic()
            assert status(one.ask(locking.testing(5, handle, 1, 0, 50))) == IS_DENIED, "it is held"
            slowest = max(slowest, time.monotonic() - asked)
            assert asked - begin < 30, "the host is called back"
        assert status(other.ask(locking.locking(6, handle, 2, 0, 50, block=True))) == IS_GRANTED, "it learns so"
        passed = time.monotonic() - begin
        print(f"behind a host {what}: called back after {passed:.1f} s; no call took longer than {slowest:.3f} s")


def main():
    words = nfsd.parser(__doc__)
    words.add_argument("program", metavar="PROGRAM", nargs="?", default=nfsd.PROGRAM, help="the program (this one)")
    program = words.parse_args().program
    host = locking.Host(IS_GRANTED, IS_DENIED)
    callback = f"127.0.0.1=127.0.0.1:{host.port}"
    with network.Server(program, "--callback", callback) as server:
        one, other = network.Connection(server.port), network.Connection(server.port)
        handle = one.make(b"file")
        contends(one, other, handle)
        waits(one, other, handle, host, 1, IS_GRANTED)
        waits(one, other, handle, host, 2, IS_DENIED)
    with socket.create_server(("127.0.0.1", 0)) as listener:
        silent = listener.getsockname()[1]
        goes_on(program, silent, "that never answers")
        is_flooded(program, silent)
    goes_on(program, silent, "whose port is closed")


if __name__ == "__main__":
    main()
