#!/usr/bin/env python3
"""Prints when a host has the results of 12 TEST_MSGs, and when the GRANTED of a lock that is given back after them:
one that replies to GRANTED alone, as the standard has it, and leaves each connection open. A benchmark, not a test.

usage: bench/oneway.py [PROGRAM..]
"""
import queue
import socket
import struct
import threading
import time

import locking
import network
import nfsd

RESULTS = 12
PATIENCE = 120  # seconds
PROCEDURE = 20  # where a call without its mark has its procedure


class Host:
    """A host that is called back. It tells which procedure each call has, and when it came."""

    def __init__(self):
        self.listener = socket.create_server(("127.0.0.1", 0))
        self.port = self.listener.getsockname()[1]
        self.came = queue.Queue()
        threading.Thread(target=self.work, daemon=True).start()

    def work(self):
        while True:
            connection, _ = self.listener.accept()
            threading.Thread(target=self.hear, args=(connection,), daemon=True).start()

    def hear(self, connection):
        stream = connection.makefile("rwb")
        mark = stream.read(4)
        record = stream.read(struct.unpack(">I", mark)[0] & 0x7FFFFFFF)
        (procedure,) = struct.unpack_from(">I", record, PROCEDURE)
        self.came.put((procedure, time.perf_counter()))
        if procedure == locking.GRANTED:
            reply = record[:4] + struct.pack(">5I", 1, 0, 0, 0, 0) + record[40:52] + bytes(4)
            stream.write(struct.pack(">I", 0x80000000 | len(reply)) + reply)
            stream.flush()
        threading.Event().wait()  # it leaves the connection open


def timed(program):
    """The seconds until all results have come, and until the GRANTED has."""
    host = Host()
    with network.Server(program, "--callback", f"127.0.0.1=127.0.0.1:{host.port}") as server:
        connection = network.Connection(server.port)
        file = connection.make(b"file")
        for who, wanted in ((1, locking.IS_GRANTED), (2, locking.IS_BLOCKED)):
            asked = locking.locking(who, file, who, 0, 1, block=True)
            assert locking.status(connection.ask(asked)) == wanted, "one has the lock, and the other waits"
        tests = [locking.testing_by_message(10 + k, file, 3, struct.pack(">I", k)) for k in range(RESULTS)]
        begin = time.perf_counter()
        connection.socket.sendall(b"".join(tests) + locking.unlocking(30, file, 1, 0, 1))
        came = [host.came.get(timeout=PATIENCE) for _ in range(RESULTS + 1)]
    results = [when - begin for procedure, when in came if procedure != locking.GRANTED]
    granted = [when - begin for procedure, when in came if procedure == locking.GRANTED]
    assert len(results) == RESULTS and len(granted) == 1, "each message comes once"
    return max(results), granted[0]


def main():
    for program in nfsd.programs(__doc__) or [nfsd.PROGRAM]:
        results, granted = timed(program)
        print(f"{program}: {RESULTS} results within {results:.3f} s, the GRANTED after {granted:.3f} s")


if __name__ == "__main__":
    main()
