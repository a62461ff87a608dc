#!/usr/bin/env python3
"""Shows that trouble is told on standard error, once and within some ten seconds: connections that are closed since as
many are open as may be, and a call to a host that does not listen. A benchmark, not a test.

usage: bench/troubles.py [PROGRAM..]
"""
import queue
import socket
import struct
import threading
import time

import locking
import network
import nfsd

PATIENCE = 15  # seconds: the program tells every ten
AGAIN = 12  # seconds in which nothing is told again
WANTED = ("closed at once: 2", "callbacks that failed: 1", "messages dropped: 1")


def told(server, lines):
    """Puts each line of standard error into a queue."""
    for line in server.process.stderr:
        lines.put(line.decode().strip())


def trouble(server):
    """Makes it: two connections too many, and a result for a host that does not listen."""
    connection = network.Connection(server.port)
    file = connection.make(b"file")
    for _ in range(2):
        with socket.create_connection(("127.0.0.1", server.port)) as another:
            assert another.recv(1) == b"", "a connection too many is closed"
    connection.ask(locking.testing_by_message(1, file, 1, struct.pack(">I", 1)))
    return connection


def main():
    with socket.create_server(("127.0.0.1", 0)) as closed:
        port = closed.getsockname()[1]
    for program in nfsd.programs(__doc__) or [nfsd.PROGRAM]:
        lines = queue.Queue()
        with network.Server(program, "--connections", "1", "--callback", f"127.0.0.1=127.0.0.1:{port}") as server:
            threading.Thread(target=told, args=(server, lines), daemon=True).start()
            connection = trouble(server)
            begin = time.perf_counter()
            came = [lines.get(timeout=PATIENCE) for _ in WANTED]
            print(f"{program}, after {time.perf_counter() - begin:.1f} s:", *came, sep="\n  ")
            assert all(any(line.endswith(wanted) for line in came) for wanted in WANTED), "all trouble is told"
            time.sleep(AGAIN)
            assert lines.empty(), "nothing is told again"
            connection.socket.close()


if __name__ == "__main__":
    main()
