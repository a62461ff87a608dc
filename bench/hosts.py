#!/usr/bin/env python3
"""Tries how places are shared out by host, with 64 of them. One host takes all of them: with sockets that say nothing,
with sockets that sent an empty record, and with sockets that are connected again at once where the server closes them.
Beside each a client of another host tries every tenth of a second, and what is told is after how long it is answered.
Then 40 clients of as many hosts, each of which was answered, lose their power and come back: how many are answered at
once, and how many once 5 seconds have passed. Fails where a client waits for more than 6 seconds, or does not come back.

usage: bench/hosts.py [PROGRAM]
"""
import contextlib
import socket
import sys
import threading
import time

import network
import nfsd

PLACES, CLIENTS = 64, 40
ATTACKER, OTHER = "127.0.0.1", "127.0.0.2"
TRY = 0.1  # seconds between two tries
MOST = 6.0  # seconds within which a client has to be answered
REST = 5.5  # seconds after which connections of clients that are gone may be replaced
LATE = 40  # a client gives up then
EMPTY = b"\x80\0\0\0"  # an empty record
FAILED = (OSError, ConnectionError)


def null(port, address):
    """A connection from this address over which a NULL was answered, or None."""
    try:
        connection = network.Connection(port, address, patience=2)
        connection.ask(nfsd.call(1, nfsd.NULL))
        return connection
    except FAILED:
        return None


def waited(port, address):
    """The seconds until a client of this address is answered."""
    begin = time.perf_counter()
    while time.perf_counter() - begin < LATE:
        if null(port, address):
            return time.perf_counter() - begin
        time.sleep(TRY)
    return float("inf")


def taken(port, words=b""):
    """All places, from one address, with these bytes sent over each."""
    sockets = [socket.create_connection(("127.0.0.1", port), 5, (ATTACKER, 0)) for _ in range(PLACES)]
    for one in sockets:
        one.sendall(words)
    time.sleep(0.2)
    return sockets


def again(port, stop):
    """Keeps a connection, and connects anew as soon as it is closed."""
    while not stop.is_set():
        with contextlib.suppress(OSError), socket.create_connection(("127.0.0.1", port), 5, (ATTACKER, 0)) as one:
            one.settimeout(0.5)
            while not stop.is_set():
                try:
                    if not one.recv(1):
                        break
                except TimeoutError:
                    pass


def beside(program, what, words=b"", greedy=False):
    """Tells after how long a client of another host is answered."""
    with network.Server(program, "--connections", str(PLACES)) as server:
        stop = threading.Event()
        if greedy:
            for _ in range(PLACES):
                threading.Thread(target=again, args=(server.port, stop), daemon=True).start()
            time.sleep(1)
            sockets = []
        else:
            sockets = taken(server.port, words)
        seconds = waited(server.port, OTHER)
        stop.set()
        print(f"{what}: a client of another host is answered after {seconds:.2f} s")
        for one in sockets:
            one.close()
        return seconds <= MOST


def power_cut(program):
    """Tells how many of the clients that come back are answered."""
    with network.Server(program, "--connections", str(PLACES)) as server:
        addresses = [f"127.0.0.{2 + number}" for number in range(CLIENTS)]
        gone = [null(server.port, address) for address in addresses]
        assert all(gone), "each client is answered"
        back = {address: null(server.port, address) for address in addresses}
        at_once = sum(1 for connection in back.values() if connection)
        time.sleep(REST)
        for address in addresses:
            back[address] = back[address] or null(server.port, address)
        later = sum(1 for connection in back.values() if connection)
        print(f"{CLIENTS} clients that come back: {at_once} are answered at once, {later} after {REST} s")
        return later == CLIENTS


def main():
    words = nfsd.parser(__doc__)
    words.add_argument("program", metavar="PROGRAM", nargs="?", default=nfsd.PROGRAM, help="the program (this one)")
    program = words.parse_args().program
    right = [
        beside(program, f"{PLACES} sockets that say nothing"),
        beside(program, f"{PLACES} that sent an empty record", EMPTY),
        beside(program, f"{PLACES} that are connected again at once", greedy=True),
        power_cut(program),
    ]
    sys.exit(0 if all(right) else 1)


if __name__ == "__main__":
    main()
