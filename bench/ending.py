#!/usr/bin/env python3
"""Asks the program for its end by the word `end` of `--control`, once where nobody asks anything and once while clients
send calls all the time, and looks whether it ends with status 0, every reply that was begun is whole, and nobody is let
in any more. It prints how long each end took, and ends with status 1 where one was not so.

usage: bench/ending.py [PROGRAM]
"""
import socket
import struct
import sys
import threading
import time

import nfsd
import network

CLIENTS, PIECE = 8, 64
SIZE = 65_536  # bytes of a READ
PATIENCE = 60  # seconds in which it has to end


def read(xid, file):
    """READ of 64 KiB from the file's begin (RFC 1813, 3.3.6)."""
    return nfsd.call(xid, nfsd.READ, file + struct.pack(">QI", 0, SIZE))


def write(file):
    """WRITE of 64 KiB at the file's begin, FILE_SYNC (RFC 1813, 3.3.7)."""
    return nfsd.call(1, nfsd.WRITE, file + struct.pack(">QIII", 0, SIZE, 2, SIZE) + bytes(SIZE))


class Client(threading.Thread):
    """A client that sends READs, so many at once, until it is closed; and what it was sent."""

    def __init__(self, port, file):
        super().__init__()
        self.connection = network.Connection(port)
        self.file = file
        self.replies = 0
        self.rest = 0

    def run(self):
        piece = b"".join(read(xid, self.file) for xid in range(PIECE))
        try:
            while True:
                self.connection.socket.sendall(piece)
                for _ in range(PIECE):
                    self.connection.reply()
                    self.replies += 1
        except OSError:
            self.rest = len(self.connection.came)


def ended(server):
    """The seconds until it has ended, and its status."""
    begin = time.perf_counter()
    server.operator.write(b"end\n")
    server.operator.flush()
    status = server.process.wait(PATIENCE)
    return time.perf_counter() - begin, status


def is_let_in(port):
    """Whether somebody is let in and answered."""
    try:
        with socket.create_connection(("127.0.0.1", port), 5) as late:
            late.sendall(nfsd.call(1, nfsd.NULL))
            return bool(late.recv(1))
    except OSError:
        return False


def tried(program, count):
    """What is wrong where so many clients ask all the time."""
    server = network.Server(program, "--control", operated=True)
    first = network.Connection(server.port)
    file = first.make(b"x")
    first.ask(write(file))
    clients = [Client(server.port, file) for _ in range(count)]
    for client in clients:
        client.start()
    time.sleep(1)
    passed, status = ended(server)
    for client in clients:
        client.join(PATIENCE)
    wrong = [f"status {status}"] if status else []
    wrong += [f"{client.rest} bytes of a reply" for client in clients if client.rest]
    if is_let_in(server.port):
        wrong.append("somebody was let in")
    told = server.process.stderr.read().decode()
    wrong += [told.strip()] if told else []
    replies = sum(client.replies for client in clients)
    print(f"{count} clients, {replies:,} replies: ended in {passed * 1000:,.0f} ms, {'; '.join(wrong) or 'well'}")
    return wrong


def main():
    words = nfsd.parser(__doc__)
    words.add_argument("program", metavar="PROGRAM", nargs="?", default=nfsd.PROGRAM, help="the program (this one)")
    program = words.parse_args().program
    sys.exit(1 if [*tried(program, 0), *tried(program, CLIENTS)] else 0)


if __name__ == "__main__":
    main()
