#!/usr/bin/env python3
"""Starts the program with standard input, output or error closed, each alone and all three, and looks whether a socket
has the number of one of them, an operator's lines that come as a datagram change the exports, or a line of the log
comes into a client's stream. It prints a line for each, and ends with status 1 where one is so.

usage: bench/descriptors.py [PROGRAM]
"""
import os
import pathlib
import socket
import subprocess
import sys
import time

import nfsd
import network

MOUNT, EXPORT = 100005, 5
NAMES = ["input", "output", "error"]
CLIENTS = 3
LINES = b"add /data,rw,*\napply\n"
LISTED = nfsd.call(1, EXPORT, program=MOUNT)
TOLD = 2.5  # seconds in which counts are told twice


def free_port():
    """A port that nobody has, over TCP and UDP."""
    with socket.socket() as tcp, socket.socket(type=socket.SOCK_DGRAM) as udp:
        tcp.bind(("127.0.0.1", 0))
        udp.bind(tcp.getsockname())
        return tcp.getsockname()[1]


def datagram(port):
    """What EXPORT is answered over UDP, if it is."""
    with socket.socket(type=socket.SOCK_DGRAM) as client:
        client.settimeout(1)
        client.connect(("127.0.0.1", port))
        try:
            client.send(LISTED[4:])
            return client.recv(1 << 16)
        except OSError:
            return None


def is_connected(port):
    """Whether connections are taken there."""
    try:
        socket.create_connection(("127.0.0.1", port)).close()
        return True
    except ConnectionRefusedError:
        return False


def start(program, closed, over, port, listens):
    """The program, with these descriptors closed, once it listens there."""
    words = [program, over, f"127.0.0.1:{port}", "--export", "/data,rw,127.0.0.1", "--control", "--stats", "1"]
    streams = dict.fromkeys(["stdin", "stdout", "stderr"], subprocess.DEVNULL)
    process = subprocess.Popen(words, **streams, preexec_fn=lambda: [os.close(number) for number in closed])
    until = time.monotonic() + 60
    while process.poll() is None and time.monotonic() < until:
        if listens(port):
            return process
        time.sleep(0.1)
    process.kill()
    sys.exit(f"{program} does not listen")


def sockets(process):
    """Which of the three a socket has, or nobody."""
    wrong = []
    for number, name in enumerate(NAMES):
        path = pathlib.Path(f"/proc/{process.pid}/fd/{number}")
        to = os.readlink(path) if os.path.lexists(path) else "closed"
        if to == "closed" or to.startswith("socket:"):
            wrong.append(f"standard {name} is {to}")
    return wrong


def told(clients):
    """What comes to these clients that asked for nothing."""
    time.sleep(TOLD)
    wrong = []
    for client in clients:
        client.socket.setblocking(False)
        try:
            piece = client.socket.recv(1 << 16)
            wrong.append(f"a client was sent {piece[:60]}" if piece else "a client's connection was closed")
        except BlockingIOError:
            pass
    return wrong


def over_tcp(port):
    """What is wrong with the streams of some clients."""
    clients = [network.Connection(port) for _ in range(CLIENTS)]
    for client in clients:
        client.ask(LISTED)
    return told(clients)


def over_udp(port):
    """Whether the lines of a stranger are an operator's."""
    before = datagram(port)
    with socket.socket(type=socket.SOCK_DGRAM) as stranger:
        stranger.sendto(LINES, ("127.0.0.1", port))
    time.sleep(TOLD)
    return [] if datagram(port) == before else ["a datagram replaced the exports"]


def tried(program, closed, over, listens, looks):
    """What is wrong where these are closed."""
    port = free_port()
    process = start(program, closed, over, port, listens)
    try:
        return [*sockets(process), *looks(port)]
    finally:
        process.kill()
        process.wait()


def main():
    words = nfsd.parser(__doc__)
    words.add_argument("program", metavar="PROGRAM", nargs="?", default=nfsd.PROGRAM, help="the program (this one)")
    program = words.parse_args().program
    found = 0
    for closed in [[], [0], [1], [2], [1, 2], [0, 2], [0, 1, 2]]:
        wrong = tried(program, closed, "--tcp", is_connected, over_tcp)
        wrong += tried(program, closed, "--udp", datagram, over_udp)
        found += len(wrong)
        names = " and ".join(NAMES[number] for number in closed) or "nothing"
        print(f"{names} closed: {'; '.join(wrong) or 'well'}", flush=True)
    sys.exit(1 if found else 0)


if __name__ == "__main__":
    main()
