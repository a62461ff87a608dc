#!/usr/bin/env python3
"""Tries contrib/lockd between nfsd and a client that is made up, all on this machine: what its port mapper answers,
calls back to the client's lock manager, also once this has moved, and the client's start anew.

Ports are such as need no right. With --root, as root, it does all this in a network of its own (unshare), with the
ports that lockd has by itself, and tries more: another user of the machine, and Debian's rpcinfo and rpcbind, which
lockd tells of the programs, and takes that back, or is killed and tells it anew. Wants Debian's rpcbind and iproute2.

usage: bench/lockd.py [--root] [PROGRAM]
"""
import contextlib
import os
import pathlib
import signal
import socket
import struct
import subprocess
import sys
import threading
import time

import locking
import network
import nfsd
from locking import IS_BLOCKED, IS_DENIED, IS_GRANTED, NLM
from nfsd import NFS

LOCKD = pathlib.Path(__file__).resolve().parent.parent / "contrib/lockd"
HERE, CLIENT, STRANGER = "127.0.0.1", "127.0.0.2", "127.0.0.3"
CALLED = "127.110.0.1"  # where nfsd calls the client back
MAPPER, MOUNT, STATUS = 100000, 100005, 100024
GETPORT, DUMP, NOTIFY = 3, 4, 6
TCP, UDP = 6, 17
TAKEN = 2  # seconds in which a notice is answered
NAMED = 40  # the transaction ids of calls to nfsd begin here


def call(program, version, procedure, arguments=b"", xid=1):
    """A call with AUTH_NONE, without a mark."""
    return struct.pack(">10I", xid, 0, 2, program, version, procedure, 0, 0, 0, 0) + arguments


def by_datagram(record, port, address=HERE):
    """The reply to a datagram from this address, or None where none comes."""
    with socket.socket(socket.AF_INET, socket.SOCK_DGRAM) as peer:
        peer.bind((address, 0))
        peer.settimeout(TAKEN)
        peer.sendto(record, (HERE, port))
        with contextlib.suppress(TimeoutError):
            return peer.recv(4096)
    return None


def by_stream(record, port, address=HERE):
    """The reply over a connection of its own."""
    connection = network.Connection(port, address, TAKEN)
    with connection.socket:
        return connection.ask(struct.pack(">I", 0x80000000 | len(record)) + record)


def free_ports(count):
    """Ports in turn that nothing listens on at present. The first of them."""
    for first in range(20_000, 60_000, 97):
        with contextlib.suppress(OSError), contextlib.ExitStack() as stack:
            for port in range(first, first + count):
                stack.enter_context(socket.create_server((HERE, port)))
            return first
    sys.exit("lockd: there are no free ports")


class Mapper:
    """The client's port mapper, over TCP: whatever it is asked for is at one port."""

    def __init__(self):
        self.names = 0
        self.asked = []
        self.listener = socket.create_server((CLIENT, 0))
        self.port = self.listener.getsockname()[1]
        threading.Thread(target=self.work, daemon=True).start()

    def work(self):
        while True:
            connection, _ = self.listener.accept()
            with connection, connection.makefile("rwb") as stream:
                (mark,) = struct.unpack(">I", stream.read(4))
                record = stream.read(mark & 0x7FFFFFFF)
                self.asked.append(struct.unpack_from(">6I", record)[3:] + struct.unpack_from(">4I", record, 40))
                body = struct.pack(">7I", *struct.unpack_from(">I", record), 1, 0, 0, 0, 0, self.names)
                stream.write(struct.pack(">I", 0x80000000 | len(body)) + body)


class Lockd:
    """A run of contrib/lockd."""

    def __init__(self, *words):
        self.process = subprocess.Popen([LOCKD, *map(str, words)], stderr=subprocess.PIPE, text=True)
        self.hear(" clients are called back")

    def kill(self):
        self.process.kill()
        self.process.wait()

    def hear(self, text):
        """The next line that it says with this in it."""
        while line := self.process.stderr.readline():
            if text in line:
                return line
        sys.exit(f"lockd: it ends with {self.process.wait()} and does not say {text!r}")

    def __enter__(self):
        return self

    def __exit__(self, *error):
        self.process.send_signal(signal.SIGTERM)
        status = self.process.wait(10)
        assert status == 0 or error[0], "it ends well"


def names(port, server, notices):
    """It names the programs, over UDP and TCP, and nothing else."""
    for ask in (by_datagram, by_stream):

        def named(program, version, transport):
            reply = ask(call(MAPPER, 2, GETPORT, struct.pack(">4I", program, version, transport, 0)), port)
            return struct.unpack(">I", reply[24:])[0]

        assert [named(*each, TCP) for each in ((NFS, 3), (MOUNT, 3), (NLM, 4))] == [server] * 3
        assert named(STATUS, 1, UDP) == named(STATUS, 1, TCP) == notices
        assert named(NLM, 3, TCP) == named(NLM, 4, UDP) == named(1, 1, TCP) == 0
        listed = ask(call(MAPPER, 2, DUMP), port)
        assert len(listed) == 24 + 7 * 20 + 4 and struct.pack(">5I", 1, NFS, 3, TCP, server) in listed
        assert ask(call(MAPPER, 2, 0), port)[20:] == bytes(4)
        assert ask(call(MAPPER, 3, GETPORT), port)[20:] == struct.pack(">3I", 2, 2, 2), "PROG_MISMATCH"
        assert ask(call(NFS, 3, 0), port)[20:] == struct.pack(">I", 1), "PROG_UNAVAIL"
        assert ask(call(MAPPER, 2, 1), port)[20:] == struct.pack(">I", 3), "PROC_UNAVAIL"
        assert ask(call(MAPPER, 2, GETPORT, bytes(8)), port)[20:] == struct.pack(">I", 4), "GARBAGE_ARGS"
    assert by_datagram(b"noise", port) is None
    print("port mapper: it names NFS, MOUNT, NLM and NSM, over UDP and TCP, and nothing else")


class Clients:
    """Two clients of nfsd that want one range: one of this machine's address, and the other that is called back."""

    def __init__(self, port):
        self.one, self.other = network.Connection(port), network.Connection(port, CLIENT)
        self.file = self.one.make(b"file")
        self.xid = NAMED

    def ask(self, connection, make, *words, **ways):
        self.xid += 1
        return locking.status(connection.ask(make(self.xid, self.file, *words, 0, 100, **ways)))

    def waits(self):
        """The other waits for what the one has, and it is let go."""
        assert self.ask(self.one, locking.locking, 1) == IS_GRANTED
        assert self.ask(self.other, locking.locking, 2, block=True) == IS_BLOCKED
        assert self.ask(self.one, locking.unlocking, 1) == IS_GRANTED

    def is_held(self):
        return self.ask(self.one, locking.testing, 1) == IS_DENIED

    def lets_go(self):
        assert self.ask(self.other, locking.unlocking, 2) == IS_GRANTED


def calls_back(clients, mapper, lockd):
    """The client's lock manager is called where its port mapper says, wherever that is, or not at all. It is as it was
    called last, and the client holds the range."""
    for _ in range(2):
        host = locking.Host(IS_GRANTED, address=CLIENT)
        mapper.names = host.port
        clients.waits()
        assert struct.unpack_from(">6I", host.next())[3:] == (NLM, 4, locking.GRANTED)
        assert clients.is_held(), "the client has what it waited for"
        clients.lets_go()
    assert set(mapper.asked) == {(MAPPER, 2, GETPORT, NLM, 4, TCP, 0)}
    print("calls back: the client is told of its lock, and told again once its lock manager has moved")
    mapper.names = 0
    clients.waits()
    assert "names no lock manager" in lockd.hear("is not called back")
    mapper.names = host.port
    clients.lets_go()
    clients.waits()
    host.next()
    print("calls back: a client without a lock manager is named, and the next one is called")
    return host


def starts_anew(clients, host, notices):
    """What the client locked is free once it tells that it has started anew, and not by anybody else's word."""
    assert clients.is_held()
    first, second = (call(STATUS, 1, NOTIFY, locking.opaque(b"c2") + struct.pack(">i", state)) for state in (7, 9))
    done = struct.pack(">6I", 1, 1, 0, 0, 0, 0)
    assert by_datagram(first, notices, STRANGER) is None and clients.is_held()
    assert by_datagram(call(STATUS, 1, NOTIFY, bytes(2)), notices, CLIENT)[20:] == struct.pack(">I", 4)
    assert by_datagram(first, notices, CLIENT) == done and not clients.is_held()
    clients.waits()
    host.next()
    assert by_datagram(first, notices, CLIENT) == done and clients.is_held(), "a repeat frees nothing"
    assert by_stream(second, notices, CLIENT) == done and not clients.is_held()
    print("starts anew: a client's notice frees its locks, over UDP and TCP; a repeat's or a stranger's does not")


def lets_in(mapper, notices, client, stranger):
    """One peer has eight connections to a port, and others beside it; at the port of notices clients alone have any."""
    asked = call(MAPPER, 2, 0)
    marked = struct.pack(">I", 0x80000000 | len(asked)) + asked
    with contextlib.ExitStack() as stack:
        held = [network.Connection(mapper, stranger, TAKEN) for _ in range(9)]
        for connection in held:
            stack.enter_context(connection.socket)
        for connection in held[:8]:
            assert connection.ask(marked)[20:] == bytes(4)
        assert is_closed(held[8], marked), "the ninth is closed"
        assert by_stream(asked, mapper, client)[20:] == bytes(4), "another peer is let in"
        assert is_closed(network.Connection(notices, stranger, TAKEN), marked), "a stranger sends no notice"
        assert by_stream(call(STATUS, 1, 0), notices, client)[20:] == bytes(4)
    print("lets in: eight connections of one peer, others beside it, and no stranger's where notices are taken")


def is_closed(connection, record):
    """Whether the connection has been closed for what was sent, or before."""
    with connection.socket, contextlib.suppress(ConnectionError):
        connection.ask(record)
        return False
    return True


def other_users(place, mapper, lockd):
    """What another user of the machine sends goes on to no client's lock manager, also where it is gone at once."""
    asked = len(mapper.asked)
    if os.fork() == 0:
        os.setuid(65534)
        for _ in range(20):
            with socket.create_connection(place, TAKEN) as gone:
                gone.sendall(bytes(64))
            time.sleep(0.01)
        connection = socket.create_connection(place, TAKEN)
        connection.sendall(bytes(64))
        with contextlib.suppress(ConnectionError):
            os._exit(connection.recv(1) != b"")
        os._exit(0)
    _, status = os.wait()
    assert "who is not nfsd's user" in lockd.hear("is not called back")
    assert status == 0 and len(mapper.asked) == asked
    print("other users: what they send goes on to no lock manager")


def is_shown_by_rpcinfo(server):
    """Debian's rpcinfo lists what the port mapper names, as users look at it."""
    said = subprocess.run(["rpcinfo", "-p", HERE], stdout=subprocess.PIPE, text=True, check=True).stdout
    listed = {tuple(line.split()[:4]) for line in said.splitlines()[1:]}
    served = {(str(NFS), "3"), (str(MOUNT), "3"), (str(NLM), "4")}
    assert {(*each, "tcp", str(server)) for each in served} <= listed
    assert {(str(MAPPER), "2", transport, "111") for transport in ("tcp", "udp")} <= listed
    print("rpcinfo: it lists the programs and the port mapper itself")


def tells_rpcbind(words, server):
    """It tells rpcbind, takes another's place only when it is told to, and takes back what it told. One that was killed
    comes back."""

    def named(program, version):
        reply = by_datagram(call(MAPPER, 2, GETPORT, struct.pack(">4I", program, version, TCP, 0)), 111)
        return struct.unpack(">I", reply[24:])[0]

    rpcbind = subprocess.Popen(["rpcbind", "-f"])
    try:
        time.sleep(1)
        with Lockd(*words):
            assert [named(*each) for each in ((NFS, 3), (MOUNT, 3), (NLM, 4))] == [server] * 3 and named(STATUS, 1)
        assert named(NFS, 3) == named(NLM, 4) == named(STATUS, 1) == 0, "it takes back what it told"
        with Lockd(*words):
            notices = named(STATUS, 1)
            others = [*words, "--callback-port", free_ports(1)]
            refused = subprocess.run([LOCKD, *map(str, others)], stderr=subprocess.PIPE, text=True, timeout=20)
            assert refused.returncode == 1 and "names NSM version 1 over UDP at" in refused.stderr
            assert named(STATUS, 1) == notices, "what another told stays"
            with Lockd(*others, "--replace"):
                assert named(NFS, 3) == server and named(STATUS, 1) != notices
        killed = Lockd(*words)
        notices = named(STATUS, 1)
        killed.kill()
        assert named(NFS, 3) == server and named(STATUS, 1) == notices, "what it told stays behind"
        with Lockd(*words):
            assert named(NFS, 3) == server and named(STATUS, 1) not in (0, notices)
        assert named(NFS, 3) == named(STATUS, 1) == 0
    finally:
        rpcbind.terminate()
        rpcbind.wait()
    print("rpcbind: it knows the programs while lockd runs, and anew once it was killed")


def tries(program, mine, mapper_port, notices):
    """What needs no right, and as root what does."""
    told = subprocess.run([LOCKD, *map(str, mine), "--words"], stdout=subprocess.PIPE, text=True, check=True).stdout
    mapper = Mapper()
    with network.Server(program, *told.split()) as server:
        mine += ["--server", f"{HERE}:{server.port}", "--listen", HERE, "--client-mapper", mapper.port]
        with Lockd(*mine, "--mapper", "own", "--mapper-port", mapper_port, "--notices-port", notices) as lockd:
            names(mapper_port, server.port, notices)
            clients = Clients(server.port)
            host = calls_back(clients, mapper, lockd)
            starts_anew(clients, host, notices)
            lets_in(mapper_port, notices, CLIENT, STRANGER)
            if mapper_port == 111:
                other_users((CALLED, 290), mapper, lockd)
                is_shown_by_rpcinfo(server.port)
        if mapper_port == 111:
            tells_rpcbind(mine, server.port)


def main():
    words = nfsd.parser(__doc__)
    words.add_argument("--root", action="store_true", help="do all in a network of its own, and more, as root")
    words.add_argument("program", metavar="PROGRAM", nargs="?", default=nfsd.PROGRAM, help="the program (this one)")
    given = words.parse_args()
    mine = ["--clients", CLIENT]
    if not given.root:
        first = free_ports(3)
        tries(given.program, [*mine, "--callback-port", first], first + 1, first + 2)
    elif os.environ.get("IN_ITS_NETWORK"):
        tries(given.program, mine, 111, free_ports(1))
    else:
        apart = "mount -t tmpfs run /run && mkdir /run/rpcbind && ip link set lo up && exec \"$@\""
        os.environ["IN_ITS_NETWORK"] = "1"
        os.execvp("unshare", ["unshare", "-nm", "sh", "-c", apart, "sh", *sys.argv])


if __name__ == "__main__":
    main()
