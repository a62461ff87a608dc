#!/usr/bin/env python3
"""Tries locks with Linux' own client, whose programs are as they are, and contrib/lockd: in a machine of User Mode
Linux (guests.py) its kernel mounts the export with `lock`, and processes of it (linux_locks.c) lock ranges of a file,
as do two other hosts, which are this machine at 127.0.0.2 and 127.0.0.3.

Locks are exclusive and shared, beside each other and not, and become the one and the other; who waits for one gets it
by a call within a second, and not when the client asks again, which is after 30; nothing is left of a process that is
killed as it waits. A GRANTED that is kept back on its way comes when the client asked again and has its lock: it stays
the client's until this gives it back. At last the client is switched off, and its locks are free once it comes back and
its sm-notify tells so.

lockd is the port mapper there, at port 111. Wanted are what guests.py wants, and gcc.

usage: bench/linux_locks.py [PROGRAM]
"""
import contextlib
import socket
import struct
import subprocess
import sys
import time

import guests
import locking
import network
import nfsd
from locking import IS_BLOCKED, IS_DENIED, IS_GRANTED
from lockd import Lockd

HERE, OTHER, THIRD = "127.0.0.1", "127.0.0.2", "127.0.0.3"  # this machine, and the other hosts that it is
CALLED, CALLBACK = "127.110.0.1", 290  # where lockd takes calls for the first client
PROCESSES = 4
PATIENCE = guests.PATIENCE
SOON = 1  # seconds in which a client is called back
ASKS_AGAIN = 30  # seconds after which Linux asks again for a lock that it waits for
BEFORE = 2  # so many seconds before that the lock is given back
KEPT_BACK = 4  # seconds for which the GRANTED is kept back then; the server waits 5 for an answer
LATE = 10  # seconds in which it comes


class Process:
    """A process of the client, which does what it is told."""

    def __init__(self, connection):
        connection.settimeout(PATIENCE)
        self.connection, self.stream = connection, connection.makefile("rw")
        self.number = int(self.hear())

    def hear(self):
        return self.stream.readline().strip()

    def tell(self, *words):
        print(*words, file=self.stream, flush=True)

    def ask(self, *words):
        self.tell(*words)
        return self.hear()

    def locks(self, kind, start, length, way="try"):
        """Whether it gets this lock; `kind` is r, w, or u where it is to be given back."""
        said = self.ask(way, kind, start, length)
        assert said in ("done", "denied"), said
        return said == "done"

    def waits(self, kind, start, length, beside):
        """It waits for this lock, as another process of the client sees. When that began."""
        self.tell("wait", kind, start, length)
        begin = time.monotonic()
        while beside.ask("blocked", self.number) != "yes":
            assert time.monotonic() < begin + ASKS_AGAIN, "it waits"
            time.sleep(0.05)
        return time.monotonic()


class Client(guests.Guest):
    """A machine that mounts the export, with its processes."""

    def __init__(self, folder, number):
        super().__init__(folder, number)
        self.listener = socket.create_server((guests.SERVER, 0))
        self.listener.settimeout(PATIENCE)

    def switch_on(self):
        super().switch_on()
        self.mount(",noac")
        words = f"{self.folder}/linux_locks /mnt/file {guests.SERVER} {self.listener.getsockname()[1]} {PROCESSES}"
        self.run(f"touch /mnt/file && {{ setsid {words} > /run/said 2>&1 & }}")
        self.processes = [Process(self.listener.accept()[0]) for _ in range(PROCESSES)]

    def shut_down(self):
        """Its processes end, and it lets the export go."""
        for process in self.processes:
            process.connection.shutdown(socket.SHUT_RDWR)
        self.run("while pidof linux_locks > /dev/null; do sleep 0.1; done; umount /mnt")


class Owner:
    """An owner of locks of a file, at some address of this machine."""

    def __init__(self, port, address, number, file=None):
        self.connection, self.number = network.Connection(port, address), number
        self.file = file or self.connection.make(b"file")
        self.xid = 0
        # (the server closes a connection that brings no record in its first 30 seconds)
        assert self.may_lock()

    def ask(self, make, start, length, **ways):
        self.xid += 1
        return locking.status(self.connection.ask(make(self.xid, self.file, self.number, start, length, **ways)))

    def locks(self, start, length, **ways):
        return self.ask(locking.locking, start, length, **ways) == IS_GRANTED

    def waits(self, start, length, **ways):
        assert self.ask(locking.locking, start, length, block=True, **ways) == IS_BLOCKED

    def unlocks(self):
        assert self.ask(locking.unlocking, 0, 0) == IS_GRANTED

    def may_lock(self, start=0, length=0):
        """Whether nobody has a lock that stands in the way of an exclusive one."""
        return self.ask(locking.testing, start, length) == IS_GRANTED


class Relay(locking.Host):
    """Hands its calls on to a port, after so many seconds, and keeps when each came there and with which status it was
    answered."""

    def __init__(self, place, port):
        self.place, self.to_port, self.answers, self.delay = place, port, [], 0
        super().__init__()

    def answer(self, record):
        time.sleep(self.delay)
        came = time.monotonic()
        connection = network.Connection(self.to_port, to=self.place)
        with connection.socket:
            reply = connection.ask(struct.pack(">I", 0x80000000 | len(record)) + record)
        self.answers.append((came, *struct.unpack(">I", reply[-4:])))
        return reply


def is_called(process, relay, what, give):
    """What `give` gives free a process gets that waits for it, by a call that comes soon."""
    begin = time.monotonic()
    give()
    assert process.hear() == "done"
    passed = time.monotonic() - begin
    relay.next()
    came, status = relay.answers[-1]
    print(f"locks: {what}: called back after {came - begin:.2f} s, and held after {passed:.2f} s")
    assert status == IS_GRANTED and came < begin + SOON and passed < ASKS_AGAIN / 2


def excludes(client, other):
    """An exclusive lock stands in the way of all others, whoever has it; also one of flock."""
    one, two = client.processes[:2]
    assert one.locks("w", 0, 100)
    assert not two.locks("w", 99, 1) and not two.locks("r", 0, 1)
    assert not other.locks(99, 1) and not other.locks(0, 1, exclusive=False) and not other.may_lock(50, 1)
    assert other.locks(100, 100)
    assert not one.locks("w", 199, 1) and not one.locks("r", 100, 1)
    assert one.ask("test", "r", 0, 0) == "w 100 100" and two.ask("test", "r", 50, 100) == "w 0 100"
    assert one.ask("test", "w", 200, 0) == "free"
    assert one.locks("u", 0, 0) and other.may_lock()
    other.unlocks()
    assert one.locks("w", 0, 0, "flock") and not two.locks("r", 0, 0, "flock") and not other.locks(1 << 40, 1)
    assert one.locks("u", 0, 0, "flock") and other.may_lock()
    print("locks: exclusive: nobody else gets it")


def shares(client, other):
    """Shared locks stand beside each other, and in the way of exclusive ones."""
    one, two = client.processes[:2]
    assert one.locks("r", 0, 100) and two.locks("r", 50, 100) and other.locks(0, 200, exclusive=False)
    assert not one.locks("w", 160, 1) and not other.locks(149, 1)
    assert one.ask("test", "r", 0, 0) == "free" and two.ask("test", "w", 160, 10) == "r 0 200"
    assert two.locks("u", 0, 0) and other.locks(100, 50) and not one.locks("r", 149, 1)
    other.unlocks()
    assert not other.locks(99, 1) and one.locks("u", 0, 0) and other.may_lock()
    print("locks: shared: they stand beside each other, and exclude exclusive ones")


def divides(client, other):
    """Ranges stand beside each other; what is given back from within one is free alone."""
    one, two = client.processes[:2]
    assert one.locks("w", 0, 100) and other.locks(100, 100) and two.locks("w", 200, 100)
    assert not one.locks("w", 50, 100) and not two.locks("w", 150, 100) and not other.locks(0, 0)
    assert one.locks("u", 40, 20) and other.locks(40, 20) and not other.locks(39, 21) and not other.locks(40, 21)
    assert two.locks("w", 300, 0) and not other.locks(1 << 62, 1), "to the end of all bytes"
    for process in (one, two):
        assert process.locks("u", 0, 0)
    assert other.may_lock() and one.ask("test", "w", 0, 0) == "w 40 20"
    other.unlocks()
    print("locks: ranges: beside each other, overlapping, and in parts")


def upgrades(client, other, relay):
    """A shared lock becomes exclusive: at once where nobody else has one, and else after that."""
    one, two = client.processes[:2]
    assert one.locks("r", 0, 100) and one.locks("w", 0, 100) and not other.locks(0, 100, exclusive=False)
    assert one.locks("r", 0, 100) and other.locks(0, 100, exclusive=False) and not one.locks("w", 0, 100)
    one.waits("w", 0, 100, two)
    assert not other.locks(50, 1), "what it has stays"
    is_called(one, relay, "an upgrade that was waited for", other.unlocks)
    assert not other.locks(50, 1, exclusive=False) and one.locks("u", 0, 0) and other.may_lock()


def downgrades(client, other, called, relay):
    """An exclusive lock becomes shared, which wakes those who wait for a shared one."""
    one, two = client.processes[:2]
    assert one.locks("w", 0, 100)
    other.waits(0, 100, exclusive=False)
    assert one.locks("r", 0, 100)
    called.next()
    assert two.ask("test", "w", 0, 0) == "r 0 100" and not one.locks("w", 0, 100)
    assert one.locks("u", 0, 0) and other.locks(0, 100)
    one.waits("r", 0, 100, two)
    is_called(one, relay, "a shared lock, by a downgrade", lambda: other.locks(0, 100, exclusive=False))
    assert not other.locks(0, 100) and one.locks("u", 0, 0)
    other.unlocks()


def waits(client, other, called, relay):
    """A process that waits gets its lock by a call, in turn with another host."""
    one, two = client.processes[:2]
    assert other.locks(0, 0)
    for length in (10, 100, 0):
        one.waits("w", 0, length, two)
        is_called(one, relay, "a lock that was waited for", other.unlocks)
        assert not other.locks(9, 1)
        other.waits(0, 0)
        assert one.locks("u", 0, 0)
        called.next()
    other.unlocks()
    assert other.may_lock()


def is_killed(client, other, third):
    """Nothing is left of a process that is killed as it waits."""
    one, *_, killed = client.processes
    assert other.locks(0, 100)
    assert killed.locks("w", 100, 100)
    killed.waits("w", 0, 100, one)
    assert one.ask("kill", killed.number) == "done" and killed.hear() == ""
    other.unlocks()
    assert third.locks(0, 200), "another host gets what it waited for and what it had"
    third.unlocks()
    assert other.may_lock() and one.ask("test", "w", 0, 0) == "free", "no lock stays"
    print("locks: killed: nothing is left of a process that waited")


def is_late(client, other, relay):
    """A GRANTED that is late comes to a client that has asked again meanwhile and works under its lock."""
    one, two = client.processes[:2]
    assert other.locks(0, 200)
    since = one.waits("w", 100, 100, two)
    heard, relay.delay = len(relay.answers), KEPT_BACK
    time.sleep(since + ASKS_AGAIN - BEFORE - time.monotonic())
    begin = time.monotonic()
    other.unlocks()
    assert one.hear() == "done" and len(relay.answers) == heard, "it has its lock before it is called back"
    print(f"locks: late: the client asked again and had its lock after {time.monotonic() - begin:.1f} s")
    while time.monotonic() < begin + LATE:
        assert not other.locks(100, 100), f"another host has what the client works under: {relay.answers[heard:]}"
        time.sleep(0.02)
    [(came, status)] = relay.answers[heard:]
    assert status == IS_DENIED, "the client waits for no lock any more"
    assert one.locks("u", 100, 100) and other.locks(100, 100)
    other.unlocks()
    relay.delay = 0
    assert other.may_lock()
    print(f"locks: late: called back after {came - begin:.1f} s it denied that, and had its lock until it was done")


def comes_back(client, other, lockd_run):
    """The client's locks stay when it is switched off. Once it comes back and tells so they are free, and what it
    waited for is forgotten."""
    one, two = client.processes[:2]
    assert one.locks("w", 0, 100) and other.locks(100, 100)
    two.waits("w", 100, 100, one)
    client.switch_off()
    assert not other.may_lock(), "nobody has told that it is gone"
    client.switch_on()
    assert f"the locks of {client.name} are freed" in lockd_run.hear("has started anew")
    other.unlocks()
    assert other.may_lock(), "neither what it had nor what it waited for is its own"
    assert client.processes[0].locks("w", 0, 100) and not other.locks(99, 1), "it locks anew"
    print("locks: switched off: the client's locks were free once it came back and told so")


def compile_processes(folder):
    """Makes linux_locks.c a program of the machines."""
    words = ["gcc", "-std=gnu11", "-O2", "-static", "-o", folder / "linux_locks", guests.HERE / "linux_locks.c"]
    if subprocess.run(words).returncode != 0:
        sys.exit(f"{sys.argv[0]}: gcc does not compile linux_locks.c")


@contextlib.contextmanager
def served(program, clients, *options):
    """The server, with lockd for these clients."""
    with network.Server(program, *options, at="0.0.0.0") as server:
        place = f"{guests.SERVER}:{server.port}"
        with Lockd("--clients", ",".join(clients), "--server", place, "--mapper", "own") as lockd:
            yield server, lockd


def main():
    words = nfsd.parser(__doc__)
    words.add_argument("program", metavar="PROGRAM", nargs="?", default=nfsd.PROGRAM, help="the program (this one)")
    program = words.parse_args().program
    with guests.apart() as folder, Client(folder, 1) as client:
        compile_processes(folder)
        called, relay = locking.Host(IS_GRANTED), Relay(CALLED, CALLBACK)
        places = ((client.address, relay), (OTHER, called))
        callbacks = [f"--callback={address}={HERE}:{place.port}" for address, place in places]
        with served(program, [client.address], *callbacks) as (server, lockd):
            client.switch_on()
            other = Owner(server.port, OTHER, 1)
            third = Owner(server.port, THIRD, 2, other.file)
            excludes(client, other)
            shares(client, other)
            divides(client, other)
            upgrades(client, other, relay)
            downgrades(client, other, called, relay)
            waits(client, other, called, relay)
            is_killed(client, other, third)
            is_late(client, other, relay)
            comes_back(client, other, lockd)
            client.shut_down()


if __name__ == "__main__":
    main()
