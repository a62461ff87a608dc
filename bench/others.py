#!/usr/bin/env python3
"""Measures what one peer can do to others: a fixed list of hostile and of large uses, each over TCP with a server of
its own. For each it prints what a call takes of a processor, and how long a GETATTR of another client waits beside
it: the median and the longest, in milliseconds. With a second program it prints the same of that one in further
columns. Behind them stand the bounds of the call and of the longest wait, and whether the first program keeps them and
loses nothing; the last line tells how many lines are beyond their bounds.

The other client is a process of its own and another host (127.0.0.2). It asks for the root's attributes, one call
after the other with a millisecond between; those of its calls count that were in progress while the use was. What
they take of a processor by themselves is told first for each use, and taken off. Where making what a use is about
takes longer than --patience, the use is measured with what was made by then, and the line says so.

Names that lie in one part of a directory are found by flood.c, which gcc compiles. Other work on the machine makes all
of it dearer: compare what stands in one line, and where it is allowed take --priority, with which all this runs before
other work. Even then a thread that computes lets others wait for up to 100 ms where no processor is free. A dash stands
where no call of the other client was in progress.

usage: bench/others.py [--only WORD] [--quick] [--priority] [--rounds N] [--seconds S] [--patience S] [PROGRAM [OTHER]]
"""
import collections
import concurrent.futures
import contextlib
import itertools
import math
import multiprocessing
import os
import pathlib
import resource
import signal
import socket
import statistics
import struct
import subprocess
import sys
import tempfile
import time

import data
import full
import locking
import mounts
import network
import nfsd
import turns

HERE = pathlib.Path(__file__).resolve().parent
NEIGHBOUR = "127.0.0.2"  # the other client
PACE = 0.001  # seconds between its calls
SETTLE = 0.2  # seconds for which its calls are measured alone
BATCH = 200  # calls that are sent at once while a use is prepared
READDIR, READDIRPLUS = 16, 17
GIBIBYTE, BLOCK = 1 << 30, 4096
LOADED, LOADERS = 48, 2  # the connections that load the server, and the processes that hold them
PIECE = 16  # calls that are sent at once while they are measured
FEW = 50  # the last of those that wait, which are counted
SHORT = 100  # the records of an era where one call is long, so that an era ends meanwhile
GOING = 5  # seconds in which 1 GiB goes
THIN = 512  # the map pages of a file that has four bytes in each
FREEING = 64  # the callers whose locks are freed at once
READERS = 4  # the connections over which READs of 64 KiB go on beside a use
LATE = 12  # a client that is not let in by then gives up
ARENAS = "MALLOC_ARENA_MAX"  # for how many threads the C library keeps memory apart
CALL, WAIT = 20.0, 25.0  # the bounds of a call, and of the longest wait beside it, in milliseconds
MEDIAN = 0.3  # the bound of the median of the waits where READs go on beside, in milliseconds
LONG = 1024  # the bytes of a long owner of a lock
TESTERS = 4  # the peers that test locks at once
DEAF = 64  # READs of 64 KiB that a peer asks who takes no answer
MARGIN = 16 << 20  # the address space that a server gets whose memory is filled then
LISTENERS = []  # where hosts are called back, for as long as this runs
PART_BITS = 11  # the parts of a bucket of 10,000 names are told apart by so many bits


def root(xid):
    """GETATTR of the root."""
    return nfsd.call(xid, nfsd.GETATTR, nfsd.ROOT)


def named(directory, name):
    """A name in a directory whose handle has its length (RFC 1813, 3.3.3: diropargs3)."""
    return directory + nfsd.place(name)[len(nfsd.ROOT) :]


def handle(reply):
    """The handle, with its length, in the reply of CREATE or MKDIR, which has to be a good one."""
    assert network.status(reply) == 0, "it is made"
    return reply[network.FILE : network.FILE + network.NODE]


class Asker:
    """Asks one call after the other over one connection."""

    def __init__(self, port, make):
        self.connection, self.make = network.Connection(port, NEIGHBOUR), make

    def ask(self, xid):
        return self.connection.ask(self.make(xid))


class Comer:
    """Comes anew for each call, and again after a while where it is not let in. A call for which it is not let in at
    all has no end."""

    def __init__(self, port, make):
        self.port, self.make = port, make

    def ask(self, xid):
        until = time.monotonic() + LATE
        while time.monotonic() < until:
            try:
                connection = network.Connection(self.port, NEIGHBOUR)
                with connection.socket:
                    return connection.ask(self.make(xid))
            except OSError:
                time.sleep(0.05)
        return None


def neighbour(port, kind, make, orders):
    """The other client: asks from one order to the next, and then tells when each call was begun and answered."""
    asker = kind(port, make)
    xids = itertools.count(1)
    with contextlib.suppress(EOFError):
        while orders.recv():
            told = []
            while not orders.poll():
                begin = time.monotonic()
                told.append((begin, math.inf if asker.ask(next(xids)) is None else time.monotonic()))
                time.sleep(PACE)
            orders.recv()
            orders.send(told)


class Tally:
    """What was counted of a use."""

    def __init__(self):
        self.calls, self.used, self.waits = 0, 0.0, []
        self.lost = 0  # what was refused to the end, or closed

    def cells(self):
        """The milliseconds of a processor for a call, and the median and the longest wait."""
        waits = self.waits or [math.nan]
        return [1e3 * figure for figure in (self.used / self.calls, statistics.median(waits), max(waits))]


class Peer:
    """One who uses the server, beside the other client."""

    def __init__(self, server, use, given):
        self.server, self.given = server, given
        self.connection = network.Connection(server.port, patience=max(60, given.patience))
        self.xids = itertools.count(1)
        self.notes = []
        self.orders, other_end = multiprocessing.Pipe()
        words = (server.port, use.kind, use.asked, other_end)
        self.neighbour = multiprocessing.Process(target=neighbour, args=words, daemon=True)
        self.neighbour.start()
        self.alone = 0.0
        with self.counted() as tally:
            time.sleep(SETTLE)
        self.alone = tally.used / max(1, len(tally.waits))

    def close(self):
        self.neighbour.terminate()
        self.neighbour.join()

    def ask(self, record):
        return self.connection.ask(record)

    @contextlib.contextmanager
    def counted(self, tally=None):
        """Counts what is done within, while the other client asks."""
        tally = tally or Tally()
        self.orders.send(True)
        time.sleep(10 * PACE)
        begin, before = time.monotonic(), self.server.used()
        yield tally
        end, after = time.monotonic(), self.server.used()
        self.orders.send(True)
        told = [(first, last) for first, last in self.orders.recv() if first < end and last > begin]
        tally.waits += [last - first for first, last in told]
        tally.used += max(0.0, after - before - self.alone * len(told))

    def repeat(self, turn):
        """Takes turns of calls until some time has passed. A turn tells how many calls it made."""
        with self.counted() as tally:
            until = time.monotonic() + self.given.seconds
            while time.monotonic() < until:
                tally.calls += turn()
        return tally

    def once(self, record, tally=None):
        """Makes one call."""
        with self.counted(tally) as tally:
            self.ask(record)
            tally.calls += 1
        return tally

    def prepare(self, records, at=network.STATUS, good=0):
        """Makes these calls, until they end or patience does. How many. Their replies have their status there."""
        until = time.monotonic() + self.given.patience
        statuses = collections.Counter()
        records = iter(records)
        while batch := list(itertools.islice(records, BATCH)):
            self.connection.socket.sendall(b"".join(batch))
            statuses.update(struct.unpack_from(">I", self.connection.reply(), at)[0] for _ in batch)
            if time.monotonic() > until and next(records, None):
                self.notes.append(f"{statuses.total():,} were made in {self.given.patience:g} s")
                break
        if statuses[good] < statuses.total():
            self.notes.append(f"{statuses.total() - statuses[good]:,} of {statuses.total():,} were refused")
        return statuses.total()

    def made(self, names):
        """The handles of files that are made."""
        return [handle(self.ask(nfsd.create(next(self.xids), name))) for name in names]

    def descend(self, depth):
        """The handle of a directory that lies so deep: each is named `d`."""
        at = nfsd.ROOT
        for _ in range(depth):
            at = handle(self.ask(nfsd.call(next(self.xids), nfsd.MKDIR, named(at, b"d") + bytes(24))))
        return at


def getattrs(peer):
    """GETATTRs in pieces."""

    def turn():
        records = b"".join(root(next(peer.xids)) for _ in range(PIECE))
        peer.connection.answer(records, PIECE * nfsd.SHOWN)
        return PIECE

    return [peer.repeat(turn)]


def held(peer, others, owner):
    """A file of which two others have so many ranges, by owners of so many bytes."""
    file = peer.connection.make(b"file")
    ranges = (locking.locking(next(peer.xids), file, 2 + n % 2, 2 * n, 1, owner=owner) for n in range(others))
    peer.prepare(ranges, locking.STATUS)
    return file


def locks(others, owner=4):
    """LOCK and UNLOCK of a free range of a file of which others have so many."""

    def play(peer):
        file = held(peer, others, owner)

        def turn():
            for make in (locking.locking, locking.unlocking):
                peer.ask(make(next(peer.xids), file, 1, 2 * others + 10, 5, owner=owner))
            return 2

        return [peer.repeat(turn)]

    return play


def tests(others):
    """TESTs of some peers at once, of a file of which others have so many ranges by long owners."""

    def play(peer):
        file = held(peer, others, LONG)
        record = locking.testing(1, file, 1, 2 * (others - 1), 1)
        size = PIECE * (4 + len(peer.ask(record)))
        return [loaded(peer, TESTERS, TESTERS, PIECE * record, size)]

    return play


def message(xid, file, number):
    """TEST_MSG with a cookie of 1 KiB."""
    return locking.testing_by_message(xid, file, 1, bytes(1020) + struct.pack(">I", number))


def messages(count):
    """TEST_MSGs, so many, of a host that is called back and never answers."""

    def play(peer):
        file = peer.connection.make(b"file")
        with peer.counted() as tally:
            for first in range(0, count, BATCH):
                cookies = range(first, min(first + BATCH, count))
                records = [message(next(peer.xids), file, number) for number in cookies]
                peer.connection.answer(b"".join(records), len(records) * 28)
                tally.calls += len(records)
        peer.notes.append(f"{peer.server.resident() / 1e6:,.0f} MB then")
        return [tally]

    return play


def waits(count):
    """LOCKs that wait beside so many, and the UNLOCK that grants all."""

    def play(peer):
        file = peer.connection.make(b"file")
        peer.ask(locking.locking(next(peer.xids), file, 1, 0, 100))
        numbers = itertools.count(2)

        def waiting():
            return locking.locking(next(peer.xids), file, next(numbers), 0, 100, exclusive=False, block=True)

        peer.prepare((waiting() for _ in range(count - FEW)), locking.STATUS, locking.IS_BLOCKED)
        with peer.counted() as asked:
            asked.calls = peer.prepare((waiting() for _ in range(FEW)), locking.STATUS, locking.IS_BLOCKED)
        return [asked, peer.once(locking.unlocking(next(peer.xids), file, 1, 0, 100))]

    return play


def frees(count):
    """FREE_ALL of a caller who has a range of each of so many files."""

    def play(peer):
        files = peer.made(b"file%d" % number for number in range(count))
        tally = Tally()
        for _ in range(3):
            peer.prepare((locking.locking(next(peer.xids), file, 1, 0, 100) for file in files), locking.STATUS)
            peer.once(locking.freeing(next(peer.xids), 1), tally)
        return [tally]

    return play


def spelled():
    """Spellings of `/data`, no two alike, the shorter ones first."""
    for length in range(5, 1025):
        for front in range(1, length - 3):
            yield b"/" * front + b"data" + b"/" * (length - 4 - front)


def mounted(count, paths=spelled):
    """MNT beside so many mounts, and DUMP of them."""

    def play(peer):
        few = itertools.islice(paths(), count)
        made = peer.prepare(mounts.named(next(peer.xids), mounts.MNT, path) for path in few)
        again = itertools.cycle(itertools.islice(paths(), made))

        def turn():
            peer.ask(mounts.named(next(peer.xids), mounts.MNT, next(again)))
            return 1

        def dump():
            peer.ask(nfsd.call(next(peer.xids), mounts.DUMP, b"", mounts.MOUNT))
            return 1

        return [peer.repeat(turn), peer.repeat(dump)]

    return play


def deep_mount(depth):
    """MNT of a directory that lies so deep."""

    def play(peer):
        peer.descend(depth)
        path = b"/data" + b"/d" * depth

        def turn():
            assert network.status(peer.ask(mounts.named(next(peer.xids), mounts.MNT, path))) == 0, "it is mounted"
            return 1

        return [peer.repeat(turn)]

    return play


def thin(pages):
    """READDIR and READDIRPLUS of a directory of which so many pages keep one name each."""

    def play(peer):
        names = [b"name%08d" % number for number in range(64 * pages)]
        peer.prepare(nfsd.create(next(peer.xids), name) for name in names)
        peer.prepare(nfsd.remove(next(peer.xids), name) for place, name in enumerate(names) if place % 64)
        begin = nfsd.ROOT + bytes(16)

        def turn(procedure, *bounds):
            peer.ask(nfsd.call(next(peer.xids), procedure, begin + struct.pack(f">{len(bounds)}I", *bounds)))
            return 1

        return [
            peer.repeat(lambda: turn(READDIR, 65_536)),
            peer.repeat(lambda: turn(READDIRPLUS, 65_536, 65_536)),
        ]

    return play


def made_and_removed(peer, names):
    """CREATE and REMOVE of these names in turn."""
    names = itertools.cycle(names)

    def turn():
        name = next(names)
        for make in (nfsd.create, nfsd.remove):
            assert network.status(peer.ask(make(next(peer.xids), name))) == 0, "it is made, and removed"
        return 2

    return peer.repeat(turn)


def changes(peer):
    """CREATE and REMOVE in a directory that has no other name."""
    return [made_and_removed(peer, [b"file"])]


def flood(count):
    """CREATE and REMOVE, and LOOKUP, among so many names that lie in one part of a directory."""

    def play(peer):
        names = in_one_part(count + 1)
        peer.prepare(nfsd.create(next(peer.xids), name) for name in names[1:])
        known = itertools.cycle(names[1:])

        def turn():
            peer.ask(nfsd.lookup(next(peer.xids), next(known)))
            return 1

        return [made_and_removed(peer, names[:1]), peer.repeat(turn)]

    return play


def in_one_part(count):
    """So many names that lie in one part of a directory."""
    with tempfile.TemporaryDirectory() as folder:
        made = pathlib.Path(folder) / "flood"
        if subprocess.run(["gcc", "-std=gnu99", "-O2", "-o", made, HERE / "flood.c"]).returncode != 0:
            sys.exit("others: gcc does not compile flood.c")
        told = subprocess.run([made, str(count), str(PART_BITS)], stdout=subprocess.PIPE, check=True)
    return told.stdout.split()


def loses(blocks, ends):
    """A file that has so many blocks of four bytes each, and the call that ends them."""

    def play(peer):
        file = peer.connection.make(b"file")
        peer.prepare(data.write(file, next(peer.xids), BLOCK * block, b"xxxx") for block in range(blocks))
        return [peer.once(ends(next(peer.xids), file))]

    return play


def goes(blocks):
    """What a file of so many blocks of four bytes left goes, once it is removed: what that takes in all, and how long
    others wait meanwhile."""

    def play(peer):
        file = peer.connection.make(b"file")
        peer.prepare(data.write(file, next(peer.xids), BLOCK * block, b"xxxx") for block in range(blocks))
        peer.prepare([nfsd.remove(next(peer.xids), b"file")])
        with peer.counted() as tally:
            time.sleep(GOING)
            tally.calls += 1
        return [tally]

    return play


def thinly_filled(count):
    """Files, so many, with four bytes in each of their map pages, and their REMOVEs; then what they left goes, while
    GETATTRs wait."""

    def play(peer):
        names = [b"thin%d" % number for number in range(count)]
        files = peer.made(names)
        begin = time.monotonic()
        for file in files:
            peer.prepare(data.write(file, next(peer.xids), place * BLOCK * THIN, b"xxxx") for place in range(THIN))
        peer.notes.append(f"made in {time.monotonic() - begin:.1f} s")
        with peer.counted() as removed:
            removed.calls = peer.prepare(nfsd.remove(next(peer.xids), name) for name in names)
        with peer.counted() as gone:
            time.sleep(GOING)
            gone.calls = count * THIN
        return [removed, gone]

    return play


def freed_at_once(callers, files):
    """FREE_ALLs, so many at once, each of a caller who has a range of each of so many files."""

    def play(peer):
        made = peer.made(b"file%d" % number for number in range(files))
        for caller in range(callers):
            peer.prepare((locking.locking(next(peer.xids), file, caller, caller, 1) for file in made), locking.STATUS)
        connections = [network.Connection(peer.server.port) for _ in range(callers)]
        with peer.counted() as tally:
            for caller, connection in enumerate(connections):
                connection.socket.sendall(locking.freeing(next(peer.xids), caller))
            for connection in connections:
                connection.reply()
            tally.calls = callers
        return [tally]

    return play


def removes(xid, _):
    return nfsd.remove(xid, b"file")


def cuts(xid, file):
    return nfsd.resized(xid, file, 0)


def deep_rename(depth):
    """RENAME of a directory to one that lies so deep, and back."""

    def play(peer):
        below = peer.descend(depth)
        peer.ask(nfsd.mkdir(next(peer.xids), b"moved"))

        def turn():
            for words in (nfsd.place(b"moved") + named(below, b"moved"), named(below, b"moved") + nfsd.place(b"moved")):
                reply = peer.ask(nfsd.call(next(peer.xids), nfsd.RENAME, words))
                assert network.status(reply) == 0, "it is moved"
            return 2

        return [peer.repeat(turn)]

    return play


def load(port, connections, piece, size, seconds):
    """Sends these PIECE calls, or one, over so many connections, again and again, for so long. Their replies have this
    length in all. How many, if there are PIECE."""
    connections = [network.Connection(port) for _ in range(connections)]
    until = time.monotonic() + seconds
    calls = 0
    while time.monotonic() < until:
        for connection in connections:
            connection.socket.sendall(piece)
        for connection in connections:
            connection.answer(b"", size)
        calls += PIECE * len(connections)
    return calls


def loaded(peer, connections, loaders, piece, size):
    """What is counted of so many connections, of so many processes, over which these calls are sent all the while."""
    with concurrent.futures.ProcessPoolExecutor(loaders) as processes, peer.counted() as tally:
        words = (load, peer.server.port, connections // loaders, piece, size, 2 * peer.given.seconds)
        loads = [processes.submit(*words) for _ in range(loaders)]
        tally.calls = sum(each.result() for each in loads)
    return tally


def crowd(peer):
    """Many connections that ask for the root's attributes."""
    piece = b"".join(root(xid) for xid in range(PIECE))
    return [loaded(peer, LOADED, LOADERS, piece, PIECE * nfsd.SHOWN)]


def filled(peer, name=b"file"):
    """A file of 64 KiB."""
    file = peer.connection.make(name)
    peer.prepare([data.write(file, next(peer.xids), 0, bytes(65_536))])
    return file


def reading(peer, file):
    """What is counted of READs of 64 KiB, many at once."""

    def turn():
        records = b"".join(data.read(file, next(peer.xids), 0, 65_536) for _ in range(PIECE))
        peer.connection.answer(records, PIECE * (data.DATA + 65_536))
        return PIECE

    return peer.repeat(turn)


@contextlib.contextmanager
def read_beside(peer, connections):
    """READs of 64 KiB go on over so many connections, of a process of their own."""
    if not connections:
        yield
        return
    file = filled(peer, b"read")
    words = (peer.server.port, connections, data.read(file, 1, 0, 65_536), data.DATA + 65_536, math.inf)
    reader = multiprocessing.Process(target=load, args=words, daemon=True)
    reader.start()
    try:
        yield
    finally:
        reader.terminate()
        reader.join()


def reads(peer):
    return [reading(peer, filled(peer))]


def writes(peer):
    """WRITEs of 64 KiB."""
    file = filled(peer)

    def turn():
        peer.ask(data.write(file, next(peer.xids), 0, bytes(65_536)))
        return 1

    return [peer.repeat(turn)]


def deaf(count):
    """READs of 64 KiB beside so many peers that ask for such and take no answer."""

    def play(peer):
        file = filled(peer)
        peers = [network.Connection(peer.server.port) for _ in range(count)]
        for each in peers:
            each.socket.sendall(b"".join(data.read(file, xid, 0, 65_536) for xid in range(DEAF)))
        tally = reading(peer, file)
        for each in peers:
            each.socket.close()
        return [tally]

    return play


def stopped(count):
    """The program is stopped for a while and goes on, beside so many connections over which nothing comes."""

    def play(peer):
        idle = [network.Connection(peer.server.port) for _ in range(count)]
        for connection in idle:
            connection.ask(root(next(peer.xids)))
        peer.server.process.send_signal(signal.SIGSTOP)
        time.sleep(SETTLE)
        peer.server.process.send_signal(signal.SIGCONT)
        with peer.counted() as tally:
            tally.lost = sum(not is_answered(connection, root(next(peer.xids))) for connection in idle)
            time.sleep(SETTLE)
            tally.calls = count
        peer.notes.append(f"{tally.lost} of {count} were closed")
        return [tally]

    return play


def is_answered(connection, record):
    try:
        connection.ask(record)
    except OSError:
        return False
    return True


def status_of(peer, record):
    """The status of a call. A connection that the server closes for want of memory is opened anew, and the call was
    refused."""
    try:
        return full.status(peer.ask(record))
    except OSError:
        peer.connection.socket.close()
        peer.connection = network.Connection(peer.server.port)
        return full.REFUSED


def fill(peer):
    """The names of empty files that are made until so many calls in turn are refused, or patience ends."""
    until = time.monotonic() + peer.given.patience
    made, in_turn = [], 0
    for number in itertools.count():
        name = b"full%06d" % number
        is_made = status_of(peer, nfsd.create(next(peer.xids), name)) == 0
        if is_made:
            made.append(name)
        in_turn = 0 if is_made else in_turn + 1
        if in_turn == full.IN_TURN or time.monotonic() > until:
            return made


def removed_when_full(blocks):
    """REMOVE of empty files once memory is full, and of a file of so many blocks."""

    def play(peer):
        file = peer.connection.make(b"file")
        peer.prepare(data.write(file, next(peer.xids), BLOCK * block, b"xxxx") for block in range(blocks))
        most = peer.server.resident("VmSize") + MARGIN
        resource.prlimit(peer.server.process.pid, resource.RLIMIT_AS, (most, most))
        made = fill(peer)
        peer.notes.append(f"{len(made):,} empty files were made")
        return [removing(peer, names, what) for names, what in ((made, "empty"), ([b"file"], "large"))]

    return play


def removing(peer, names, what):
    """What is counted of REMOVEs of these files, which are asked again where they are refused."""
    with peer.counted() as tally:
        for _ in range(full.AGAIN):
            tally.calls += max(1, len(names))
            names = [name for name in names if status_of(peer, nfsd.remove(next(peer.xids), name)) != 0]
            if not names:
                break
    tally.lost = len(names)
    peer.notes.append(f"{tally.lost:,} {what} files were kept")
    return tally


def idles(count):
    """Connections over which nothing comes."""

    def play(peer):
        idle = [network.Connection(peer.server.port) for _ in range(count)]
        with peer.counted() as tally:
            time.sleep(peer.given.seconds)
            tally.calls = count
        for connection in idle:
            connection.socket.close()
        return [tally]

    return play


class Use:
    """A use: a line for each thing that is counted, how it is played, the server and the other client for it, and what
    a call may take and the other client may wait at most, in milliseconds."""

    def __init__(self, lines, play, export="/data,rw,*", era=65_536, words=(), arenas="", **others):
        self.lines, self.play = lines, play
        self.export, self.words, self.arenas = export, ["--era", str(era), *words], arenas
        self.asked, self.kind = others.get("asked", root), others.get("kind", Asker)
        self.bounds, self.beside = others.get("bounds", (CALL, WAIT)), others.get("beside", 0)

    def tallies(self, program, given):
        """What was counted of this program, and what there is to say of it."""
        os.environ.pop(ARENAS, None)
        if self.arenas:
            os.environ[ARENAS] = self.arenas
        with network.Server(program, *self.words, export=self.export) as server:
            peer = Peer(server, self, given)
            try:
                with read_beside(peer, self.beside):
                    return self.play(peer), peer.notes
            finally:
                peer.close()

    def is_within(self, tallies):
        """Whether what a call took, and the longest wait, are within their bounds, and nothing was lost."""
        call, wait = self.bounds
        took, median, waited = over(tallies)
        is_late = waited > wait or self.beside and median > MEDIAN
        return not (took > call or is_late or any(tally.lost for tally in tallies))


def hosts(count):
    """An export that lets in so many hosts, those of this machine last."""
    others = [f"10.0.{number // 256}.{number % 256}" for number in range(count - 2)]
    return ",".join(["/data", "rw", *others, "127.0.0.1", NEIGHBOUR])


def silent():
    """The option by which this host is called back where it takes connections and never answers."""
    listener = socket.create_server(("127.0.0.1", 0), backlog=64)
    LISTENERS.append(listener)
    return f"--callback=127.0.0.1=127.0.0.1:{listener.getsockname()[1]}"


def uses_of_exports(part):
    yield Use(["GETATTR, one host in the export"], getattrs)
    yield Use([f"GETATTR, {1024 // part:,} hosts in the export"], getattrs, export=hosts(1024 // part))


def uses_of_locks(part):
    yield Use(["LOCK or UNLOCK beside 1 range of others"], locks(1))
    for others in (4_000 // part, 20_000 // part):
        yield Use([f"LOCK or UNLOCK beside {others:,} ranges of others"], locks(others))
    for others in (2_000 // part, 8_000 // part):
        yield Use([f"LOCK or UNLOCK beside {others:,}, owners of {LONG:,} bytes"], locks(others, LONG))
    others = 8_000 // part
    yield Use([f"TEST of {TESTERS} peers beside {others:,} such ranges"], tests(others))
    for count in (3_000 // part, 10_000 // part):
        yield Use([f"LOCK that waits beside {count:,}", f"UNLOCK that grants {count:,}"], waits(count), era=SHORT)
    yield Use([f"FREE_ALL of {5_000 // part:,} files"], frees(5_000 // part), era=SHORT)
    count = 40_000 // part
    line = f"TEST_MSG, {count:,} for a host that never answers"
    yield Use([line], messages(count), era=1_000, words=[silent()])


def uses_of_mounts(part):
    for count in (10, 20_000 // part, 65_536 // part):
        yield Use([f"MNT beside {count:,} mounts", f"DUMP of {count:,} mounts"], mounted(count))
    for count in (1_000 // part, 8_000 // part, 65_536 // part):
        lines = [f"MNT beside {count:,} of 900 bytes", f"DUMP of {count:,} of 900 bytes"]
        yield Use(lines, mounted(count, mounts.paths))
    yield Use([f"MNT of a path of {509 // part} names"], deep_mount(509 // part))


def uses_of_names(part):
    yield Use(["CREATE or REMOVE"], changes)
    names = 2_800 // part
    yield Use([f"READDIR of {names:,} names, one in a page", f"READDIRPLUS of {names:,} such names"], thin(names))
    names = 10_000 // part
    lines = [f"CREATE or REMOVE among {names:,} names of one part", f"LOOKUP among {names:,} names of one part"]
    yield Use(lines, flood(names))
    yield Use([f"RENAME of a directory to a depth of {4_000 // part:,}"], deep_rename(4_000 // part))


def uses_of_data(part):
    yield Use(["READ of 64 KiB, 16 at once"], reads)
    yield Use(["WRITE of 64 KiB"], writes)
    for blocks, bounds in ((65_536 // part, (CALL, WAIT)), (GIBIBYTE // BLOCK // part, (math.inf, math.inf))):
        for told, ends in (("REMOVE", removes), ("cut", cuts)):
            line = f"{told} of {blocks * BLOCK >> 20:,} MiB in {blocks:,} blocks"
            yield Use([line], loses(blocks, ends), era=SHORT, bounds=bounds)
        line = f"what a file of {blocks * BLOCK >> 20:,} MiB in {blocks:,} blocks left goes"
        yield Use([line], goes(blocks), bounds=(math.inf, WAIT))
    blocks = 65_536 // part
    lines = ["REMOVE of empty files, memory is full", f"REMOVE of {blocks:,} blocks, memory is full"]
    yield Use(lines, removed_when_full(blocks), era=SHORT, arenas="1")


def uses_beside_reads(part):
    """Large uses beside a few connections of READs of 64 KiB: what a call takes is not bounded, for theirs are in it."""
    words = {"bounds": (math.inf, WAIT), "beside": READERS}
    count = 10_000 // part
    lines = ["LOCK that waits, beside READs", f"UNLOCK that grants {count:,}, beside READs"]
    yield Use(lines, waits(count), **words)
    count = 65_536 // part
    yield Use(["MNT, beside READs", f"DUMP of {count:,} mounts, beside READs"], mounted(count), **words)
    files = 500 // part
    line = f"{FREEING} FREE_ALLs of {files} files at once, beside READs"
    yield Use([line], freed_at_once(FREEING, files), **words)
    blocks = GIBIBYTE // BLOCK // part
    yield Use([f"REMOVE of {blocks:,} blocks, beside READs"], loses(blocks, removes), **words)
    count = 100 // part
    lines = [f"REMOVE of {count} thin files, beside READs", f"what {count} thin files left goes, beside READs"]
    yield Use(lines, thinly_filled(count), **words)


def uses_of_connections(_):
    yield Use([f"GETATTR over {LOADED} connections"], crowd)
    yield Use(["the same, and SETATTR of the root waits"], crowd, asked=nfsd.touch)
    yield Use(["64 idle connections, and a client comes"], idles(64), kind=Comer)
    yield Use(["5 idle connections, stopped and continued"], stopped(5))
    yield Use(["READ of 64 KiB beside 80 peers that read nothing"], deaf(80), words=["--connections", "128"])


def uses(part):
    """All uses, or with this part of their sizes."""
    some = (uses_of_exports, uses_of_locks, uses_of_mounts, uses_of_names, uses_of_data)
    for each in (*some, uses_beside_reads, uses_of_connections):
        yield from each(part)


def milliseconds(figure):
    """A figure with as many digits as tell something."""
    if math.isnan(figure):
        return "-"
    if math.isinf(figure):
        return "no end"
    digits = 4 if figure < 1 else 3 if figure < 10 else 1 if figure < 1000 else 0
    return f"{figure:,.{digits}f}"


def print_line(line, cells, bounds, notes=()):
    """A line of the table: three cells for each program, and what stands of bounds."""
    cells = list(cells)
    groups = [" ".join(f"{cell:>9}" for cell in cells[first : first + 3]) for first in range(0, len(cells), 3)]
    print("   ".join([f"{line:50}", *groups, bounds, *notes]), flush=True)


def bound(figure):
    """A bound, if there is one."""
    return "-" if math.isinf(figure) else f"{figure:g}"


def options(words):
    """What the command line says, of which a script's own parser may take more."""
    words.add_argument("--only", metavar="WORD", default="", help="only those uses in whose lines this word is")
    words.add_argument("--quick", action="store_true", help="with a tenth of the sizes, for a try")
    words.add_argument("--priority", action="store_true", help="all run before other work, where that is allowed")
    words.add_argument("--rounds", metavar="N", type=int, default=1, help="how often each use is played (1)")
    words.add_argument("--seconds", metavar="S", type=float, help="how long calls are made again (1; quick: 0.3)")
    words.add_argument("--patience", metavar="S", type=float, default=60, help="how long a use is made at most (60)")
    words.add_argument("programs", metavar="PROGRAM", nargs="*", help="this one, and another (the proved one alone)")
    given = words.parse_args()
    given.programs = given.programs or [nfsd.PROGRAM]
    given.seconds = given.seconds or (0.3 if given.quick else 1.0)
    if len(given.programs) > 2:
        words.error("there are two programs at most")
    if given.priority and not turns.take_priority(1):
        words.error("real-time priority is not allowed here")
    if given.seconds <= 0 or given.patience <= 0 or given.rounds < 1:
        words.error("a time has no length, or there is no round")
    return given


def over(rounds):
    """The cells of a line over all rounds: medians, and the longest of the longest waits."""
    calls, medians, longest = zip(*(tally.cells() for tally in rounds))
    return [statistics.median(calls), statistics.median(medians), max(longest)]


def measure(given, uses):
    """Lets the programs take turns at the uses that are chosen, and prints the table."""
    chosen = [use for use in uses(10 if given.quick else 1) if any(given.only in line for line in use.lines)]
    if not chosen:
        sys.exit(f"no use has {given.only} in its line")
    for letter, program in zip("AB", given.programs):
        print(f"{letter}: {program}")
    print("milliseconds: of a processor for a call; that another client's GETATTR waits, in the median and at most\n")
    letters = "AB"[: len(given.programs)]
    heads = [f"{letter}: {cell}" for letter in letters for cell in ("a call", "waits", "most")]
    print_line("", heads, "A: bounds")
    held = [is_within for use in chosen for is_within in shown(use, given)]
    print(f"\nof {len(held)} lines {held.count(False)} are beyond their bounds (A)")


def shown(use, given):
    """Lets the programs take turns at a use, prints its lines, and tells of each whether the first keeps its bounds."""
    rounds = [[use.tallies(program, given) for program in given.programs] for _ in range(given.rounds)]
    played = list(zip(*rounds))
    for place, line in enumerate(use.lines):
        of_line = [[tallies[place] for tallies, _ in of_one] for of_one in played]
        said = [sorted({note for _, notes in of_one for note in notes}) for of_one in played]
        notes = [f"({letter}: {'; '.join(of_one)})" for letter, of_one in zip("AB", said) if of_one]
        is_within = use.is_within(of_line[0])
        bounds = f"{' '.join(f'{bound(each):>3}' for each in use.bounds)} {'holds ' if is_within else 'BEYOND'}"
        print_line(line, map(milliseconds, itertools.chain(*map(over, of_line))), bounds, notes)
        yield is_within


if __name__ == "__main__":
    measure(options(nfsd.parser(__doc__)), uses)
