#!/usr/bin/env python3
"""Tries nfsd with a memory that is full: under a limit of its address space files are made until 100 calls in turn are
refused; then each of them is removed, and as many are made again. It says what was made, refused, removed and made
again, and ends with 1 where a file could not be removed or less than half came again.

Then the other calls that only free are tried, each on a server of its own over TCP, whose memory is filled so behind
what they are to free: RMDIR, SETATTR to a smaller size, UNLOCK, CANCEL, FREE_ALL, UMNT and UMNTALL.

What is refused is asked again, up to ten times in all, a second apart. Over TCP a connection that the server closes for
want of memory is opened anew, and counts as a refusal.

usage: bench/full.py [--only WORD] [PROGRAM]
"""
import itertools
import os
import resource
import struct
import subprocess
import sys
import time
import typing

import locking
import mounts
import network
import nfsd

MEBIBYTE = 1 << 20
PIECE = 64  # calls that are sent at once, which are as many as an era has
IN_TURN = 100  # refusals in turn that tell of a full memory
AGAIN, PAUSE = 10, 1.0  # how often and how far apart what was refused is asked again
DATA = bytes(range(256)) * 128
MOST = 200_000  # files that are made at most
MARGIN = 16 * MEBIBYTE  # the address space that a server gets whose memory is filled behind what is to be freed
ACCEPTED = 20  # where a reply without its mark tells whether RPC has accepted the call
OK, REFUSED = 0, 10008  # NFS3_OK and NFS3ERR_JUKEBOX


class Ended(Exception):
    """The program ended."""


def status(reply):
    """The status of NFS in a reply without its mark. A call that RPC refused, or that has no reply, was refused."""
    return network.status(reply) if len(reply) > network.STATUS else REFUSED


def void(reply):
    """The same of a call without results: it is done where RPC has accepted it (RFC 5531, section 9)."""
    return OK if reply[ACCEPTED:] == bytes(4) else REFUSED


def locked(reply):
    """The same of a call of NLM: what it asks for is granted."""
    told = len(reply) > locking.STATUS and locking.status(reply) == locking.IS_GRANTED
    return OK if told else REFUSED


def write(xid, file, offset=0):
    """WRITE of 32 KiB, UNSTABLE (RFC 1813, 3.3.7)."""
    return nfsd.call(xid, nfsd.WRITE, file + struct.pack(">QIII", offset, len(DATA), 0, len(DATA)) + DATA)


def limit(pid, size):
    """From now on the process has so many bytes of address space at most."""
    resource.prlimit(pid, resource.RLIMIT_AS, (size, size))


class Stream:
    """A run of nfsd over standard streams."""

    def __init__(self, program, size):
        self.process = subprocess.Popen(
            [program, *nfsd.OPTIONS, "--era", str(PIECE)], stdin=subprocess.PIPE, stdout=subprocess.PIPE
        )
        limit(self.process.pid, size)

    def close(self):
        self.process.stdin.close()
        return self.process.wait()

    def replies(self, records):
        """The replies to these calls. None of those behind the end of the program."""
        self.process.stdin.write(b"".join(records))
        self.process.stdin.flush()
        for _ in records:
            mark = self.process.stdout.read(4)
            if len(mark) < 4:
                raise Ended(f"the program ends with {self.process.wait()}")
            yield self.process.stdout.read(struct.unpack(">I", mark)[0] & 0x7FFFFFFF)


class Listener:
    """A run of nfsd over TCP, with one connection at a time."""

    def __init__(self, program, size):
        self.server = network.Server(program, "--era", str(PIECE))
        self.connection = network.Connection(self.server.port)
        limit(self.server.process.pid, size)

    def close(self):
        self.server.__exit__(None)
        return 0

    def replies(self, records):
        """The replies to these calls, one after the other: none to one whose connection was closed."""
        for record in records:
            try:
                yield self.connection.ask(record)
            except OSError:
                yield b""
                self.connection.socket.close()
                self.connection = network.Connection(self.server.port)


class Peer:
    """One who makes files and removes them."""

    def __init__(self, server, data):
        self.server, self.data = server, data
        self.xid = 0
        self.refusals = 0

    def asked(self, make, names, status=status):
        """The statuses of the calls that are made for these names, with their replies."""
        records = []
        for each in names:
            self.xid += 1
            records.append(make(self.xid, each))
        for reply in self.server.replies(records):
            told = status(reply)
            self.refusals += told != OK
            yield told, reply

    def written(self, reply):
        """Whether a file that was made has its data, which it gets only where it has any."""
        if not self.data:
            return True
        file = reply[network.FILE : network.FILE + network.NODE]
        return all(told == OK for told, _ in self.asked(lambda xid, _: write(xid, file), [b""]))

    def fill(self, letter, most):
        """The names that were made, which begin with this letter, until so many calls in turn are refused."""
        made, in_turn, first = [], 0, 0
        while in_turn < IN_TURN and len(made) < most:
            names = [b"%s%06d" % (letter, first + place) for place in range(1 if self.data else PIECE)]
            first += len(names)
            for each, (told, reply) in zip(names, list(self.asked(nfsd.create, names))):
                if told == OK:
                    made.append(each)
                in_turn = 0 if told == OK and self.written(reply) else in_turn + 1
        return made

    def all(self, make, names, status=status):
        """The names of which the call is refused to the end; and of how many it was when first asked."""
        first, left = None, names
        for turn in range(AGAIN):
            if not left:
                break
            if turn:
                time.sleep(PAUSE)
            refused = []
            for begin in range(0, len(left), PIECE):
                part = left[begin : begin + PIECE]
                refused += [each for each, (told, _) in zip(part, list(self.asked(make, part, status))) if told != OK]
            first = len(refused) if first is None else first
            left = refused
        return left, first or 0


def played(server, data):
    """Whether all files that were made could be removed, and as many made again. Tells how many these are."""
    peer = Peer(server, data)
    made = peer.fill(b"s", MOST)
    tell(f"{len(made):,} files made, {peer.refusals:,} calls refused")
    left, first = peer.all(nfsd.remove, made)
    tell(f"; {len(made) - len(left):,} removed, {first:,} refused when first asked")
    again = len(peer.fill(b"t", len(made)))
    tell(f"; {again:,} made again")
    status = server.close()
    tell(f"; the program ends with {status}")
    return made and not left and again * 2 >= len(made) and status == 0


def is_emptied(what, server, data):
    """The same, where the program does not end before."""
    tell(f"{what}: ")
    try:
        return played(server, data)
    except Ended as end:
        tell(f"; {end}")
        return False
    finally:
        print()


class Freeing(typing.NamedTuple):
    """Calls that only free: how one is made for a name, for which names, and how its reply is read."""

    make: typing.Callable
    names: list
    status: typing.Callable


def directories(connection):
    names = [b"d%06d" % number for number in range(PIECE)]
    for name in names:
        connection.ask(nfsd.mkdir(0, name))
    return Freeing(nfsd.rmdir, names, status)


def sizes(connection):
    """Files of 32 blocks, which are cut to one byte."""
    files = [connection.make(b"c%06d" % number) for number in range(PIECE)]
    for file in files:
        for offset in range(0, 4 * len(DATA), len(DATA)):
            connection.ask(write(0, file, offset))
    return Freeing(lambda xid, file: nfsd.resized(xid, file, 1), files, status)


def ranges(connection):
    """Ranges of one file that are locked by different callers."""
    file = connection.make(b"file")
    callers = list(range(1, PIECE + 1))
    for who in callers:
        connection.ask(locking.locking(0, file, who, 2 * who, 1))
    return file, callers


def unlocked(connection):
    file, callers = ranges(connection)
    return Freeing(lambda xid, who: locking.unlocking(xid, file, who, 2 * who, 1), callers, locked)


def canceled(connection):
    """Requests that wait for a range that another has."""
    file, callers = ranges(connection)
    connection.ask(locking.locking(0, file, 0, 1000, 1))
    for who in callers:
        connection.ask(locking.locking(0, file, who, 1000, 1, block=True))
    return Freeing(lambda xid, who: locking.canceling(xid, file, who, 1000, 1), callers, locked)


def freed(connection):
    _, callers = ranges(connection)
    return Freeing(locking.freeing, callers, void)


def mounted(connection):
    paths = list(itertools.islice(mounts.paths(), PIECE))
    for path in paths:
        connection.ask(mounts.named(0, mounts.MNT, path))
    return paths


def unmounted(connection):
    return Freeing(lambda xid, path: mounts.named(xid, mounts.UMNT, path), mounted(connection), void)


def all_unmounted(connection):
    mounted(connection)
    return Freeing(lambda xid, _: nfsd.call(xid, mounts.UMNTALL, program=mounts.MOUNT), [b""], void)


def are_freed(what, program, prepare):
    """Whether such calls are done to the end once memory is full."""
    server = Listener(program, resource.RLIM_INFINITY)
    freeing = prepare(server.connection)
    limit(server.server.process.pid, server.server.resident("VmSize") + MARGIN)
    peer = Peer(server, False)
    tell(f"{what}, behind {len(peer.fill(b's', MOST)):,} empty files: {len(freeing.names)} called")
    left, first = peer.all(*freeing)
    print(f"; {first} refused when first asked, {len(left)} to the end")
    server.close()
    return not left


def tell(text):
    print(text, end="", flush=True)


def main():
    words = nfsd.parser(__doc__)
    words.add_argument("--only", metavar="WORD", default="", help="only those whose line has this word")
    words.add_argument("program", metavar="PROGRAM", nargs="?", default=nfsd.PROGRAM, help="the program (this one)")
    given = words.parse_args()
    # The C library keeps no memory apart for each thread.
    os.environ["MALLOC_ARENA_MAX"] = "1"
    plays = [
        ("standard streams, 16 MiB, empty files", Stream, 16, False),
        ("TCP, 80 MiB, empty files", Listener, 80, False),
        ("TCP, 100 MiB, files of 32 KiB", Listener, 100, True),
        ("TCP, 108 MiB, files of 32 KiB", Listener, 108, True),
        ("TCP, 184 MiB, files of 32 KiB", Listener, 184, True),
    ]
    good = [
        is_emptied(what, make(given.program, size * MEBIBYTE), data)
        for what, make, size, data in plays
        if given.only in what
    ]
    frees = [
        ("RMDIR", directories),
        ("SETATTR to a smaller size", sizes),
        ("UNLOCK", unlocked),
        ("CANCEL", canceled),
        ("FREE_ALL", freed),
        ("UMNT", unmounted),
        ("UMNTALL", all_unmounted),
    ]
    good += [are_freed(what, given.program, prepare) for what, prepare in frees if given.only in what]
    if not all(good):
        sys.exit("a full memory is not emptied")


if __name__ == "__main__":
    main()
