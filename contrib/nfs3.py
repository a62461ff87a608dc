"""Calls of NFS version 3, MOUNT version 3 and NLM version 4 (RFC 1813) over a TCP connection (RFC 5531). Shared by
`nfsadm` and `carry`, which stand in the same folder. Python's standard library alone."""
import argparse
import collections
import contextlib
import itertools
import random
import socket
import struct
import time

NFS, MOUNT, NLM = (100003, 3), (100005, 3), (100021, 4)  # programs with their versions

# Procedures of NFS, MOUNT and NLM.
NULL, SETATTR, LOOKUP, ACCESS, READLINK, READ, WRITE, CREATE, MKDIR, SYMLINK, MKNOD = 0, 2, 3, 4, 5, 6, 7, 8, 9, 10, 11
GETATTR, REMOVE, LINK, READDIRPLUS, FSSTAT = 1, 12, 15, 17, 18
MNT, DUMP, UMNT, EXPORT = 1, 2, 3, 5
FREE_ALL = 23

REGULAR, DIRECTORY, BLOCK, CHARACTER, SYMBOLIC, SOCKET, FIFO = 1, 2, 3, 4, 5, 6, 7  # types of objects
FILE_SYNC = 2
MODIFY, EXTEND = 4, 8  # rights of ACCESS
STATUSES = {
    1: "PERM", 2: "NOENT", 5: "IO", 6: "NXIO", 13: "ACCES", 17: "EXIST", 18: "XDEV", 19: "NODEV", 20: "NOTDIR",
    21: "ISDIR", 22: "INVAL", 27: "FBIG", 28: "NOSPC", 30: "ROFS", 31: "MLINK", 63: "NAMETOOLONG", 66: "NOTEMPTY",
    69: "DQUOT", 70: "STALE", 10001: "BADHANDLE", 10002: "NOT_SYNC", 10003: "BAD_COOKIE", 10004: "NOTSUPP",
    10005: "TOOSMALL", 10006: "SERVERFAULT", 10007: "BADTYPE", 10008: "JUKEBOX",
}  # fmt: skip
NOENT, EXIST, NOTDIR, JUKEBOX = 2, 17, 20, 10008

ACCEPTED = {1: "PROG_UNAVAIL", 2: "PROG_MISMATCH", 3: "PROC_UNAVAIL", 4: "GARBAGE_ARGS", 5: "SYSTEM_ERR"}

LAST_FRAGMENT = 0x80000000
IN_PROGRESS = 16  # calls at once on a connection
MOST_BYTES = 1 << 27  # of a reply: DUMP, of 65,536 mounts, is answered whole
DEFAULT_PLACE = ("127.0.0.1", 2049)


class Refused(Exception):
    """What the server refused, or did not do."""


class Failed(Refused):
    """A call that has another status than OK."""

    def __init__(self, status, what=""):
        self.status = status
        super().__init__(f"{what}{': ' * bool(what)}{STATUSES.get(status, f'status {status}')}")


def opaque(data):
    return struct.pack(">I", len(data)) + data + bytes(-len(data) % 4)


class Items:
    """The items of a reply in turn. One that is too short is refused."""

    def __init__(self, record):
        self.record, self.place = record, 0

    def take(self, count):
        if self.place + count > len(self.record):
            raise Refused("a reply is too short")
        taken = self.record[self.place : self.place + count]
        self.place += count
        return taken

    def words(self, count):
        return struct.unpack(f">{count}I", self.take(4 * count))

    def word(self):
        return self.words(1)[0]

    def hyper(self):
        return struct.unpack(">Q", self.take(8))[0]

    def opaque(self, most):
        length = self.word()
        if length > most:
            raise Refused("an item of a reply is too long")
        found = self.take(length)
        self.take(-length % 4)
        return found

    def each(self):
        """Goes on as long as one more of a list follows."""
        while self.word():
            yield self

    def handle(self):
        return self.opaque(64)

    def attributes(self):
        return Attributes(self)

    def attributes_if_any(self):
        return Attributes(self) if self.word() else None

    def around(self):
        """Steps over the attributes of before and after a change (wcc_data)."""
        if self.word():
            self.take(24)
        self.attributes_if_any()


class Attributes:
    """What an object is (fattr3)."""

    def __init__(self, items):
        self.type, self.mode, self.links, self.uid, self.gid = items.words(5)
        self.size, self.used = items.hyper(), items.hyper()
        self.device = items.words(2)
        self.fsid, self.fileid = items.hyper(), items.hyper()
        times = items.words(6)
        self.accessed, self.modified, _ = zip(times[::2], times[1::2])  # seconds and nanoseconds


def attributes_to_set(mode=None, uid=None, gid=None, size=None, accessed=None, modified=None):
    """sattr3: None is left as it is; times are pairs of seconds and nanoseconds."""
    parts = [struct.pack(">I", 0) if value is None else struct.pack(">II", 1, value) for value in (mode, uid, gid)]
    parts.append(struct.pack(">I", 0) if size is None else struct.pack(">IQ", 1, size))
    for moment in (accessed, modified):
        parts.append(struct.pack(">I", 0) if moment is None else struct.pack(">III", 2, *moment))
    return b"".join(parts)


class Server:
    """A connection to a server, on which calls are made in the name of uid 0, as the server believes users."""

    def __init__(self, place, patience=60):
        self.place, self.patience = place, patience
        self.xids = itertools.count(random.getrandbits(31))
        self.mounted = []
        self.early = {}  # replies that came before their turn, by their transaction ids
        machine = socket.gethostname().encode()[:255]
        body = bytes(4) + opaque(machine) + bytes(12)  # AUTH_SYS: stamp, machine, uid, gid, no further gids
        self.credential = struct.pack(">I", 1) + opaque(body) + bytes(8)
        with self.faults_told():
            self.socket = socket.create_connection(place, patience)
            self.socket.setsockopt(socket.IPPROTO_TCP, socket.TCP_NODELAY, 1)
            self.stream = self.socket.makefile("rb", 1 << 18)

    def __enter__(self):
        return self

    def __exit__(self, *_):
        with contextlib.suppress(Refused):
            self.unmount()
        self.socket.close()

    @contextlib.contextmanager
    def faults_told(self):
        try:
            yield
        except OSError as fault:
            raise Refused(f"{shown(self.place)}: {fault.strerror or fault}") from None

    def send(self, program, procedure, arguments):
        """Sends a call. Its transaction id."""
        xid = next(self.xids) & 0xFFFFFFFF
        record = struct.pack(">6I", xid, 0, 2, *program, procedure) + self.credential + arguments
        with self.faults_told():
            self.socket.sendall(struct.pack(">I", LAST_FRAGMENT | len(record)) + record)
        return xid

    def taken(self, count):
        """So many bytes that come next."""
        with self.faults_told():
            piece = self.stream.read(count)
        if len(piece) < count:
            raise Refused(f"{shown(self.place)} closes the connection")
        return piece

    def record(self):
        """The next record, in whatever fragments it comes."""
        record, mark = b"", 0
        while not mark & LAST_FRAGMENT:
            (mark,) = struct.unpack(">I", self.taken(4))
            if len(record) + (mark & ~LAST_FRAGMENT) > MOST_BYTES:
                raise Refused("a reply is too large")
            record += self.taken(mark & ~LAST_FRAGMENT)
        return record

    def reply(self, xid):
        """The reply to the call with this transaction id. Others that come before it are kept for their turns."""
        while xid not in self.early:
            record = self.record()
            self.early[Items(record).word()] = record
        return self.early.pop(xid)

    def results(self, xid):
        """The results in the reply to the call with this transaction id."""
        items = Items(self.reply(xid))
        _, kind, denied = items.words(3)
        if kind != 1 or denied:
            raise Refused("the call is denied")
        items.word()
        items.opaque(400)
        accepted = items.word()
        if accepted:
            raise Refused(f"the call is refused with {ACCEPTED.get(accepted, accepted)}")
        return items

    def call(self, program, procedure, arguments=b""):
        """The results of a call."""
        return self.results(self.send(program, procedure, arguments))

    def each(self, procedure, lists):
        """The results of calls of NFS with these arguments, in turn, of which some are in progress at once. Each begins
        with its status."""
        waiting = collections.deque()
        for arguments in lists:
            waiting.append((self.send(NFS, procedure, arguments), arguments))
            if len(waiting) == IN_PROGRESS:
                yield self.settled(procedure, *waiting.popleft())
        while waiting:
            yield self.settled(procedure, *waiting.popleft())

    def settled(self, procedure, xid, arguments):
        """The results of a call that was sent, which is made again for some time where the server is out of memory
        (JUKEBOX)."""
        until = time.monotonic() + self.patience
        while True:
            items = self.results(xid)
            if items.record[items.place : items.place + 4] != struct.pack(">I", JUKEBOX):
                return items
            if time.monotonic() > until:
                raise Refused(f"the server answers JUKEBOX for {self.patience} seconds: its memory is full")
            time.sleep(1)
            xid = self.send(NFS, procedure, arguments)

    def nfs(self, procedure, arguments, what=""):
        """The results, after their status, of a call of NFS that has to be OK."""
        return ok(self.settled(procedure, self.send(NFS, procedure, arguments), arguments), what)

    # Of MOUNT, and what a root tells.

    def mount(self, path):
        """The handle of what this path leads to."""
        # (nfsd skips the empty part before it, and lists it apart from what this host's kernel mounts)
        handle = ok(self.call(MOUNT, MNT, opaque(b"/" + path)), f"MNT of {told(path)}").handle()
        self.mounted.append(b"/" + path)
        return handle

    def unmount(self):
        """Takes away what MNT has put into the list of mounts."""
        while self.mounted:
            self.call(MOUNT, UMNT, opaque(self.mounted.pop()))

    def exports(self):
        """The paths that are exported, in order, each with its hosts; none where everybody is admitted."""
        items = self.call(MOUNT, EXPORT)
        return {each.opaque(1024): [host.opaque(255) for host in each.each()] for each in items.each()}

    def mounts(self):
        """Who mounted what, in order."""
        return [(each.opaque(255), each.opaque(1024)) for each in self.call(MOUNT, DUMP).each()]


def ok(items, what=""):
    """The results after their status, which has to be OK."""
    status = items.word()
    if status:
        raise Failed(status, what)
    return items


def told(name):
    """A name or a path in words: what is no text is shown by its bytes, and what a terminal would take for more than
    text as well."""
    text = name.decode(errors="backslashreplace")
    return "".join(each if each.isprintable() else repr(each)[1:-1] for each in text)


def shown(place):
    return f"[{place[0]}]:{place[1]}" if ":" in place[0] else f"{place[0]}:{place[1]}"


def place_of(text):
    """HOST, HOST:PORT, or [ADDR]:PORT."""
    host, colon, port = text.rpartition(":")
    if text.endswith("]") or not colon:
        host, port = text, str(DEFAULT_PLACE[1])
    host = host.removeprefix("[").removesuffix("]")
    if not host or not port.isdecimal() or not 0 < int(port) < 65536:
        raise argparse.ArgumentTypeError(f"{text or 'nothing'} is not HOST:PORT")
    return host, int(port)


def parser(text):
    """A parser of the command line, whose --help tells what the script's own text says."""
    about, _, _ = text.partition("\nusage:")
    words = argparse.ArgumentParser(description=about.strip(), formatter_class=argparse.RawDescriptionHelpFormatter)
    words.add_argument("--server", metavar="HOST[:PORT]", type=place_of, default=DEFAULT_PLACE,
                       help=f"where nfsd listens over TCP ({shown(DEFAULT_PLACE)})")
    return words
