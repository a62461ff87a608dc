"""Calls of NLM version 4 (RFC 1813, appendix II), and what hosts are called back by. Shared by the scripts on locks."""
import socket
import struct
import threading

NLM = 100021
TEST, LOCK, CANCEL, UNLOCK, GRANTED, TEST_MSG, GRANTED_RES = 1, 2, 3, 4, 5, 6, 15
SHARE, UNSHARE, NM_LOCK, FREE_ALL = 20, 21, 22, 23
IS_GRANTED, IS_DENIED, IS_BLOCKED = 0, 1, 3
COOKIE = struct.pack(">II", 4, 0xC00C1E00)
STATUS = 24 + len(COOKIE)  # where a reply without its mark has the status of NLM


def call(xid, procedure, arguments):
    """A call of NLM with AUTH_NONE, as one fragment."""
    body = struct.pack(">10I", xid, 0, 2, NLM, 4, procedure, 0, 0, 0, 0) + arguments
    return struct.pack(">I", 0x80000000 | len(body)) + body


def opaque(text):
    return struct.pack(">I", len(text)) + text + bytes(-len(text) % 4)


def lock(handle, who, offset, length, owner=4):
    """A lock as the caller of this number names it (nlm4_lock), with an owner of so many bytes. The handle has its
    length."""
    owner = opaque(struct.pack(">I", who).ljust(owner, b"o"))
    return opaque(b"c%d" % who) + handle + owner + struct.pack(">iQQ", who, offset, length)


def locking(xid, handle, who, offset, length, exclusive=True, block=False, owner=4):
    asked = COOKIE + struct.pack(">II", block, exclusive)
    return call(xid, LOCK, asked + lock(handle, who, offset, length, owner) + bytes(8))


def unlocking(xid, handle, who, offset, length, owner=4):
    return call(xid, UNLOCK, COOKIE + lock(handle, who, offset, length, owner))


def canceling(xid, handle, who, offset, length, exclusive=True):
    return call(xid, CANCEL, COOKIE + struct.pack(">II", 1, exclusive) + lock(handle, who, offset, length))


def testing(xid, handle, who, offset, length, exclusive=True):
    return call(xid, TEST, COOKIE + struct.pack(">I", exclusive) + lock(handle, who, offset, length))


def testing_by_message(xid, handle, who, cookie):
    """TEST_MSG, with a cookie of its own, whose result is a call of the server's."""
    return call(xid, TEST_MSG, opaque(cookie) + struct.pack(">I", True) + lock(handle, who, 0, 1))


def freeing(xid, who):
    return call(xid, FREE_ALL, opaque(b"c%d" % who) + bytes(4))


def status(reply):
    """The status of NLM in a reply without its mark."""
    return struct.unpack_from(">I", reply, STATUS)[0]


class Host:
    """A host that is called back: it listens, and answers each GRANTED with the next of these statuses, the last for
    ever."""

    def __init__(self, *statuses, address="127.0.0.1"):
        self.statuses = list(statuses)
        self.listener = socket.create_server((address, 0))
        self.port = self.listener.getsockname()[1]
        self.came = threading.Semaphore(0)
        self.calls = []
        threading.Thread(target=self.work, daemon=True).start()

    def work(self):
        while True:
            connection, _ = self.listener.accept()
            with connection:
                stream = connection.makefile("rwb")
                (mark,) = struct.unpack(">I", stream.read(4))
                record = stream.read(mark & 0x7FFFFFFF)
                reply = self.answer(record)
                stream.write(struct.pack(">I", 0x80000000 | len(reply)) + reply)
                stream.flush()
            self.calls.append(record)
            self.came.release()

    def answer(self, record):
        """The reply to a call."""
        (xid,) = struct.unpack_from(">I", record)
        cookie = record[40:52]
        answer = self.statuses[0] if len(self.statuses) == 1 else self.statuses.pop(0)
        return struct.pack(">6I", xid, 1, 0, 0, 0, 0) + cookie + struct.pack(">I", answer)

    def next(self):
        """The next call that came, once its answer was sent."""
        assert self.came.acquire(timeout=20), "the host is called back"
        return self.calls[-1]
