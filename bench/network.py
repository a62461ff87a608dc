"""Runs of nfsd on a port of the system's choice, and connections to it. Shared by the benchmarks of this folder."""
import pathlib
import re
import socket
import struct
import subprocess
import sys
import time

import nfsd

STATUS = 24  # where a reply without its mark has the status of NFS
FILE = 32  # where that of CREATE and MKDIR has the handle, with its length
NODE = 36  # the bytes of a handle with its length
BODY = 116  # where that of READ and READDIR goes on, behind the attributes


class Server:
    """A run of nfsd that listens; where it is operated, with the pipes of `--control`."""

    def __init__(self, program, *options, export="/data,rw,*", operated=False, at="127.0.0.1"):
        words = [program, "--tcp", f"{at}:0", "--export", export, "--start", "7", *options]
        pipe = subprocess.PIPE if operated else None
        self.process = subprocess.Popen(words, stdin=pipe, stdout=pipe, stderr=subprocess.PIPE)
        self.operator, self.answers = self.process.stdin, self.process.stdout
        said = self.process.stderr.readline().decode()
        port = re.search(r":(\d+) \(TCP\)", said)
        if not port:
            self.process.kill()
            sys.exit(f"{program} does not listen: {said.strip() or 'it says nothing'}")
        self.port = int(port[1])

    def __enter__(self):
        return self

    def __exit__(self, *error):
        runs = self.process.poll() is None
        self.process.terminate()
        self.process.wait()
        assert runs or error[0], "the server runs to the end"

    def resident(self, of="VmRSS"):
        """The bytes of memory that it has at present."""
        status = pathlib.Path(f"/proc/{self.process.pid}/status").read_text()
        return int(re.search(rf"{of}:\s+(\d+)", status)[1]) * 1024

    def used(self):
        """The seconds of a processor that it has used, by its process's clock."""
        return time.clock_gettime(~self.process.pid << 3 | 2)


class Connection:
    """A connection to a port of this machine, from this address, or of another."""

    def __init__(self, port, address="127.0.0.1", patience=60, to="127.0.0.1"):
        self.socket = socket.create_connection((to, port), patience, (address, 0))
        self.socket.setsockopt(socket.IPPROTO_TCP, socket.TCP_NODELAY, 1)
        self.came = bytearray()

    def take(self, count):
        """The next bytes that come."""
        while len(self.came) < count:
            piece = self.socket.recv(1 << 18)
            if not piece:
                raise ConnectionError("the server closed the connection")
            self.came += piece
        taken = bytes(self.came[:count])
        del self.came[:count]
        return taken

    def reply(self):
        """The next reply, without its mark."""
        (mark,) = struct.unpack(">I", self.take(4))
        return self.take(mark & 0x7FFFFFFF)

    def ask(self, record):
        """The reply to a call, where no other is in progress."""
        self.socket.sendall(record)
        return self.reply()

    def answer(self, records, reply_bytes):
        """The seconds until these records are answered. Their replies have this length in all."""
        begin = time.perf_counter()
        self.socket.sendall(records)
        left = reply_bytes - len(self.came)
        self.came.clear()
        while left > 0:
            piece = self.socket.recv(min(left, 1 << 18))
            if not piece:
                raise ConnectionError("the server closed the connection")
            left -= len(piece)
        return time.perf_counter() - begin

    def make(self, name):
        """Makes a file in the root, and gives its handle, with its length."""
        reply = self.ask(nfsd.create(0, name))
        assert status(reply) == 0, "the file is made"
        return reply[FILE : FILE + NODE]


def status(reply):
    """The status of NFS in a reply without its mark."""
    return struct.unpack_from(">I", reply, STATUS)[0]
