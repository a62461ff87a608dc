"""Records of calls, and runs of `nfsd --stdio` over them. Shared by the benchmarks of this folder.

The program is taken from crates/nfsd/out/nfsd: `rt run` in crates/nfsd builds it.
"""
import argparse
import fcntl
import os
import pathlib
import struct
import subprocess
import tempfile
import time

NFS = 100003
NULL, GETATTR, SETATTR, LOOKUP, READ, WRITE, CREATE, MKDIR, REMOVE, RMDIR, RENAME = 0, 1, 2, 3, 6, 7, 8, 9, 12, 13, 14
PROGRAM = pathlib.Path(__file__).resolve().parent.parent / "crates/nfsd/out/nfsd"
OPTIONS = ["--stdio", "--export", "/data,rw,*", "--start", "7", "--clock", "1000"]
SHOWN, FOUND, CREATED = 116, 244, 276  # the bytes of a good reply of GETATTR, LOOKUP and CREATE, with its mark
HANDLE = 36  # where the handle begins in CREATE's: behind the mark, 24 bytes of RPC, the status, and that there is one
TAKEN, RENAMED = 148, 264  # those of REMOVE and of RENAME; MKDIR has CREATE's, and RMDIR and SETATTR have REMOVE's


# The root's handle, with its length: mark, export 1, start 7, fileid 1, generation 1.
ROOT = struct.pack(">IIIQQQ", 32, 0x4E464433, 1, 7, 1, 1)


def parser(text):
    """A parser of the command line, whose --help tells what the script's own text says."""
    about, _, _ = text.partition("\nusage:")
    return argparse.ArgumentParser(description=about.strip(), formatter_class=argparse.RawDescriptionHelpFormatter)


def programs(text):
    """The programs that the command line names, if any."""
    words = parser(text)
    words.add_argument("programs", metavar="PROGRAM", nargs="*", help="programs that take turns (default: this one)")
    return words.parse_args().programs


def call(xid, procedure, arguments=b"", program=NFS):
    """A call of version 3 of a program with AUTH_NONE (RFC 5531, section 9), as one fragment."""
    body = struct.pack(">10I", xid, 0, 2, program, 3, procedure, 0, 0, 0, 0) + arguments
    return struct.pack(">I", 0x80000000 | len(body)) + body


def place(name):
    """A name in the root (RFC 1813, 3.3.3: diropargs3)."""
    return ROOT + struct.pack(">I", len(name)) + name + bytes(-len(name) % 4)


def create(xid, name, behind=b""):
    """CREATE UNCHECKED of a name in the root, with no attributes given (RFC 1813, 3.3.8), and bytes behind its
    arguments."""
    return call(xid, CREATE, place(name) + bytes(28) + behind)


def mkdir(xid, name):
    """MKDIR of a name in the root, with no attributes given (RFC 1813, 3.3.9)."""
    return call(xid, MKDIR, place(name) + bytes(24))


def remove(xid, name):
    """REMOVE of a name in the root (RFC 1813, 3.3.12)."""
    return call(xid, REMOVE, place(name))


def rmdir(xid, name):
    """RMDIR of a name in the root (RFC 1813, 3.3.13)."""
    return call(xid, RMDIR, place(name))


def touch(xid):
    """SETATTR of the root, both times to that of the server (RFC 1813, 3.3.2)."""
    return call(xid, SETATTR, ROOT + bytes(16) + struct.pack(">II", 1, 1) + bytes(4))


def resized(xid, file, size):
    """SETATTR of a file's size (RFC 1813, 3.3.2). The handle has its length."""
    return call(xid, SETATTR, file + struct.pack(">IIIIQIII", 0, 0, 0, 1, size, 0, 0, 0))


def rename(xid, old, new):
    """RENAME of a name in the root to another (RFC 1813, 3.3.14)."""
    return call(xid, RENAME, place(old) + place(new))


def lookup(xid, name):
    """LOOKUP of a name in the root (RFC 1813, 3.3.3)."""
    return call(xid, LOOKUP, place(name))


class Server:
    """A run of nfsd, on a processor of its own where there are two, that answers batches of records."""

    def __init__(self, program=PROGRAM, *options):
        self.replies = tempfile.TemporaryFile()
        self.written = 0
        self.process = subprocess.Popen(
            [program, *OPTIONS, *options], stdin=subprocess.PIPE, stdout=self.replies, preexec_fn=self.alone
        )
        fcntl.fcntl(self.process.stdin, fcntl.F_SETPIPE_SZ, 1 << 20)

    @staticmethod
    def alone():
        """The last processor is the server's."""
        os.sched_setaffinity(0, [max(os.sched_getaffinity(0))])

    def __enter__(self):
        others = os.sched_getaffinity(0) - {max(os.sched_getaffinity(0))}
        if others:
            os.sched_setaffinity(0, others)
        return self

    def __exit__(self, *error):
        self.process.stdin.close()
        status = self.process.wait()
        os.sched_setaffinity(0, range(os.cpu_count()))
        assert status == 0 or error[0], "the server ends well"

    def answer(self, records, reply_bytes):
        """The seconds that it needs for these records. Its replies have this length in all."""
        records = b"".join(records)
        self.written += reply_bytes
        begin = time.perf_counter()
        self.process.stdin.write(records)
        self.process.stdin.flush()
        while os.fstat(self.replies.fileno()).st_size < self.written:
            assert self.process.poll() is None, "the server runs"
        passed = time.perf_counter() - begin
        assert os.fstat(self.replies.fileno()).st_size == self.written, "each call is answered, and none is refused"
        return passed

    def make(self, name):
        """Makes a file in the root, and gives its handle, with its length, as the reply has it."""
        begin = self.written
        self.answer([create(0, name)], CREATED)
        return os.pread(self.replies.fileno(), len(ROOT), begin + HANDLE)

    def resident(self):
        """The bytes of memory that it has at present."""
        status = pathlib.Path(f"/proc/{self.process.pid}/status").read_text()
        line = next(line for line in status.splitlines() if line.startswith("VmRSS:"))
        return int(line.split()[1]) * 1024


def seconds(records, reply_bytes):
    """The seconds that nfsd needs for these records, from its start to its end. Its replies have this length in all."""
    with tempfile.TemporaryFile() as calls, tempfile.TemporaryFile() as replies:
        calls.writelines(records)
        calls.seek(0)
        begin = time.perf_counter()
        subprocess.run([PROGRAM, *OPTIONS], stdin=calls, stdout=replies, check=True)
        passed = time.perf_counter() - begin
        assert replies.seek(0, 2) == reply_bytes, "each call is answered, and none is refused"
    return passed


def compare(programs, turns, measure, line):
    """Prints the best rates of so many turns, each thing that is measured and each program on a line; of several
    programs also how many times as quick as the first each is. `measure(program)` gives the rates by the names of the
    things."""
    programs = programs or [PROGRAM]
    best = {}
    for _ in range(turns):
        for program in programs:
            for what, rate in measure(program).items():
                best[what, program] = max(rate, best.get((what, program), 0))
    for (what, program), rate in sorted(best.items(), key=lambda item: item[0][0]):
        ratio = f", {rate / best[what, programs[0]]:.2f} times the first" if len(programs) > 1 else ""
        print(f"{line(what, rate)}{ratio} ({program})")
