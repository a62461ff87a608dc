#!/usr/bin/env python3
"""Tries contrib/nfsadm beside nfsd: what it tells of one that runs, a lock that it frees, exports that it changes, with
answers from a file, a socket and the journal, files of exports that it refuses, and counts as Prometheus reads them.

usage: bench/admin.py [PROGRAM]
"""
import contextlib
import os
import pathlib
import re
import socket
import struct
import subprocess
import tempfile
import threading
import time

import locking
import network
import nfsd

NFSADM = pathlib.Path(__file__).resolve().parent.parent / "contrib/nfsadm"
ELSEWHERE = "192.0.2.1"  # an address of no host (RFC 5737)
REFUSED_FILES = {  # each with a word of what is told of it
    "/data": "without a host",
    "data *(rw)": "no path of an export",
    "/a/../b *": "no path of an export",
    "/a,b *": "no path of an export",
    "/a 10.0.0.0/8(rw)": "has more than 1024 hosts",
    "/a 10.0.0.1/24(rw)": "no network",
    "/a 10.0.0.0/22(rw) 10.0.4.0/22(rw)": "at most 1024",
    "/a 10.0.0.1(rw) 10.0.0.2(ro)": "one mode",
    "/a *(rw,root_squash)": "does not do root_squash",
    "/a *(rw,sec=krb5p)": "does not do sec=krb5p",
    "/a @hosts(rw)": "netgroups",
    "/a *.example(rw)": "netgroups",
    "/a no-such-name.invalid(rw)": "has no address",
    "/a *\n/b *\n/a *": "line 3: /a is named twice",
    'one "/a': "line 1",
    "\n".join(f"/e{number} *" for number in range(65)): "at most 64",
}


class Server:
    """A run of nfsd that reads lines from a pipe and answers into a file."""

    def __init__(self, program, folder, *exports, place="127.0.0.1:0", more=()):
        self.lines, self.answers, self.log = folder / "lines", folder / "answers", folder / "log"
        os.mkfifo(self.lines)
        # (a pipe that is open for both is opened without waiting for who writes, and never ends)
        lines = os.open(self.lines, os.O_RDWR)
        words = [program, "--tcp", place, "--control", "--stats", "1", *more]
        words += [word for export in exports for word in ("--export", export)]
        with open(self.answers, "wb") as answers, open(self.log, "wb") as log:
            self.process = subprocess.Popen(words, stdin=lines, stdout=answers, stderr=log)
        os.close(lines)
        while not (port := re.search(r":(\d+) \(TCP\)", self.log.read_text())):
            assert self.process.poll() is None, self.log.read_text()
            time.sleep(0.02)
        self.port = int(port[1])

    def __enter__(self):
        return self

    def __exit__(self, *error):
        self.process.terminate()
        self.process.wait()

    def run(self, *words, environment=None):
        """What nfsadm says, with its status."""
        command = [NFSADM, "--server", f"127.0.0.1:{self.port}", *map(str, words)]
        told = subprocess.run(command, stdout=subprocess.PIPE, stderr=subprocess.PIPE, text=True, env=environment)
        return told.returncode, told.stdout + told.stderr

    def told(self, *words, **how):
        """What nfsadm says, which has to end well."""
        status, said = self.run(*words, **how)
        assert status == 0, said
        return said

    def refused(self, *words, **how):
        """What nfsadm says, which has to refuse that."""
        status, said = self.run(*words, **how)
        assert status == 1 and "\nnfsadm: " in "\n" + said, said
        return said

    def apply(self, *words):
        return "apply", *words, "--control", self.lines, "--answers", self.answers

    def exports(self):
        return self.told("exports").splitlines()


def tells(server):
    """What it tells of a server that runs."""
    assert [line.partition(":")[0] for line in server.told("ping").splitlines()] == [
        "NFS version 3", "MOUNT version 3", "NLM version 4",
    ]  # fmt: skip
    assert server.exports() == ["/data rw *", "/tools ro 127.0.0.1", f"/other ? {ELSEWHERE}"]
    assert server.told("mounts") == "", "what it mounts to learn a mode it unmounts"
    connection = network.Connection(server.port)
    connection.ask(nfsd.call(1, 1, locking.opaque(b"/data/"), program=100005))
    assert server.told("mounts") == "127.0.0.1 /data/\n"
    assert "ACCES" in server.told("df").splitlines()[3]
    before = server.told("df", "/data").split()
    root = root_of(connection, b"/data")
    handle = made(connection, root, b"file")
    written = struct.pack(">QIII", 0, 10_000, 2, 10_000) + bytes([1]) * 10_000
    connection.ask(nfsd.call(3, nfsd.WRITE, handle + written))
    after = server.told("df", "/data").split()
    used, files = (int(text.replace(",", "")) for text in (after[-3], after[-1]))
    assert (used, files) == (4096 + 12_288, 2) and before[-1] == "1", after
    print("ping, exports, mounts, df: as they are")
    return connection, root, handle


def root_of(connection, path):
    """The handle, with its length, that MNT gives."""
    reply = connection.ask(nfsd.call(1, 1, locking.opaque(path), program=100005))
    assert network.status(reply) == 0
    return reply[28 : 28 + network.NODE]


def made(connection, root, name):
    """The handle, with its length, of a new file."""
    reply = connection.ask(nfsd.call(2, nfsd.CREATE, root + locking.opaque(name) + bytes(28)))
    assert network.status(reply) == 0
    return reply[network.FILE : network.FILE + network.NODE]


def stands(connection, handle):
    """Whether a handle names a file."""
    return network.status(connection.ask(nfsd.call(4, nfsd.GETATTR, handle))) == 0


def frees(server, connection, handle):
    """A lock of a caller that is gone is freed."""
    assert locking.status(connection.ask(locking.locking(5, handle, 1, 0, 0))) == locking.IS_GRANTED
    assert locking.status(connection.ask(locking.locking(6, handle, 2, 0, 0))) == locking.IS_DENIED
    server.told("free", "c1")
    assert locking.status(connection.ask(locking.locking(7, handle, 2, 0, 0))) == locking.IS_GRANTED
    print("free: another gets the lock")


def changes(server, connection, handle, folder):
    """Exports that change as a file says, and none that goes unasked."""
    file = folder / "exports"
    file.write_text(
        "# as of /etc/exports\n/data 127.0.0.1(rw,no_root_squash) \\\n  10.0.0.0/30(rw)\n"
        '"/with space" -ro,sync localhost *\n/octal\\040too *()\n'
    )
    shown = server.told(*server.apply(file, "--show"))
    assert "- /tools ro 127.0.0.1: ALL ITS FILES GO\n" in shown and "+ /with space ro *\n" in shown
    assert "~ /data admits 127.0.0.1 10.0.0.1 10.0.0.2, shuts out *\n" in shown
    said = server.refused(*server.apply(file))
    assert "all files of /tools and /other would go" in said
    assert len(server.exports()) == 3 and stands(connection, handle), "nothing changes unasked"
    assert server.told(*server.apply(file, "--drop")).endswith("\napplied\n")
    now = server.exports()
    assert now[0] == "/data rw 127.0.0.1 10.0.0.1 10.0.0.2" and now[2] == "/octal too ro *" and len(now) == 3
    assert now[1] == "/with space ro *" and stands(connection, handle), "a path that stays keeps its files"
    file.write_text(file.read_text().replace("rw", "ro"))
    assert "~ /data rw -> ro\n" in server.told(*server.apply(file))
    assert server.exports()[0].startswith("/data ro ")
    file.write_text("")
    assert "would go" in server.refused(*server.apply(file)), "an empty file is no slip of the pen"
    print("apply: shows, keeps, refuses to drop unasked, drops when told")


def refuses_files(server, folder):
    """Files that are none of exports change nothing."""
    before, file = server.exports(), folder / "refused"
    for text, reason in REFUSED_FILES.items():
        file.write_text(text + "\n")
        assert reason in server.refused(*server.apply(file, "--drop")), (text, reason)
    assert server.exports() == before
    print(f"apply: {len(REFUSED_FILES)} files are refused")


def meets_others(server, folder):
    """What another added to the list before is not taken for what the file says."""
    file, before = folder / "mine", server.exports()
    file.write_text("/data *(rw)\n/more *(rw)\n")
    with open(server.lines, "w") as lines:
        lines.write("add /more,rw,*\n")
    said = server.refused(*server.apply(file, "--drop"))
    assert "nothing is applied" in said or "double path" in said, said
    assert server.exports() == before
    # (the list is empty once it was refused for a path that stands twice)
    with open(server.lines, "w") as lines:
        lines.write("add /more,rw,*\nadd /more,rw,*\napply\n")
    server.told(*server.apply(file, "--drop"))
    assert server.exports() == ["/data rw *", "/more rw *"]
    print("apply: a list that another began is not applied")


def bridge(server, path):
    """Hands lines from a Unix socket on to the pipe, and answers back."""
    listener = socket.socket(socket.AF_UNIX, socket.SOCK_STREAM)
    listener.bind(str(path))
    listener.listen()

    def work():
        peer, _ = listener.accept()
        with open(server.answers, "rb") as answers, open(server.lines, "wb", 0) as lines, peer:
            answers.seek(0, os.SEEK_END)
            peer.settimeout(0.05)
            while True:
                with contextlib.suppress(TimeoutError):
                    piece = peer.recv(4096)
                    if not piece:
                        return
                    lines.write(piece)
                peer.sendall(answers.read())

    threading.Thread(target=work, daemon=True).start()


def by_socket(server, folder):
    bridge(server, folder / "socket")
    (folder / "mine").write_text("/data *(ro)\n/more *(rw)\n")
    assert server.told("apply", folder / "mine", "--control", folder / "socket").endswith("\napplied\n")
    assert server.exports()[0] == "/data ro *"
    print("apply: over a socket")


def is_careful(server, folder):
    """Where nfsd has not taken all lines, or has others in its list, nothing is handed in."""
    answers = {
        "refused: out of memory\n": "out of memory",  # (to a line that adds)
        "keeps 1, drops /more\n": "drops /more",
        "keeps 2, adds /other\n": "adds /other",
        "": "does not answer",
    }
    before = server.exports()
    for number, (answer, told) in enumerate(answers.items()):
        heard, path = [], folder / f"socket{number}"
        with socket.socket(socket.AF_UNIX, socket.SOCK_STREAM) as listener:
            listener.bind(str(path))
            listener.listen()
            peer = threading.Thread(target=hear, args=(listener, answer, heard))
            peer.start()
            said = server.refused("apply", folder / "mine", "--control", path)
            peer.join()
        assert told in said and b"apply\n" not in b"".join(heard), (said, heard)
        assert b"".join(heard).endswith(b"check\n")
    assert server.exports() == before
    print(f"apply: nothing is handed in after {len(answers)} answers")


def hear(listener, answer, heard):
    """An nfsd that answers this to whatever comes."""
    peer, _ = listener.accept()
    with peer:
        while piece := peer.recv(4096):
            heard.append(piece)
            peer.sendall(answer.encode())


JOURNAL = """#!/bin/sh
# What journalctl would say, where the journal has the answers and the counts of this folder.
case "$*" in
    *--grep=*) printf '1764547777.250000 host nfsd[1]: %s\\n' "$(grep '^nfsd: stats ' FOLDER/log | tail -n 1)" ;;
    *--after-cursor=*) tail -c +$((${*##*--after-cursor=} + 1)) FOLDER/answers
        echo "-- cursor: $(stat -c %s FOLDER/answers)" ;;
    *) echo "-- cursor: $(stat -c %s FOLDER/answers)" ;;
esac
"""


def journal(folder):
    """The environment in which journalctl is a script that knows this folder."""
    (folder / "bin").mkdir()
    script = folder / "bin/journalctl"
    script.write_text(JOURNAL.replace("FOLDER", str(folder)))
    script.chmod(0o755)
    return {**os.environ, "PATH": f"{folder / 'bin'}:{os.environ['PATH']}"}


def by_journal(server, folder, environment):
    (folder / "mine").write_text("/data *(rw)\n/more *(ro)\n")
    words = "apply", folder / "mine", "--control", server.lines
    assert server.told(*words, environment=environment).endswith("\napplied\n")
    assert server.exports() == ["/data rw *", "/more ro *"]
    print("apply: with answers of the journal")


def counts(server, environment):
    """The last line of counts, in Prometheus' form."""
    time.sleep(1.5)
    said = server.told("metrics", server.log)
    assert re.search(r'^nfsd_calls_total\{program="nlm",procedure="free_all"\} 1$', said, re.M), said
    assert re.search(r"^# TYPE nfsd_objects gauge\nnfsd_objects [1-9]", said, re.M)
    assert re.search(r"^# TYPE nfsd_opened_total counter\nnfsd_opened_total [1-9]", said, re.M)
    families = re.findall(r"^# TYPE (\w+) ", said, re.M)
    assert len(families) == len(set(families)), "a family is told once"
    for line in said.splitlines():
        assert re.fullmatch(r"# TYPE \w+ (counter|gauge)|\w+(\{\w+=\"\w+\"(,\w+=\"\w+\")*\})? \d+(\.\d+)?", line), line
    assert "nfsd_stats_time_seconds 1764547777.250\n" in server.told("metrics", environment=environment)
    assert "no line of counts" in server.refused("metrics", "/dev/null")
    print("metrics: counts, levels and procedures")


def main():
    words = nfsd.parser(__doc__)
    words.add_argument("program", metavar="PROGRAM", nargs="?", default=nfsd.PROGRAM, help="the program (this one)")
    program = words.parse_args().program
    with tempfile.TemporaryDirectory() as folder:
        folder = pathlib.Path(folder)
        with Server(program, folder, "/data,rw,*", "/tools,ro,127.0.0.1", f"/other,rw,{ELSEWHERE}") as server:
            connection, _, handle = tells(server)
            frees(server, connection, handle)
            changes(server, connection, handle, folder)
            refuses_files(server, folder)
            meets_others(server, folder)
            by_socket(server, folder)
            is_careful(server, folder)
            environment = journal(folder)
            by_journal(server, folder, environment)
            counts(server, environment)
        assert "Connection refused" in server.refused("ping")


if __name__ == "__main__":
    main()
