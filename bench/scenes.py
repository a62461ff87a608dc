#!/usr/bin/env python3
"""Plays the scenes of streams of crates/scenes/stdin against a program that listens, over TCP and by datagrams: each
with a server of its own, whose hosts are the scene's, in a network that is this script's own. It tells what was
answered otherwise, and of each way how many scenes were as they must be and how many were left out, and ends with 1
where one was not as it must be.

A call is sent as its line comes, and an answer is awaited as its line does. A handle of the text, and the number in it,
stands for the one that is given at its first place in an answer, and so does the cookie of a grant: RFC 1813 leaves the
choice open. Each host that is to be sent something is called back, and refuses each GRANTED, which leaves the grant as
it is; `unsent` looks whether a call has come by then. Left out are scenes whose clock goes on, those in which grants
come in the order of their files' numbers, which are others here, and by datagrams those with records or answers that
are no datagram's.

Wants Linux' `unshare` and `ip`, and root.

usage: bench/scenes.py [--only WORD] [PROGRAM]
"""
import collections
import os
import pathlib
import queue
import re
import socket
import struct
import subprocess
import sys
import threading

import locking
import nfsd

SCENES = pathlib.Path(__file__).resolve().parent.parent / "crates/scenes/stdin"
OPTIONS = "--export /data,rw,* --start 7 --clock 1000 --host 10.0.0.1"
USER_0 = struct.pack(">7I", 1, 20, 0, 0, 0, 0, 0)
SERVER = "10.255.0.1"  # the server's address
PATIENCE = 20  # seconds for which an answer is awaited
LONGEST = 65_507  # the bytes of a datagram
LAST = 0x80000000  # of a mark: the fragment is the record's last
HANDLE, NUMBER, GENERATION, MARK = 32, 16, 24, b"NFD3"
COOKIE = 12  # the bytes of a grant's cookie with its length
GRANTED_MSG, PROC_UNAVAIL = 10, 3
INSIDE = "NFSD_SCENES_INSIDE"  # set where the network is this script's own
BY_NUMBERS = "all that a caller has is freed"  # in the titles of scenes that follow the files' numbers
TOKENS = re.compile(r'"[^"]*"|[(),]|[^\s(),"]+')


class Otherwise(Exception):
    """Something was answered otherwise."""


class LeftOut(Exception):
    """A scene can't be played this way."""


def number(word):
    """The bytes of a number, as often as it stands."""
    text, _, times = word.partition("*")
    digits, size = (text[:-2], 1) if text.endswith("u8") else (text[:-3], 8) if text.endswith("u64") else (text, 4)
    return int(digits, 0).to_bytes(size, "big") * int(times or 1)


def string(text):
    return struct.pack(">I", len(text)) + text + bytes(-len(text) % 4)


class Groups:
    """The groups of words that have a name."""

    def __init__(self):
        self.groups = {}

    def name(self, text):
        head, words = text.split(" = ", 1)
        name, *parameters = re.findall(r"\w+", head)
        self.groups[name] = parameters, words

    def spelled(self, text, given=None):
        """The bytes that a text spells, with what is given for parameters."""
        tokens = collections.deque(TOKENS.findall(text))
        spelled = self.words(tokens, given or {})
        assert not tokens, text
        return spelled

    def words(self, tokens, given):
        """What is spelled up to a comma or a bracket that closes."""
        spelled = b""
        while tokens and tokens[0] not in ",)":
            word = tokens.popleft()
            if word[0] == '"':
                spelled += string(word[1:-1].encode())
            elif word[0].isdigit():
                spelled += number(word)
            elif word in given:
                spelled += given[word]
            else:
                spelled += self.group(word, tokens, given)
        return spelled

    def group(self, name, tokens, given):
        parameters, words = self.groups[name]
        values = []
        if tokens and tokens[0] == "(":
            while tokens.popleft() != ")":
                values.append(self.words(tokens, given))
        assert len(values) == len(parameters), name
        return self.spelled(words, dict(zip(parameters, values)))


class Handles:
    """Which handles stand for those of the text."""

    def __init__(self):
        self.given = {}

    def applied(self, record):
        for theirs, ours in self.given.items():
            for place in range(0, len(record), 4):
                if record[place : place + HANDLE] == theirs:
                    record = record[:place] + ours + record[place + HANDLE :]
        return record

    def admit(self, wanted, given):
        """Whether what was given is what is wanted, but for handles and their numbers."""
        place = 0
        while place < max(len(wanted), len(given)):
            theirs, ours = wanted[place : place + 4], given[place : place + 4]
            if theirs == ours == MARK and len(wanted) == len(given):
                if not self.bind(wanted[place : place + HANDLE], given[place : place + HANDLE]):
                    return False
                place += HANDLE
                continue
            if theirs != ours and not self.is_number(wanted[place - 4 : place + 4], given[place - 4 : place + 4]):
                return False
            place += 4
        return len(wanted) == len(given)

    def bind(self, theirs, ours):
        if theirs in self.given:
            return self.given[theirs] == ours
        if ours in self.given.values() or theirs[:NUMBER] != ours[:NUMBER]:
            return False
        self.given[theirs] = ours
        return True

    def is_number(self, theirs, ours):
        pairs = ((a[NUMBER:GENERATION], b[NUMBER:GENERATION]) for a, b in self.given.items())
        return (theirs, ours) in pairs


class Server:
    """A run of the program with a scene's options, at one address of its own."""

    def __init__(self, program, options, hosts):
        words = options.split()
        place = words.index("--host")
        del words[place : place + 2]
        words += [f"--callback={address}={address}:{host.port}" for address, host in hosts.items()]
        where = ["--tcp", f"{SERVER}:0", "--udp", f"{SERVER}:0", "--workers", "1"]
        self.process = subprocess.Popen([program, *where, *words], stderr=subprocess.PIPE)
        self.ports = {}
        while len(self.ports) < 2:
            said = self.process.stderr.readline().decode()
            assert said, "the program listens"
            if port := re.search(r":(\d+) \((TCP|UDP)\)", said):
                self.ports[port[2]] = int(port[1])

    def close(self):
        assert self.process.poll() is None, "the program runs to the end"
        self.process.kill()
        self.process.wait()
        self.process.stderr.close()


class Host:
    """A host that is called back: it keeps what comes, and has no procedure GRANTED."""

    def __init__(self, address):
        self.listener = socket.create_server((address, 0))
        self.port = self.listener.getsockname()[1]
        self.came, self.calls = queue.Queue(), {}
        threading.Thread(target=self.work, daemon=True).start()

    def work(self):
        while True:
            try:
                connection, _ = self.listener.accept()
            except OSError:
                return
            with connection, connection.makefile("rwb") as stream:
                mark = stream.read(4)
                record = stream.read(struct.unpack(">I", mark)[0] & ~LAST)
                self.came.put(record)
                xid, _, _, _, _, procedure = struct.unpack_from(">6I", record)
                if procedure == locking.GRANTED:
                    stream.write(struct.pack(">7I", LAST | 24, xid, 1, 0, 0, 0, PROC_UNAVAIL))

    def call(self, xid):
        """The call with this transaction id. A grant may come before results that were put before it."""
        while xid not in self.calls:
            record = self.came.get(timeout=PATIENCE)
            self.calls[record[:4]] = record
        return self.calls.pop(xid)

    def is_left_alone(self):
        return self.came.empty() and not self.calls

    def close(self):
        self.listener.shutdown(socket.SHUT_RDWR)
        self.listener.close()


class Connection:
    """Over TCP, from a host."""

    def __init__(self, server, host):
        self.socket = socket.create_connection((SERVER, server.ports["TCP"]), PATIENCE, (host, 0))
        self.stream = self.socket.makefile("rb")

    def send(self, record):
        self.socket.sendall(record)

    def reply(self):
        mark = self.stream.read(4)
        if len(mark) < 4:
            raise Otherwise("the connection is closed")
        return mark + self.stream.read(struct.unpack(">I", mark)[0] & ~LAST)

    def end(self):
        self.socket.shutdown(socket.SHUT_WR)
        if self.stream.read():
            raise Otherwise("there is more")
        self.stream.close()
        self.socket.close()


class Datagrams:
    """By datagrams, from a host. A record has its mark here."""

    def __init__(self, server, host):
        self.socket = socket.socket(socket.AF_INET, socket.SOCK_DGRAM)
        self.socket.bind((host, 0))
        self.socket.connect((SERVER, server.ports["UDP"]))
        self.socket.settimeout(PATIENCE)

    def send(self, record):
        if len(record) - 4 > LONGEST or struct.unpack_from(">I", record)[0] != LAST | len(record) - 4:
            raise LeftOut("a record is no datagram's")
        self.socket.send(record[4:])

    def reply(self):
        message = self.socket.recv(1 << 17)
        return struct.pack(">I", LAST | len(message)) + message

    def end(self):
        self.socket.close()


class Scene:
    """A scene that goes on by its lines."""

    def __init__(self, program, way, options, hosts):
        self.hosts = {address: Host(address) for address in hosts}
        self.way, self.server = way, Server(program, options, self.hosts)
        self.host = options.split()[options.split().index("--host") + 1]
        self.peers, self.handles, self.cookies = {}, Handles(), {}
        self.xid, self.caller, self.sent, self.wanted = 0, USER_0, b"", b""

    def peer(self):
        if self.host not in self.peers:
            self.peers[self.host] = self.way(self.server, self.host)
        return self.peers[self.host]

    def send(self, record):
        self.sent = record
        self.peer().send(self.handles.applied(record))

    def ask(self, message):
        self.xid += 1
        self.send(struct.pack(">II", LAST | len(message) + 4, self.xid) + message)

    def receive(self, wanted):
        self.wanted = wanted
        if self.way is Datagrams and len(wanted) - 4 > LONGEST:
            raise LeftOut("an answer is no datagram's")
        try:
            given = self.peer().reply()
        except TimeoutError:
            raise Otherwise("there is no answer") from None
        if not self.handles.admit(wanted, given):
            raise Otherwise(f"must be {wanted.hex(' ', 4)}\n  is      {given.hex(' ', 4)}")

    def reply(self, message):
        self.receive(struct.pack(">II", LAST | len(message) + 4, self.xid) + message)

    def take(self, verb, rest, groups):
        """What a line says."""
        if verb in ("bears", "uncut"):
            return
        if verb == "clock":
            raise LeftOut("the clock goes on")
        if verb == "unsent":
            if not all(host.is_left_alone() for host in self.hosts.values()):
                raise Otherwise("something was sent")
        elif verb == "host":
            self.host = rest
        elif verb == "xid":
            self.xid = int(rest, 0) - 1
        elif verb == "again":
            self.send(self.sent)
            self.receive(self.wanted)
        else:
            self.bytes(verb, groups.spelled(rest))

    def bytes(self, verb, words):
        if verb == "caller":
            self.caller = words
        elif verb == "call":
            arguments = words[12:]
            if words[:12] == struct.pack(">III", locking.NLM, 4, locking.GRANTED_RES):
                arguments = self.cookies.get(arguments[:COOKIE], arguments[:COOKIE]) + arguments[COOKIE:]
            self.ask(struct.pack(">II", 0, 2) + words[:12] + self.caller + bytes(8) + arguments)
        elif verb == "sent":
            self.posted(words)
        elif verb == "answer":
            self.reply(struct.pack(">5I", 1, 0, 0, 0, 0) + words)
        else:
            {"ask": self.ask, "reply": self.reply, "send": self.send, "receive": self.receive}[verb](words)

    def posted(self, words):
        """The next message to a host is this: its number, the host, and program, version, procedure and arguments."""
        xid, (address, message) = words[:4], unstrung(words[4:])
        wanted = xid + struct.pack(">II", 0, 2) + message[:12] + bytes(16) + message[12:]
        try:
            given = self.hosts[address].call(xid)
        except queue.Empty:
            raise Otherwise("nothing is sent") from None
        if struct.unpack_from(">I", message, 8)[0] in (locking.GRANTED, GRANTED_MSG):
            cookies = wanted[40 : 40 + COOKIE], given[40 : 40 + COOKIE]
            if self.cookies.setdefault(*cookies) != cookies[1]:
                raise Otherwise("the cookie of another grant is sent")
            wanted = wanted[:40] + cookies[1] + wanted[40 + COOKIE :]
        if not self.handles.admit(wanted, given):
            raise Otherwise(f"must be {wanted.hex(' ', 4)}\n  is      {given.hex(' ', 4)}")

    def end(self):
        for peer in self.peers.values():
            peer.end()
        for host in self.hosts.values():
            if not host.calls.empty():
                raise Otherwise("more is sent")

    def close(self):
        self.server.close()
        for host in self.hosts.values():
            host.close()


def unstrung(words):
    """A string, and what stands behind it."""
    (length,) = struct.unpack_from(">I", words)
    return words[4 : 4 + length].decode(), words[4 + length + -length % 4 :]


def scenes(groups, only):
    """The scenes of streams: the title, the options, and the other lines with their numbers."""
    found = None
    for line, text in enumerate(SCENES.read_text().splitlines(), 1):
        verb, _, rest = text.partition(" ")
        if verb in ("scene", "world"):
            if found:
                yield found
            found = [rest, OPTIONS, []] if verb == "scene" and only in rest else None
        elif verb == "let":
            groups.name(rest)
        elif found and verb == "options":
            found[1] = rest
        elif found and verb not in ("", "#"):
            found[2].append((line, verb, rest))
    if found:
        yield found


def played(program, way, groups, title, options, lines):
    """How a scene ended: as it must, otherwise, or left out."""
    hosts = {unstrung(groups.spelled(rest)[4:])[0] for _, verb, rest in lines if verb == "sent"}
    scene = Scene(program, way, options, hosts)
    at = 0
    try:
        if BY_NUMBERS in title:
            raise LeftOut("numbers are others")
        for at, verb, rest in lines:
            scene.take(verb, rest, groups)
        scene.end()
        return "as they must be"
    except Otherwise as told:
        print(f"line {at}: {title} ({way.__name__})\n  {told}", flush=True)
        return "otherwise"
    except LeftOut:
        return "left out"
    finally:
        scene.close()


def go_inside():
    """Goes on in a network of its own, in which all addresses of 10.0.0.0/8 are this machine's."""
    if INSIDE not in os.environ:
        os.environ[INSIDE] = "1"
        os.execvp("unshare", ["unshare", "--net", sys.executable, *sys.argv])
    for words in ("link set lo up", f"addr add {SERVER}/8 dev lo"):
        subprocess.run(["ip", *words.split()], check=True)


def main():
    words = nfsd.parser(__doc__)
    words.add_argument("--only", metavar="WORD", default="", help="only the scenes that have this in their titles")
    words.add_argument("program", metavar="PROGRAM", nargs="?", default=nfsd.PROGRAM, help="the program (this one)")
    given = words.parse_args()
    go_inside()
    groups = Groups()
    ends = {way: collections.Counter() for way in (Connection, Datagrams)}
    for scene in scenes(groups, given.only):
        for way, counted in ends.items():
            counted[played(given.program, way, groups, *scene)] += 1
    for way, counted in ends.items():
        print(f"{way.__name__}: " + ", ".join(f"{count} {end}" for end, count in counted.items()))
    sys.exit(any(counted["otherwise"] for counted in ends.values()))


if __name__ == "__main__":
    main()
