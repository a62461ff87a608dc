#!/usr/bin/env python3
"""Tells in words what nfsd answered: a line for each reply, beside the call that it answers.

usage: nfsd --stdio .. < CALLS | bench/show.py CALLS
"""
import struct
import sys

import nfsd

ACCEPTED = ["SUCCESS", "PROG_UNAVAIL", "PROG_MISMATCH", "PROC_UNAVAIL", "GARBAGE_ARGS", "SYSTEM_ERR"]
KINDS = [None, "file", "directory", "block device", "character device", "link", "socket", "FIFO"]
NFS = ["NULL", "GETATTR", "SETATTR", "LOOKUP", "ACCESS", "READLINK", "READ", "WRITE", "CREATE", "MKDIR", "SYMLINK",
       "MKNOD", "REMOVE", "RMDIR", "RENAME", "LINK", "READDIR", "READDIRPLUS", "FSSTAT", "FSINFO", "PATHCONF", "COMMIT"]
MOUNT = ["NULL of MOUNT", "MNT", "DUMP", "UMNT", "UMNTALL", "EXPORT"]
NAMES = ({(100003, number): name for number, name in enumerate(NFS)}
         | {(100005, number): name for number, name in enumerate(MOUNT)} | {(100021, 0): "NULL of NLM"})


class Words:
    """The items of a message in turn (RFC 4506)."""

    def __init__(self, message):
        self.rest = message

    def take(self, form):
        found = struct.unpack_from(">" + form, self.rest)
        self.rest = self.rest[struct.calcsize(">" + form):]
        return found if len(found) > 1 else found[0]

    def opaque(self):
        size = self.take("I")
        found, self.rest = self.rest[:size], self.rest[size + -size % 4:]
        return found

    def attributes(self):
        """fattr3 (RFC 1813, 2.6)."""
        kind, mode, links, uid, gid, size, _ = self.take("5I2Q")
        self.take("2I2Q4I")
        seconds, nanoseconds = self.take("2I")
        plural = "link" if links == 1 else "links"
        return (f"{KINDS[kind]}, mode {mode:04o}, {links} {plural}, uid {uid}, gid {gid}, {size} bytes, "
                f"changed at {seconds}.{nanoseconds:09}")

    def optional(self):
        return self.attributes() if self.take("I") else "attributes not shown"

    def text(self):
        return self.opaque().decode(errors="backslashreplace")

    def entries(self, read):
        """A list: each entry behind a TRUE, and a FALSE at the end."""
        found = []
        while self.take("I"):
            found.append(read())
        return found

    def mount(self):
        """mountbody (RFC 1813, 5.2.2)."""
        return f"{self.text()} has {self.text()}"

    def export(self):
        """exportnode (RFC 1813, 5.2.5)."""
        path, hosts = self.text(), self.entries(self.text)
        return f"{path} for {', '.join(hosts) or 'every host'}"

    def page_entry(self, is_full):
        """An entry of READDIR, or of READDIRPLUS, with its cookie (RFC 1813, 3.3.16 and 3.3.17)."""
        self.take("Q")
        name, cookie = self.opaque(), self.take("Q")
        told = f"{name!r} (cookie {cookie})"
        if is_full:
            told += f" {self.optional()}"
            if self.take("I"):
                self.opaque()
        return told

    def wcc(self):
        if self.take("I"):
            self.take("Q4I")
        return self.optional()


def records(stream):
    """The records of a stream, each of one fragment or more (RFC 5531, section 11)."""
    record = b""
    while len(stream) >= 4:
        header = struct.unpack_from(">I", stream)[0]
        size = header & 0x7FFFFFFF
        record, stream = record + stream[4:4 + size], stream[4 + size:]
        if header >> 31:
            yield record
            record = b""


def result(name, words):
    """What stands behind the accepted status, for a result that is OK."""
    if name.startswith("NULL") or name.startswith("UMNT"):
        return ""
    if name == "DUMP":
        return "; ".join(words.entries(words.mount)) or "nothing is mounted"
    if name == "EXPORT":
        return "; ".join(words.entries(words.export))
    status = words.take("I")
    if status:
        return f"status {status}"
    if name == "GETATTR":
        return f"OK: {words.attributes()}"
    if name == "MNT":
        return f"OK: the handle of the root is {words.opaque().hex()}"
    if name == "LOOKUP":
        return f"OK: handle {words.opaque().hex()}, {words.optional()}"
    if name in ("CREATE", "MKDIR", "SYMLINK", "MKNOD"):
        words.take("I")
        return f"OK: handle {words.opaque().hex()}, {words.optional()}"
    if name in ("REMOVE", "RMDIR"):
        return f"OK: in the {words.wcc()}"
    if name == "RENAME":
        return f"OK: from the {words.wcc()}; to the {words.wcc()}"
    if name == "LINK":
        return f"OK: {words.optional()}"
    if name == "SETATTR":
        return f"OK: {words.wcc()}"
    if name == "ACCESS":
        shown = words.optional()
        return f"OK: rights {words.take('I')}; {shown}"
    if name == "READLINK":
        shown = words.optional()
        return f"OK: {words.opaque()!r}; {shown}"
    if name == "FSSTAT":
        words.optional()
        total, free, _, files, free_files, _ = words.take("6Q")
        return f"OK: {free} of {total} bytes and {free_files} of {files} files are free"
    if name == "FSINFO":
        words.optional()
        return f"OK: READ and WRITE take {words.take('I')} bytes at most"
    if name == "PATHCONF":
        words.optional()
        return "OK: {} links, names of {} bytes".format(*words.take("2I"))
    if name == "COMMIT":
        return f"OK: {words.wcc()}"
    if name in ("READDIR", "READDIRPLUS"):
        shown = words.optional()
        words.take("Q")
        listed = "; ".join(words.entries(lambda: words.page_entry(name == "READDIRPLUS")))
        end = ", the end of the directory" if words.take("I") else ""
        return f"OK: {listed or 'no entry'}{end}; {shown}"
    if name == "READ":
        shown = words.optional()
        _, eof = words.take("2I")
        return f"OK: {words.opaque()!r}{', the end of the file' if eof else ''}; {shown}"
    if name == "WRITE":
        shown = words.wcc()
        return f"OK: {words.take('I')} bytes are written; {shown}"
    return "OK"


def main():
    parser = nfsd.parser(__doc__)
    parser.add_argument("calls", metavar="CALLS", help="the file of the calls")
    with open(parser.parse_args().calls, "rb") as stored:
        calls = {xid: (program, procedure) for xid, _, _, program, _, procedure
                 in (struct.unpack_from(">6I", call) for call in records(stored.read()))}
    for reply in records(sys.stdin.buffer.read()):
        words = Words(reply)
        xid, _, denied = words.take("3I")
        name = NAMES.get(calls.get(xid), "a call")
        if denied:
            print(f"{xid} {name}: denied")
            continue
        words.take("I")
        words.opaque()
        accepted = ACCEPTED[words.take("I")]
        told = result(name, words) if accepted == "SUCCESS" else ""
        print(f"{xid} {name}: {accepted}{'; ' + told if told else ''}")


if __name__ == "__main__":
    main()
