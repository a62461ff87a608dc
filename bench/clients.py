#!/usr/bin/env python3
"""Tries the server with clients that others wrote: Debian's libnfs-utils (apt-get install libnfs-utils).

It starts nfsd on a port of the system's choice, copies a file of 100 MB there and back with nfs-cp, makes 1,000 files,
which nfs-ls must list, and reads one with nfs-cat.

usage: bench/clients.py [PROGRAM]
"""
import os
import pathlib
import subprocess
import tempfile

import nfsd
import network


def url(path, port):
    """The URL by which libnfs finds a file of the export, with no port mapper."""
    return f"nfs://127.0.0.1/data/{path}?nfsport={port}&mountport={port}"


def run(*words):
    """What a command prints. It must end well."""
    return subprocess.run(words, check=True, stdout=subprocess.PIPE).stdout


def copies(folder, port):
    """A file goes there and back."""
    sent, received = folder / "sent", folder / "received"
    sent.write_bytes(os.urandom(100_000_000))
    run("nfs-cp", sent, url("large", port))
    run("nfs-cp", url("large", port), received)
    assert received.read_bytes() == sent.read_bytes(), "the bytes come back"
    print("nfs-cp: 100 MB came back as they were")


def lists(folder, port):
    """A thousand files are listed, and one is read."""
    small = folder / "small"
    small.write_bytes(b"hello\n")
    names = {f"file{number:04}" for number in range(1000)}
    for name in sorted(names):
        run("nfs-cp", small, url(name, port))
    listed = {line.split()[-1] for line in run("nfs-ls", url("", port)).decode().splitlines()}
    assert listed == names | {"large"}, "all names are listed"
    print(f"nfs-ls: {len(listed)} names")
    assert run("nfs-cat", url("file0500", port)) == b"hello\n"
    print("nfs-cat: hello")


def main():
    words = nfsd.parser(__doc__)
    words.add_argument("program", metavar="PROGRAM", nargs="?", default=nfsd.PROGRAM, help="the program (this one)")
    with network.Server(words.parse_args().program) as server, tempfile.TemporaryDirectory() as folder:
        copies(pathlib.Path(folder), server.port)
        lists(pathlib.Path(folder), server.port)


if __name__ == "__main__":
    main()
