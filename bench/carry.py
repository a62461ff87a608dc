#!/usr/bin/env python3
"""Tries contrib/carry beside nfsd: a tree with what file systems have goes into an export and out again, as directories
and as tars, through GNU's tar too; and a move to another server in the way of an upgrade, which contrib/nfsadm begins.

It needs root, for owners and devices, and tar.

usage: bench/carry.py [PROGRAM]
"""
import hashlib
import os
import pathlib
import random
import socket
import stat
import subprocess
import sys
import tempfile
import time

import admin
import nfsd

CARRY = pathlib.Path(__file__).resolve().parent.parent / "contrib/carry"
SPARSE = 40 << 20  # bytes of a file that has three blocks
LARGE = 21_000_001  # of one that is written alone


def make(top):
    """A tree with what file systems have."""
    chance = random.Random(7)
    top.mkdir()
    names = [b"plain", b"two words", b"a\nline", b"\xff\xfe no text", "\u00fcber".encode(), b"n" * 255, b"-", b"..."]
    for name in names:
        (pathlib.Path(os.fsdecode(os.fsencode(top) + b"/" + name))).write_bytes(name)
    for size in (0, 1, 4095, 4096, 4097, 65_535, 65_536, 65_537, 300_000, LARGE):
        (top / f"random{size}").write_bytes(chance.randbytes(size))
    (top / "zeros").write_bytes(bytes(1 << 20))
    (top / "tail").write_bytes(b"x" * 5000 + bytes(100_000))
    sparse(top / "sparse")
    (top / "many").mkdir()
    for number in range(600):
        (top / "many" / f"file{number:04}").write_bytes(chance.randbytes(number))
    deep = top / "deep"
    for _ in range(40):
        deep.mkdir()
        deep = deep / "below"
    (top / "empty").mkdir()
    special(top)
    for number, (name, _, files) in enumerate(os.walk(os.fsencode(top), topdown=False)):
        for place in [*(os.path.join(name, file) for file in files), name]:
            moment = chance.randrange(17 * 10**8) * 10**9 + chance.randrange(10**9)
            os.chown(place, number % 5 * 1000, 65_534 - number % 3, follow_symlinks=False)
            os.utime(place, ns=(moment, moment + 77), follow_symlinks=False)
    modes(top)


def sparse(name):
    with open(name, "wb") as file:
        for at in (0, 10 << 20, SPARSE - 10):
            file.seek(at)
            file.write(b"here it is"[:10])


def special(top):
    """Links, devices, pipes and sockets."""
    (top / "twin").write_bytes(b"of three names")
    os.link(top / "twin", top / "many" / "twin")
    os.link(top / "twin", top / "zwin")
    os.symlink("twin", top / "link")
    os.symlink("/nowhere/" + "x" * 4000, top / "dangling")
    os.link(top / "link", top / "linked link", follow_symlinks=False)
    os.mkfifo(top / "pipe")
    with socket.socket(socket.AF_UNIX) as listener:
        listener.bind(str(top / "socket"))
    try:
        os.mknod(top / "device", stat.S_IFCHR, os.makedev(1, 3))
        os.mknod(top / "disk", stat.S_IFBLK, os.makedev(200, 70_000))
    except PermissionError:
        print("carry: no devices are tried, as none can be made here", file=sys.stderr)


def modes(top):
    # (a change of owner takes set-id bits away, so modes come last)
    for name, mode in (("random1", 0), ("random4096", 0o4755), ("random4097", 0o2711), ("zeros", 0o1666)):
        os.chmod(top / name, mode)
    for name, mode in (("empty", 0o555), ("many", 0o2775), ("deep", 0o1777)):
        os.chmod(top / name, mode)


def snapshot(top, is_timed=True):
    """What each name leads to, by its path."""
    found, objects, top = {}, {}, os.fsencode(top)
    # (what an object is comes before a look into it, which may set its time of access)
    found[b"."] = shown(top, is_timed)
    for name, folders, files in os.walk(top):
        for place in (os.path.join(name, each) for each in [*folders, *files]):
            path = os.path.relpath(place, top)
            found[path] = shown(place, is_timed)
            if not os.path.isdir(place) or os.path.islink(place):
                objects.setdefault(os.lstat(place).st_ino, set()).add(path)
    return found, sorted(sorted(paths) for paths in objects.values())


def shown(place, is_timed):
    is_ = os.lstat(place)
    size = 0 if stat.S_ISDIR(is_.st_mode) else is_.st_size
    # (whoever walks through a tree reads its links)
    is_timed = is_timed and not stat.S_ISLNK(is_.st_mode)
    moments = (is_.st_mtime_ns, is_.st_atime_ns) if is_timed else (is_.st_mtime_ns,)
    return oct(is_.st_mode), is_.st_uid, is_.st_gid, moments, size, is_.st_rdev, content_of(place, is_)


def set_times(top, snapshot):
    """Sets the times that a look has changed."""
    for path, (_, _, _, moments, *_) in snapshot[0].items():
        os.utime(os.path.join(os.fsencode(top), path), ns=(moments[-1], moments[0]), follow_symlinks=False)


def content_of(place, is_):
    if stat.S_ISLNK(is_.st_mode):
        return os.readlink(place)
    if not stat.S_ISREG(is_.st_mode):
        return b""
    file = os.open(place, os.O_RDONLY | os.O_NOATIME)
    with open(file, "rb") as data:
        return hashlib.file_digest(data, "md5").digest()


def assert_same(one, other):
    """Two snapshots have to be the same."""
    (found, twins), (its, its_twins) = one, other
    told = [f"{path}: {found.get(path)} and {its.get(path)}" for path in found.keys() | its.keys()
            if found.get(path) != its.get(path)]
    assert not told and twins == its_twins, "\n".join(each[:300] for each in told[:5]) or "names of one file"


def run(server, *words, status=0, **how):
    """What carry says."""
    command = [CARRY, "--server", f"127.0.0.1:{server.port}", *map(str, words)]
    done = subprocess.run(command, stderr=subprocess.PIPE, text=False, **how)
    assert done.returncode == status, (words, done.stderr.decode(errors="replace"))
    return done.stderr.decode(errors="replace")


def is_sparse(place):
    return os.stat(place).st_blocks * 512 < 1 << 20


def trees(server, source, before, folder):
    """In and out as directories."""
    set_times(source, before)
    said = run(server, "in", source, "/data")
    assert said.endswith("not carried: 0\n"), said
    print(said.strip())
    run(server, "out", "/data", folder / "out")
    assert_same(before, snapshot(folder / "out"))
    assert is_sparse(folder / "out/sparse") and is_sparse(folder / "out/zeros")
    assert not (folder / "out.part").exists()
    assert "is there already" in run(server, "out", "/data", folder / "out", status=1)
    assert server.told("mounts") == "", "what it mounted it unmounts"
    print("a tree: in and out, all the same")


def tars(server, source, before, folder):
    """Out as tars, for tarfile and for GNU's tar; and in from tars of both, into directories that are not there."""
    without = leave_out(before, b"socket")
    status = 1  # (a tar has no sockets, which is told)
    for name in ("out.tar", "out.tgz"):
        assert "a tar has no sockets" in run(server, "out", "/data", folder / name, status=status)
        os.rename(folder / f"{name}.part", folder / name)
        (folder / f"{name}.d").mkdir()
        words = ["tar", "-xpf", folder / name, "--numeric-owner", "--warning=no-unknown-keyword", "-C"]
        subprocess.run([*words, folder / f"{name}.d"], check=True)
        got = snapshot(folder / f"{name}.d", is_timed=False)
        assert_same(untimed(without), got)
    assert os.stat(folder / "out.tar").st_size < LARGE + SPARSE // 2, "holes are not written"
    run(server, "in", folder / "out.tgz", "/data/from tar/below")
    run(server, "out", "/data/from tar/below", folder / "again")
    assert_same(without, snapshot(folder / "again"))
    assert is_sparse(folder / "again/sparse")
    with subprocess.Popen(["tar", "-cSf", "-", "--exclude=socket", "--numeric-owner", "-C", source, "."],
                          stdout=subprocess.PIPE) as tar:
        run(server, "in", "-", "/data/gnu", stdin=tar.stdout)
    run(server, "out", "/data/gnu", folder / "gnu")
    got = snapshot(folder / "gnu", is_timed=False)
    # (GNU's tar by itself tells whole seconds)
    assert_same(whole_seconds(untimed(without)), got)
    print("tars: out for GNU's tar, and in from carry's and from GNU's")


def leave_out(snapshot, path):
    found, twins = snapshot
    return {name: is_ for name, is_ in found.items() if name != path}, [names for names in twins if names != [path]]


def untimed(snapshot):
    found, twins = snapshot
    return {path: (*is_[:3], is_[3][:1], *is_[4:]) for path, is_ in found.items()}, twins


def whole_seconds(snapshot):
    found, twins = snapshot
    return {path: (*is_[:3], (is_[3][0] // 10**9 * 10**9,), *is_[4:]) for path, is_ in found.items()}, twins


def replaces(server, folder):
    """What is there under a name is replaced, and directories are merged."""
    small = folder / "small"
    small.mkdir()
    (small / "file").write_bytes(b"first, and longer")
    os.symlink("old", small / "link")
    (small / "sub").mkdir()
    (small / "sub/stays").write_bytes(b"1")
    run(server, "in", small, "/data/small")
    (small / "file").write_bytes(b"second")
    os.unlink(small / "link")
    os.symlink("new", small / "link")
    os.rename(small / "sub/stays", small / "sub/comes")
    run(server, "in", small, "/data/small")
    run(server, "out", "/data/small", folder / "small.out")
    names = sorted(str(path.relative_to(folder / "small.out")) for path in (folder / "small.out").rglob("*"))
    assert names == ["file", "link", "sub", "sub/comes", "sub/stays"], names
    assert (folder / "small.out/file").read_bytes() == b"second" and os.readlink(folder / "small.out/link") == "new"
    os.unlink(small / "file")
    (small / "file").mkdir()
    assert "file: NOTDIR" in run(server, "in", small, "/data/small", status=1)
    print("in: replaces files, merges directories, and tells of what stands in its way")


def faults(server, folder):
    """What can't be carried is told, and the rest is carried."""
    odd = folder / "odd"
    odd.mkdir()
    with open(odd / "b too large", "wb") as file:
        file.truncate((1 << 30) + 1)
    (odd / "a").write_bytes(b"a")
    (odd / "c").write_bytes(b"c")
    said = run(server, "in", odd, "/data/odd", status=1)
    assert "b too large: FBIG" in said and "2 files" in said and "not carried: 1" in said, said
    assert "ACCES" in run(server, "in", odd, "/nowhere", status=1)
    assert "ROFS" in run(server, "in", odd, "/tools", status=1)
    assert "Connection refused" in subprocess.run([CARRY, "--server", "127.0.0.1:1", "in", odd, "/data"],
                                                  stderr=subprocess.PIPE, text=True).stderr
    print("faults: told, and the rest is carried")


def upgrade(program, source, before, folder):
    """Nobody writes any more, all is copied out, and another server gets it before anybody else is let in."""
    for name in ("old", "new"):
        (folder / name).mkdir()
    set_times(source, before)
    with admin.Server(program, folder / "old", "/data,rw,*") as old:
        run(old, "in", source, "/data")
        (folder / "ro").write_text("/data *(ro)\n")
        old.told(*old.apply(folder / "ro"))
        begin = time.monotonic()
        run(old, "out", "/data", folder / "all")
        out = time.monotonic() - begin
    with admin.Server(program, folder / "new", "/data,rw,127.0.0.1") as new:
        run(new, "in", folder / "all", "/data")
        (folder / "rw").write_text("/data *(rw)\n")
        new.told(*new.apply(folder / "rw"))
        run(new, "out", "/data", folder / "all again")
    assert_same(before, snapshot(folder / "all again"))
    print(f"an upgrade: all the same, {out:.1f} s to copy it out")


def main():
    words = nfsd.parser(__doc__)
    words.add_argument("program", metavar="PROGRAM", nargs="?", default=nfsd.PROGRAM, help="the program (this one)")
    program = words.parse_args().program
    os.umask(0o022)
    with tempfile.TemporaryDirectory() as folder:
        folder = pathlib.Path(folder)
        source = folder / "source"
        make(source)
        before = snapshot(source)
        with admin.Server(program, folder, "/data,rw,*", "/tools,ro,*") as server:
            trees(server, source, before, folder)
            tars(server, source, before, folder)
            replaces(server, folder)
            faults(server, folder)
        upgrade(program, source, before, folder)


if __name__ == "__main__":
    main()
