#!/usr/bin/env python3
"""Tries the set-ups of docs/USES.md: a root file system and sources are carried into a server's exports, and two
virtual machines boot from the one (nfsroot=, Debian's own initramfs), build what is in the other, and count in one file
of shared homes under locks, beside contrib/lockd and with exports that contrib/nfsadm changes.

It fetches Debian's kernel, initramfs-tools' words for it, and what the machines run (apt-get download). QEMU emulates
them, so it takes some minutes. Server and machines stand in a network of their own (`unshare`), on a bridge.

It needs root, and Debian's qemu-system-x86, busybox-static, initramfs-tools-core, klibc-utils, kmod and iproute2.

usage: bench/uses.py FOLDER [PROGRAM]        FOLDER: for what is fetched; it stays for the next time
"""
import contextlib
import os
import pathlib
import re
import shutil
import subprocess
import sys
import tarfile
import tempfile
import time

import admin
import nfsd
import peers
from peers import run

HERE = pathlib.Path(__file__).resolve().parent
CONTRIB = HERE.parent / "contrib"
SERVER, GUESTS = "10.9.0.1", {"one": "10.9.0.11", "two": "10.9.0.12"}
PATIENCE = 900  # seconds for a machine's whole life
PACKAGES = ("nfs-common", "libtirpc3", "rpcbind", "libwrap0", "tcc", "libc6-dev")
PROGRAMS = ("sbin/mount.nfs", "sbin/rpcbind", "sbin/rpc.statd", "usr/bin/tcc")  # that are fetched
OWN = {"/bin/mount": "bin/mount.linux", "/bin/umount": "bin/umount.linux",
       "/usr/bin/make": "usr/bin/make", "/usr/bin/flock": "usr/bin/flock"}  # fmt: skip
FOLDERS = ("bin", "sbin", "etc", "lib/x86_64-linux-gnu", "lib64", "mnt", "proc", "sys", "dev", "tmp", "run", "usr/bin",
           "usr/lib/x86_64-linux-gnu", "var/lib/nfs")  # fmt: skip
C_FILES = ("crt1.o", "crti.o", "crtn.o", "libc_nonshared.a")  # what a program is linked with
LOADER = "ld-linux-x86-64.so.2"
SOURCES = 20


def opened():
    """The exports once all is in them: for the machines, and homes for this host too, which copies them out."""
    exports = {"/root": "ro", "/farm": "rw", "/home": "rw"}
    hosts = {path: [*GUESTS.values(), *["127.0.0.1"] * (path == "/home")] for path in exports}
    return "".join(f"{path} -{mode} {' '.join(hosts[path])}\n" for path, mode in exports.items())


def fetch(folder):
    """Unpacks Debian's kernel and packages into the folder."""
    kernel = re.search(r"Depends: (linux-image-\S+)", run("apt-cache", "depends", "linux-image-cloud-amd64"))[1]
    run("apt-get", "download", kernel, *PACKAGES, cwd=folder, stderr=subprocess.DEVNULL)
    for package in folder.glob("*.deb"):
        run("dpkg", "-x", package, folder)


def libraries(program, folder):
    """The shared libraries that a program of Debian's loads, those that were fetched among them."""
    searched = {"LD_LIBRARY_PATH": f"{folder}/usr/lib/x86_64-linux-gnu"}
    return re.findall(r"(/\S+) \(0x", run("ldd", program, env=searched))


def initrd(folder):
    """Debian's initramfs, which mounts a root by NFS."""
    modules = next(folder.glob("lib/modules/*"))
    run("depmod", "-b", folder, modules.name)
    conf = folder / "initramfs"
    for name in ("conf.d", "hooks", "scripts"):
        (conf / name).mkdir(parents=True)
    lines = "MODULES=list BUSYBOX=n KEYMAP=n COMPRESS=gzip DEVICE= NFSROOT=auto BOOT=nfs RUNSIZE=10%"
    (conf / "initramfs.conf").write_text("\n".join(lines.split()) + "\n")
    (conf / "modules").write_text("virtio_pci\nvirtio_net\naf_packet\nnfs\nnfsv3\n")
    # (it looks for the kernel's modules and its configuration where a package puts them)
    for place, source in ((f"/usr/lib/modules/{modules.name}", modules), ("/boot", folder / "boot")):
        os.makedirs(place, exist_ok=True)
        run("mount", "--bind", source, place)
    run("mkinitramfs", "-d", conf, "-o", folder / "initrd", modules.name)
    return folder / "initrd"


def root_of(folder):
    """The machines' root file system: BusyBox, what mounts and locks, a compiler and make."""
    root = folder / "root"
    for name in FOLDERS:
        (root / name).mkdir(parents=True)
    shutil.copy("/bin/busybox", root / "bin/busybox")
    shutil.copy(HERE / "uses_init.sh", root / "init")
    for applet in run("busybox", "--list").split():
        if applet != "busybox":
            (root / "bin" / applet).symlink_to("busybox")
    for program, name in [*OWN.items(), *((folder / name, name) for name in PROGRAMS)]:
        shutil.copy(program, root / name)
        for library in libraries(program, folder):
            shutil.copy(library, root / ("lib64" if LOADER in library else "lib/x86_64-linux-gnu"))
    shutil.copytree(folder / "usr/lib/x86_64-linux-gnu/tcc", root / "usr/lib/x86_64-linux-gnu/tcc")
    for name in C_FILES:
        shutil.copy(folder / "usr/lib/x86_64-linux-gnu" / name, root / "usr/lib/x86_64-linux-gnu")
    for name, library in (("libc.so", "lib/x86_64-linux-gnu/libc.so.6"), (LOADER, f"lib64/{LOADER}")):
        (root / "usr/lib/x86_64-linux-gnu" / name).symlink_to(f"/{library}")
    (root / "etc/protocols").write_text("tcp 6 TCP\nudp 17 UDP\n")
    transports = ("udp tpi_clts v inet udp", "tcp tpi_cots_ord v inet tcp", "local tpi_cots_ord - loopback -")
    (root / "etc/netconfig").write_text("".join(f"{each} - -\n" for each in transports))
    users = ("root:x:0:0:root:/:/bin/sh", "_rpc:x:0:0::/run/rpcbind:/bin/false", "statd:x:0:0::/:/bin/false")
    (root / "etc/passwd").write_text("".join(f"{user}\n" for user in users))
    (root / "etc/group").write_text("root:x:0:\n_rpc:x:0:\n")
    (root / "etc/services").write_text("sunrpc 111/tcp portmapper\nsunrpc 111/udp portmapper\n")
    (root / "etc/nsswitch.conf").write_text("passwd: files\ngroup: files\nhosts: files\n")
    (root / "etc/hosts").write_text("127.0.0.1 localhost\n" + "".join(f"{at} {name}\n" for name, at in GUESTS.items()))
    return root


def sources(folder):
    """What is built: a program of as many files, each with a number of its own."""
    made = folder / "sources"
    (made / "src").mkdir(parents=True)
    numbers = range(1, SOURCES + 1)
    for number in numbers:
        (made / f"src/part{number}.c").write_text(f"int part{number}(void) {{ return {number}; }}\n")
    calls = " + ".join(f"part{number}()" for number in numbers)
    declared = "".join(f"int part{number}(void);\n" for number in numbers)
    text = f'int printf(const char *, ...);\n{declared}int main(void) {{ printf("%d\\n", {calls}); return 0; }}\n'
    (made / "src/main.c").write_text(text)
    objects = " ".join(["main.o", *(f"part{number}.o" for number in numbers)])
    rules = f"program: {objects}\n\ttcc -o $@ $^\n%.o: /mnt/src/%.c\n\ttcc -c -o $@ $<\n"
    (made / "src/Makefile").write_text(rules)
    return made


def network():
    """A bridge with a socket for each machine."""
    run("ip", "link", "add", "br0", "type", "bridge")
    run("ip", "addr", "add", f"{SERVER}/24", "dev", "br0")
    run("ip", "link", "set", "br0", "up")
    for name in GUESTS:
        run("ip", "tuntap", "add", "dev", name, "mode", "tap")
        run("ip", "link", "set", name, "master", "br0", "up")


def machine(folder, name, use):
    """The words that start a machine."""
    number = list(GUESTS).index(name)
    told = {
        "console": "ttyS0", "panic": 1, "boot": "nfs", "root": "/dev/nfs", "init": "/init",
        "use": use, "server": SERVER, "guest": name,
        "nfsroot": f"{SERVER}:/root", "ip": f"{GUESTS[name]}::{SERVER}:255.255.255.0:{name}:eth0:off",
        # (names of interfaces as the kernel gives them)
        "net.ifnames": 0,
    }  # fmt: skip
    words = " ".join(f"{key}={value}" for key, value in told.items())
    return (
        "qemu-system-x86_64", "-m", "384", "-nographic", "-no-reboot",
        "-kernel", next(folder.glob("boot/vmlinuz-*")), "-initrd", folder / "initrd",
        "-append", f"{words} ro quiet no_timer_check",
        "-netdev", f"tap,id=net,ifname={name},script=no,downscript=no",
        "-device", f"virtio-net-pci,netdev=net,mac=52:54:00:09:00:{number:02},romfile=",
    )  # fmt: skip


def lives(folder, use):
    """What all machines say, from when they are switched on until they switch themselves off."""
    logs = {name: folder / f"{name}.{use}" for name in GUESTS}
    begin = time.monotonic()
    with contextlib.ExitStack() as stack:
        runs = []
        for name, log in logs.items():
            out = stack.enter_context(open(log, "wb"))
            words = list(map(str, machine(folder, name, use)))
            runs.append(stack.enter_context(peers.process(*words, stdout=out, stderr=out, stdin=subprocess.DEVNULL)))
        for run in runs:
            with contextlib.suppress(subprocess.TimeoutExpired):
                run.wait(max(1, begin + PATIENCE - time.monotonic()))
    said = {name: re.findall(r"uses: \w+: (.*\w)", log.read_text(errors="replace")) for name, log in logs.items()}
    for name, lines in said.items():
        if not lines or lines[-1] != "the end":
            sys.exit(f"uses: {name} did not come to its end: {lines}\n{logs[name].read_text(errors='replace')[-1500:]}")
    print(f"{use}: " + "; ".join(f"{name}: {', '.join(lines)}" for name, lines in said.items()), flush=True)
    return said


class Served(admin.Server):
    """A server on the machines' network, of which contrib/nfsadm is asked."""

    def __init__(self, program, folder):
        clients = ",".join(GUESTS.values())
        words = run(CONTRIB / "lockd", "--clients", clients, "--words").split()
        exports = [f"{path},rw,127.0.0.1" for path in ("/root", "/farm", "/home")]
        super().__init__(program, folder, *exports, more=words, place="0.0.0.0:2049")


def main():
    words = nfsd.parser(__doc__)
    words.add_argument("folder", metavar="FOLDER", type=pathlib.Path, help="keeps what is fetched")
    words.add_argument("program", metavar="PROGRAM", nargs="?", default=nfsd.PROGRAM, help="the program (this one)")
    given = words.parse_args()
    folder = given.folder.resolve()
    if not folder.exists():
        folder.mkdir()
        fetch(folder)
    peers.go_apart()
    with contextlib.ExitStack() as stack:
        if not (folder / "initrd").exists():
            initrd(folder)
        for name in ("root", "sources"):
            shutil.rmtree(folder / name, ignore_errors=True)
        work = pathlib.Path(stack.enter_context(tempfile.TemporaryDirectory()))
        network()
        server = stack.enter_context(Served(given.program, work))
        words = ["--clients", ",".join(GUESTS.values()), "--server", f"{SERVER}:2049", "--from", SERVER]
        stack.enter_context(peers.process(CONTRIB / "lockd", *words, "--mapper", "own"))
        for source, path in ((root_of(folder), "/root"), (sources(folder), "/farm")):
            run(CONTRIB / "carry", "in", source, path)
        (work / "exports").write_text(opened())
        print(server.told(*server.apply(work / "exports")), end="", flush=True)
        farm = lives(folder, "farm")
        assert farm["one"][1] == farm["two"][1], "both build the same"
        homes = lives(folder, "homes")
        assert homes["one"][1] == homes["two"][1] == "counted to 40, 2 files", homes
        run(CONTRIB / "carry", "out", "/home", work / "homes.tar")
        with tarfile.open(work / "homes.tar") as tar:
            assert tar.extractfile("./count").read() == b"40\n"
        print("homes: copied out")


if __name__ == "__main__":
    main()
