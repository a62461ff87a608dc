"""Machines with Linux' own client, each with an address of its own, in some seconds: User Mode Linux runs Debian's
kernel as a program. Their files are this machine's own, read-only. Shared by the scripts that want clients as they are.

All is in a network of its own, 10.9.0.0/24, in which this machine is 10.9.0.1 (`apart`). A
machine runs what it is told by guest_agent.py (`Guest.run`). Wanted are root, Debian's kmod, iproute2, nfs-common and
rpcbind, and the device /dev/net/tun; user-mode-linux is fetched (apt-get download).
"""
import contextlib
import os
import pathlib
import shutil
import socket
import subprocess
import sys
import tempfile
import time

HERE = pathlib.Path(__file__).resolve().parent
SERVER = "10.9.0.1"
AGENT = 7000  # the port of guest_agent.py
PATIENCE = 600  # seconds for a machine to start, and for a command, on a busy processor
MOST = 4
NETWORK = f"""
set -e
mount -t tmpfs run /run
mkdir -p /run/rpcbind /run/lock
ip link set lo up
ip link add br0 type bridge
ip addr add {SERVER}/24 dev br0
ip link set br0 up
for i in $(seq {MOST}); do ip tuntap add dev tap$i mode tap; ip link set tap$i master br0; ip link set tap$i up; done
exec "$@"
"""


@contextlib.contextmanager
def apart():
    """A folder with all that machines need, in a network of its own: the script starts anew there, as it began."""
    if "GUESTS" not in os.environ:
        wanted = [name for name in ("ip", "depmod", "mount.nfs", "rpcbind") if not shutil.which(name)]
        if os.getuid() != 0 or wanted:
            sys.exit(f"{sys.argv[0]}: this has to be root's, and wants {', '.join(wanted) or 'nothing else'}")
        os.environ["GUESTS"] = fetched()
        script = [sys.executable, os.path.abspath(sys.argv[0]), *sys.argv[1:]]
        os.execvp("unshare", ["unshare", "-nm", "--propagation", "private", "sh", "-c", NETWORK, "sh", *script])
    folder = pathlib.Path(os.environ["GUESTS"])
    try:
        yield folder
    finally:
        shutil.rmtree(folder)


def fetched():
    """A folder with Debian's kernel and its modules."""
    folder = pathlib.Path(tempfile.mkdtemp())
    try:
        run("apt-get", "download", "user-mode-linux", cwd=folder)
        run("dpkg", "-x", *folder.glob("user-mode-linux_*.deb"), folder)
        shutil.copytree(folder / "usr/lib/uml/modules", folder / "lib/modules")
        [version] = (folder / "lib/modules").iterdir()
        run("depmod", "-b", folder, version.name)
        for name in ("guest_init.sh", "guest_agent.py"):
            shutil.copy(HERE / name, folder)
    except BaseException:
        shutil.rmtree(folder)
        raise
    return str(folder)


def run(*words, **how):
    done = subprocess.run(words, stdout=subprocess.PIPE, stderr=subprocess.STDOUT, text=True, **how)
    if done.returncode != 0:
        sys.exit(f"{' '.join(map(str, words))} fails: {done.stdout.strip()[-500:]}")


class Guest:
    """A machine, which is switched on and off. What its status monitor keeps stays."""

    def __init__(self, folder, number, memory=256, init="guest_init.sh"):
        self.folder, self.name, self.address = folder, f"guest{number}", f"10.9.0.{10 + number}"
        self.state = folder / self.name
        for name in ("sm", "sm.bak"):
            (self.state / name).mkdir(parents=True)
        told = {"g_name": self.name, "g_address": self.address, "g_folder": folder, "g_state": self.state}
        self.words = [folder / "usr/bin/linux.uml", f"mem={memory}M", "root=/dev/root", "rootfstype=hostfs"]
        self.words += ["rootflags=/", "ro", "quiet", f"init={folder / init}", "con=null", "con0=fd:0,fd:1"]
        self.words += [f"eth0=tuntap,tap{number}", *(f"{name}={value}" for name, value in told.items())]
        self.said = open(folder / f"{self.name}.said", "w")
        self.machine = None

    def switch_on(self):
        self.machine = subprocess.Popen(
            self.words, stdin=subprocess.DEVNULL, stdout=self.said, stderr=self.said, start_new_session=True
        )
        end = time.monotonic() + PATIENCE
        while self.machine.poll() is None and time.monotonic() < end:
            with contextlib.suppress(OSError), socket.create_connection((self.address, AGENT), 1):
                return
            time.sleep(0.1)
        raise AssertionError(f"{self.name} starts: {pathlib.Path(self.said.name).read_text()[-1000:]}")

    def switch_off(self):
        """As by its plug."""
        if self.machine and self.machine.poll() is None:
            os.killpg(self.machine.pid, 9)
            self.machine.wait()

    def try_to(self, command):
        """What a command prints there, and its status."""
        with socket.create_connection((self.address, AGENT), PATIENCE) as agent:
            agent.sendall(command.encode())
            agent.shutdown(socket.SHUT_WR)
            said = b"".join(iter(lambda: agent.recv(65536), b"")).decode(errors="replace")
        text, _, status = said.rpartition("\0")
        return text.strip(), int(status)

    def run(self, command):
        """What a command prints there. It must end well."""
        said, status = self.try_to(command)
        assert status == 0, f"{self.name}: {command}: {status}: {said}"
        return said

    def mount(self, options="", what=f"{SERVER}:/data"):
        self.run(f"mount -t nfs -o vers=3,proto=tcp,lock{options} {what} /mnt")

    def __enter__(self):
        return self

    def __exit__(self, *error):
        self.switch_off()
        self.said.close()
