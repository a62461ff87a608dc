#!/usr/bin/env python3
"""Tries the units of contrib/ under systemd, in a machine of User Mode Linux (guests.py), with little memory: lines by
the pipe and a reload change the exports, a reload without exports does not; signals by habit, "systemctl stop" and
"restart" end nothing; lockd comes with nfsd, comes back where it is killed, and goes with it; clients that fill all
memory are refused, and nothing is lost; "end", and the machine's shutdown, end it in order, and it is not started anew.

Wanted are what guests.py wants, and systemd.

usage: bench/unit.py [PROGRAM]
"""
import contextlib
import os
import shutil
import time

import full
import guests
import network
import nfsd

CONTRIB = guests.HERE.parent / "contrib"
UNITS = ("nfsd.service", "nfsd-control.socket", "nfsd-lockd.service")
EXPORTS = "EXPORTS=--export=/data,rw,* --export=/tools,ro,*\n"
FILES = {
    "default/nfsd": EXPORTS + "OPTIONS=--start=7\n",
    "default/nfsd-lockd": "CLIENTS=10.9.0.0/28\n",
    "systemd/system/nfsd.service.d/tried.conf": """[Service]
LimitAS=200M
MemoryMax=240M
ExecStopPost=+/bin/sh -c 'echo $$SERVICE_RESULT $$EXIT_STATUS >> /mnt/ended'
""",
    "systemd/system/try.target": "[Unit]\nWants=agent.service nfsd.service systemd-journald.service\n",
    "systemd/system/agent.service": "[Service]\nExecStart=/usr/bin/env python3 /run/copies/guest_agent.py\n",
    "machine-id": "0123456789abcdef0123456789abcdef\n",
}
PORT = 2049
MEMORY = 600  # MB
FULL = 20  # refusals in turn that tell of a full memory
SOON = 300  # seconds in which something comes about, on a busy processor
HABITS = "HUP USR1 USR2 ALRM VTALRM PROF IO PWR"


def prepare(folder, program):
    """What unit_init.sh puts in its place."""
    unit = folder / "unit"
    for name, text in FILES.items():
        path = unit / "etc" / name
        path.parent.mkdir(parents=True, exist_ok=True)
        path.write_text(text)
    wanted = unit / "etc/systemd/system/nfsd.service.wants"
    wanted.mkdir()
    os.symlink("../nfsd-lockd.service", wanted / "nfsd-lockd.service")
    for name in UNITS:
        shutil.copy(CONTRIB / name, unit / "etc/systemd/system")
    shutil.copy(program, unit / "nfsd")
    shutil.copy(CONTRIB / "lockd", unit)
    shutil.copy(guests.HERE / "unit_init.sh", folder)


class Unit:
    """nfsd.service in the machine."""

    def __init__(self, guest):
        self.guest = guest
        self.comes("listening on 0.0.0.0:2049")
        self.process = self.shown("MainPID")
        self.connection().make(b"kept")

    def shown(self, name, unit="nfsd.service"):
        return self.guest.run(f"systemctl show --value -p {name} {unit}")

    def said(self):
        return self.guest.run("journalctl -q --no-pager -o cat")

    def comes(self, text, count=1):
        """The journal comes to have this so many times."""
        end = time.monotonic() + SOON
        while self.said().count(text) < count:
            assert time.monotonic() < end, f"{text!r} stands in the journal: {self.said()[-2000:]}"
            time.sleep(0.2)

    def becomes(self, state, unit="nfsd.service"):
        end = time.monotonic() + SOON
        while self.shown("ActiveState", unit) != state:
            assert time.monotonic() < end, f"{unit} is {state}: {self.said()[-2000:]}"
            time.sleep(0.2)

    def runs_on(self):
        """It is the same process, which has all that it had."""
        assert self.shown("MainPID") == self.process and self.shown("ActiveState") == "active"
        assert network.status(self.connection().ask(nfsd.lookup(1, b"kept"))) == full.OK

    def connection(self):
        return network.Connection(PORT, "0.0.0.0", to=self.guest.address)

    def exports(self):
        return self.guest.run("showmount --no-headers -e 127.0.0.1").split("\n")


def hears_lines(unit):
    """Lines by the pipe change the exports, and so does a reload, which puts those of the file in their place."""
    unit.guest.run("printf 'add /data,rw,*\\nadd /new,rw,*\\napply\\n' > /run/nfsd/control")
    unit.comes("applied")
    assert [line.split()[0] for line in unit.exports()] == ["/data", "/new"]
    unit.guest.run("systemctl reload nfsd")
    unit.comes("keeps 1, drops /new, adds /tools")
    unit.comes("applied", 2)
    assert [line.split()[0] for line in unit.exports()] == ["/data", "/tools"]
    unit.guest.run("echo OPTIONS=--start=7 > /etc/default/nfsd")
    assert unit.guest.try_to("systemctl reload nfsd")[1] != 0, "no exports are a mistake"
    unit.guest.run("rm /etc/default/nfsd")
    assert unit.guest.try_to("systemctl reload nfsd")[1] != 0, "no file is one"
    unit.guest.run(f"printf '{EXPORTS.strip()}\\nOPTIONS=--start=7\\n' > /etc/default/nfsd")
    assert len(unit.exports()) == 2
    unit.runs_on()
    print("lines: the pipe's and a reload's change the exports, and a reload without exports changes none")


def bears_habits(unit):
    """What operators do by habit ends nothing."""
    for name in HABITS.split():
        unit.guest.run(f"systemctl kill -s {name} nfsd")
    for word in ("stop", "restart"):
        said, status = unit.guest.try_to(f"systemctl {word} nfsd")
        assert status != 0 and "refused" in said, said
    unit.runs_on()
    print(f"habits: {HABITS}, stop and restart end nothing")


def has_lockd(unit):
    """lockd comes with it, is where it is called, and comes back where it is killed."""
    unit.becomes("active", "nfsd-lockd.service")
    command = unit.guest.run(f"tr '\\0' ' ' < /proc/{unit.process}/cmdline")
    assert "--callback 10.9.0.1=127.110.0.1:290 " in command and "--callback 10.9.0.14=" in command
    unit.comes("clients are called back")
    unit.guest.run("systemctl kill -s KILL nfsd-lockd")
    unit.comes("clients are called back", 2)
    assert "nlockmgr" in unit.guest.run("rpcinfo -p 127.0.0.1")
    unit.runs_on()
    print("lockd: it comes with nfsd, which calls clients back there, and comes back where it is killed")


def is_full(unit):
    """Clients fill all memory: they are refused, and everything that was there before stays."""
    connection, made, refused = unit.connection(), 0, 0
    file = connection.make(b"large")
    begin = time.monotonic()
    while refused < FULL:
        try:
            status = full.status(connection.ask(full.write(made, file, made * len(full.DATA))))
        except OSError:
            connection, status = unit.connection(), full.REFUSED
        made, refused = (made + 1, 0) if status == full.OK else (made, refused + 1)
    unit.runs_on()
    held = int(unit.shown("MemoryCurrent"))
    assert network.status(unit.connection().ask(nfsd.remove(1, b"large"))) == full.OK
    unit.runs_on()
    size = made * len(full.DATA) >> 20
    print(f"full: {size} MiB were written in {time.monotonic() - begin:.0f} s, and more refused at {held >> 20} MiB")


def ends(unit):
    """By "end" it ends in order, lockd with it, and neither is started anew, also not by a line that comes too late."""
    connection = unit.connection()
    unit.guest.run("printf 'end\\nend\\n' > /run/nfsd/control")
    unit.becomes("inactive")
    unit.becomes("inactive", "nfsd-lockd.service")
    assert (unit.shown("Result"), unit.shown("ExecMainStatus"), unit.shown("NRestarts")) == ("success", "0", "0")
    with contextlib.suppress(ConnectionError), connection.socket:
        assert connection.socket.recv(1) == b""
    unit.guest.run("systemctl start nfsd")
    unit.comes("listening on 0.0.0.0:2049", 2)
    unit.becomes("active", "nfsd-lockd.service")
    print("end: nfsd ends in order, and lockd with it; both start again when they are told to")


def shuts_down(guest):
    """Where the machine is shut down, too, it ends in order."""
    ended = guest.state / "ended"
    before = ended.read_text()
    guest.run("setsid sh -c 'sleep 1; systemctl poweroff --no-block' > /dev/null 2>&1 &")
    guest.machine.wait(guests.PATIENCE)
    assert (before, ended.read_text()) == ("success 0\n", "success 0\n" * 2)
    print("shutdown: it ends in order where the machine is shut down")


def main():
    words = nfsd.parser(__doc__)
    words.add_argument("program", metavar="PROGRAM", nargs="?", default=nfsd.PROGRAM, help="the program (this one)")
    given = words.parse_args()
    with guests.apart() as folder:
        prepare(folder, given.program)
        with guests.Guest(folder, 1, MEMORY, "unit_init.sh") as guest:
            guest.switch_on()
            verified = guest.run(f"systemd-analyze --man=no --recursive-errors=no verify {' '.join(UNITS)}")
            assert verified == "", f"systemd finds no fault: {verified}"
            unit = Unit(guest)
            has_lockd(unit)
            hears_lines(unit)
            bears_habits(unit)
            is_full(unit)
            ends(unit)
            shuts_down(guest)


if __name__ == "__main__":
    main()
