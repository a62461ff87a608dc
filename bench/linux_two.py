#!/usr/bin/env python3
"""Tries the server with two machines at once, each with Linux' own client (guests.py) and an address of its own, beside
contrib/lockd: processes of one exclude those of the other, wait for them and are called back; both count one number in
a file up under a lock; what one has written and closed the other reads once it opens it; both make, rename and remove
names in one directory at once, and each sees what the other did.

Wanted are what guests.py wants, and gcc.

usage: bench/linux_two.py [PROGRAM]
"""
import concurrent.futures
import contextlib
import time

import guests
import nfsd
from linux_locks import ASKS_AGAIN, Client, compile_processes, served

ROUNDS = 20
NAMES = 100
COUNTS = 40  # of each machine
START = 3  # seconds until both begin


class Both:
    """Two machines, which do things at once."""

    def __init__(self, *clients):
        self.clients = clients

    def run(self, *commands):
        """What each prints for its command, or for the one that is given."""
        with concurrent.futures.ThreadPoolExecutor(2) as pool:
            return list(pool.map(Client.run, self.clients, commands if len(commands) > 1 else commands * 2))

    def race(self, command):
        """For how many of so many numbers ($i) each did it. They begin at one moment, each in an order of its own."""
        begin = f"until [ $(date +%s) -ge {int(time.time()) + START} ]; do sleep 0.01; done"
        turns = f"for i in $(shuf -i 1-{NAMES}); do {command} 2> /dev/null && won=$((won + 1)); done"
        return list(map(int, self.run(f"won=0; {begin}; {turns}; echo $won")))


def excludes(one, two):
    """What a process of one machine has locked no process of the other gets until it is given back."""
    first, second = one.processes[0], two.processes[0]
    assert first.locks("w", 0, 100)
    assert not second.locks("w", 99, 1) and not second.locks("r", 0, 1) and second.locks("w", 100, 100)
    assert second.ask("test", "w", 0, 50) == "w 0 100" and first.ask("test", "w", 150, 0) == "w 100 100"
    assert not first.locks("r", 150, 1)
    assert first.locks("u", 0, 0) and second.locks("w", 0, 0) and second.locks("u", 0, 0)
    assert first.locks("r", 0, 0) and second.locks("r", 0, 0) and not second.locks("w", 0, 1)
    assert first.locks("u", 0, 0) and second.locks("w", 0, 1) and second.locks("u", 0, 0)
    print("locks: what one machine has the other does not get")


def waits(one, two):
    """A process of either machine that waits for one of the other gets its lock by a call, and not as it asks again."""
    longest = 0
    for holder, waiter in ((one, two), (two, one)) * 3:
        first, second = holder.processes[0], waiter.processes[0]
        assert first.locks("w", 0, 0)
        second.waits("w", 10, 10, waiter.processes[1])
        begin = time.monotonic()
        assert first.locks("u", 0, 0) and second.hear() == "done"
        longest = max(longest, time.monotonic() - begin)
        assert not first.locks("w", 0, 0) and second.locks("u", 0, 0)
    assert longest < ASKS_AGAIN / 2
    print(f"locks: who waits for the other machine is called back, and has the lock {longest:.2f} s later at most")


def counts(both):
    """Both count a number in a file up, under a lock of another."""
    one, two = both.clients
    one.run("echo 0 > /mnt/number; touch /mnt/guard")
    once = "flock /mnt/guard sh -c 'read -r n < /mnt/number; echo $((n + 1)) > /mnt/number'"
    both.run(f"for i in $(seq {COUNTS}); do {once} || exit 1; done")
    found = one.run("cat /mnt/number"), two.run("cat /mnt/number")
    assert found == (str(2 * COUNTS),) * 2, found
    print(f"locks: both counted one number up to {2 * COUNTS} under a lock")


def close_to_open(both):
    """What one machine has written and closed the other reads once it opens it, with the options that a mount has."""
    one, two = both.clients
    both.run(f"mkdir /run/open && mount -t nfs -o vers=3,proto=tcp,lock {guests.SERVER}:/data /run/open")
    for turn in range(ROUNDS):
        writer, reader = (one, two) if turn % 2 else (two, one)
        size = (1, 100, 4096, 70_000, 300_000)[turn % 5]
        make = f"yes '{turn} of {writer.name}' | head -c {size}"
        writer.run(f"{make} > /run/open/text")
        seen = reader.run("sha256sum < /run/open/text")
        assert seen == writer.run(f"{make} | sha256sum"), f"turn {turn}"
        writer.run("echo more >> /run/open/text")
        assert reader.run("tail -c 5 /run/open/text") == "more", f"turn {turn}"
    both.run("umount /run/open")
    print(f"close-to-open: in {ROUNDS} turns one reads what the other has written and closed")


def one_directory(both):
    """Both make names in one directory at once, and each sees all; what both want one gets; each removes the other's.
    """
    one, two = both.clients
    one.run("mkdir /mnt/shared")
    both.run(*(f"for i in $(seq {NAMES}); do echo {each.name} > /mnt/shared/{each.name}.$i || exit 1; done"
               for each in both.clients))
    assert both.run("ls /mnt/shared | wc -l") == [str(2 * NAMES)] * 2
    won = both.race("mkdir /mnt/shared/both.$i")
    assert sum(won) == NAMES, won
    moved = both.race("mv -T /mnt/shared/both.$i /mnt/shared/moved.$(hostname).$i")
    assert sum(moved) == NAMES and all(won + moved), moved
    assert both.run("ls /mnt/shared | grep -c ^moved") == [str(NAMES)] * 2
    both.run(*(f"for i in $(seq {NAMES}); do rm /mnt/shared/{other.name}.$i || exit 1; done" for other in (two, one)))
    both.run("rm -rf /mnt/shared/moved.$(hostname).*")
    assert both.run("ls -A /mnt/shared") == ["", ""]
    one.run("rmdir /mnt/shared")
    assert two.try_to("ls /mnt/shared")[1] != 0
    print(f"one directory: {2 * NAMES} names of both, and {NAMES} that both wanted and moved, {won} and {moved}")


def main():
    words = nfsd.parser(__doc__)
    words.add_argument("program", metavar="PROGRAM", nargs="?", default=nfsd.PROGRAM, help="the program (this one)")
    program = words.parse_args().program
    with guests.apart() as folder, contextlib.ExitStack() as stack:
        compile_processes(folder)
        one, two = (stack.enter_context(Client(folder, number)) for number in (1, 2))
        addresses = [one.address, two.address]
        callbacks = [f"--callback={address}=127.110.0.{number}:290" for number, address in enumerate(addresses, 1)]
        stack.enter_context(served(program, addresses, *callbacks))
        with concurrent.futures.ThreadPoolExecutor(2) as pool:
            list(pool.map(Client.switch_on, (one, two)))
        both = Both(one, two)
        excludes(one, two)
        waits(one, two)
        counts(both)
        close_to_open(both)
        one_directory(both)
        for client in both.clients:
            client.shut_down()


if __name__ == "__main__":
    main()
