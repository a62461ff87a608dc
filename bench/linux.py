#!/usr/bin/env python3
"""Tries the server with Linux' own client: its kernel mounts the export, in a machine of User Mode Linux (guests.py),
with the words that docs/OPERATING.md tells, and makes the checks of bench/linux_checks.sh; each that fails is named.

Wanted is what guests.py wants.

usage: bench/linux.py [PROGRAM]
"""
import shutil

import guests
import network
import nfsd

MEMORY = 512  # MB


def main():
    words = nfsd.parser(__doc__)
    words.add_argument("program", metavar="PROGRAM", nargs="?", default=nfsd.PROGRAM, help="the program (this one)")
    program = words.parse_args().program
    with guests.apart() as folder, network.Server(program, at="0.0.0.0") as server:
        shutil.copy(guests.HERE / "linux_checks.sh", folder)
        with guests.Guest(folder, 1, MEMORY) as guest:
            guest.switch_on()
            said = guest.run(f"sh {folder}/linux_checks.sh {guests.SERVER} {server.port}")
    print(said)
    assert said.endswith(", 0 failed"), "each check holds"


if __name__ == "__main__":
    main()
