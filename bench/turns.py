#!/usr/bin/env python3
"""The judge of speed: lets this build, another one if it is named, and a server that does nothing take turns at the
same calls over TCP. For each workload it prints calls a second of each, the share of the do-nothing server's rate, how
many times the other build's rate this one has, and what a call takes of a processor. A benchmark, not a test.

There are 4 connections with 8 calls in progress on each, if no others are named, and every reply is checked. Each
figure is the median of the rounds, and a ratio that of the rounds' ratios, since the turns of a round follow each
other. The load generator (load/) and the do-nothing server (null_server.c) are compiled by gcc each time. All run at
real-time priority where this is allowed, so that other work on the machine takes little from them; what it says above
the table tells whether they do. The kernel then gives 50 ms of each second to others, which the pauses between turns of
up to 0.7 s serve.

With --beside another client asks for attributes meanwhile, one call after the other: how long 99 of 100 of its calls
took at most, and how long the longest of all rounds did. The server's time of a processor is then also for them. At
real-time priority a thread that computes lets others of that priority wait for up to 100 ms where no processor is free
of such threads; on a quiet machine --plain tells waits without this.

With --busy two processors are taken while a turn is made, each by a process that spins, and goes before the others
where these have real-time priority.

    bench/turns.py --programs /tmp/nfsd /tmp/nfsd-before --workloads read4k,write4k --rounds 9

usage: bench/turns.py [--programs THIS [OTHER]] [--workloads A,B..] [--connections N] [--depth N] [--rounds N]
                      [--seconds S] [--beside] [--busy] [--plain]
"""
import contextlib
import json
import math
import multiprocessing
import os
import pathlib
import select
import shutil
import signal
import statistics
import subprocess
import sys
import tempfile
import time

import network
import nfsd

HERE = pathlib.Path(__file__).resolve().parent
CONNECTIONS, DEPTH = 4, 8
WARM_UP = 0.2  # seconds of a turn that are not counted
PAUSE = 0.2  # seconds between turns, in which others have the processors
SPINNERS = 2
SERVER_PRIORITY, SPINNER_PRIORITY = 1, 2
WORKLOADS = {
    "getattr": "GETATTR",
    "access": "ACCESS",
    "lookup": "LOOKUP among 1,000 names",
    "setattr": "SETATTR",
    "read4k": "READ of 4 KiB",
    "read64k": "READ of 64 KiB",
    "write4k": "WRITE of 4 KiB",
    "write64k": "WRITE of 64 KiB",
    "create_remove": "CREATE and REMOVE",
    "rename": "RENAME",
    "readdirplus": "READDIRPLUS, a page",
    "lock": "LOCK and UNLOCK",
    "build": "a build's mix",
}
THIS, OTHER, NOTHING = "this", "other", "nothing"


def compiled(folder):
    """The load generator and the do-nothing server."""
    if not shutil.which("gcc"):
        sys.exit("turns: there is no gcc, which compiles the load generator")
    load, nothing = folder / "load", folder / "null_server"
    for made, sources in ((load, sorted((HERE / "load").glob("*.c"))), (nothing, [HERE / "null_server.c"])):
        if subprocess.run(["gcc", "-std=gnu99", "-O2", "-pthread", "-o", made, *sources]).returncode != 0:
            sys.exit(f"turns: gcc does not compile {made.name}")
    return load, nothing


def take_priority(priority):
    """Takes real-time priority, also for all that is started from here on, and tells whether this is allowed."""
    try:
        os.sched_setscheduler(0, os.SCHED_RR, os.sched_param(priority))
    except OSError:
        return False
    return True


def busy_processors(seconds=0.5):
    """How many processors are busy at present, with whatever it is."""

    def ticks():
        with open("/proc/stat") as told:
            return [int(word) for word in told.readline().split()[1:9]]

    before = ticks()
    time.sleep(seconds)
    passed = [now - then for now, then in zip(ticks(), before)]
    idle = passed[3] + passed[4]
    return os.cpu_count() * (1 - idle / max(1, sum(passed)))


class Side:
    """A server, with the load generator that calls it."""

    def __init__(self, name, server, load):
        self.name, self.server, self.load = name, server, load
        self.hear("the files that calls work on")

    def hear(self, what):
        """The next line of the load generator."""
        line = self.load.stdout.readline()
        if not line:
            with contextlib.suppress(subprocess.TimeoutExpired):
                self.server.process.wait(0.5)
            status = self.server.process.poll()
            fate = "runs" if status is None else f"ended with status {status}"
            sys.exit(f"turns: {what}: the load generator ended, as told above; its server ({self.name}) {fate}")
        return line

    def turn(self, workload):
        """What a turn came to."""
        with contextlib.suppress(BrokenPipeError):
            self.load.stdin.write(workload + "\n")
            self.load.stdin.flush()
        return json.loads(self.hear(WORKLOADS[workload]))


@contextlib.contextmanager
def side(name, program, load, given):
    """A server that runs, and a load generator that has made its files there."""
    with network.Server(program) as server:
        words = [load, "--port", server.port, "--server", server.process.pid, "--connections", given.connections]
        words += ["--depth", given.depth, "--warm-up", WARM_UP, "--seconds", given.seconds]
        words += ["--beside"] * given.beside + ["--unchecked"] * (name == NOTHING)
        pipes = {"stdin": subprocess.PIPE, "stdout": subprocess.PIPE, "text": True}
        with subprocess.Popen(list(map(str, words)), **pipes) as process:
            try:
                yield Side(name, server, process)
            finally:
                process.terminate()


def spin(processor, has_priority, orders, other_end):
    """Takes a processor from each order to the next, and before the servers if these have priority, until no order
    comes any more."""
    os.close(other_end)
    os.sched_setaffinity(0, [processor])
    if has_priority:
        take_priority(SPINNER_PRIORITY)
    while os.read(orders, 1):
        while not select.select([orders], [], [], 0)[0]:
            pass
        os.read(orders, 1)


class Spinners:
    """Processes that take processors while they are let."""

    def __init__(self, count, has_priority):
        self.orders = []
        for processor in sorted(os.sched_getaffinity(0))[:count]:
            orders, end = os.pipe()
            words = (processor, has_priority, orders, end)
            multiprocessing.Process(target=spin, args=words, daemon=True).start()
            os.close(orders)
            self.orders.append(end)

    def __enter__(self):
        return self

    def __exit__(self, *error):
        for end in self.orders:
            os.close(end)
        for process in multiprocessing.active_children():
            process.join()

    def order(self):
        for end in self.orders:
            os.write(end, b".")

    @contextlib.contextmanager
    def spinning(self):
        self.order()
        try:
            yield
        finally:
            self.order()


def rounds_of(workload, sides, given, spinners):
    """What the turns of each round came to, by the names of the sides."""
    rounds = []
    for _ in range(given.rounds):
        told = {}
        for side in sides:
            time.sleep(PAUSE)
            with spinners.spinning():
                told[side.name] = side.turn(workload)
        rounds.append(told)
    return rounds


def ratio(one, other):
    """The one as often as it has the other, which may be nothing where a turn was too short for a call."""
    return one / other if other else math.inf


def rate(told):
    return told["calls"] / told["seconds"]


def times(told, name, other):
    """How many times the rate of another side one has."""
    return ratio(rate(told[name]), rate(told[other]))


def processor(told):
    """The microseconds of a processor that a call takes."""
    return ratio(1e6 * told["processor"], told["calls"])


class Group:
    """Columns of the table, one for each of these sides: what `of` makes of a round, over all rounds."""

    def __init__(self, title, names, form, of, over=statistics.median):
        self.title, self.names, self.form, self.of, self.over = title, names, form, of, over

    def line(self, texts):
        """A line of these columns, as wide as the title at least."""
        return " ".join(f"{text:>9}" for text in texts).rjust(len(self.title))

    def head(self):
        return self.line(self.names)

    def top(self):
        return self.title.rjust(len(self.head()))

    def figures(self, rounds):
        figures = (self.over([self.of(told, name) for told in rounds]) for name in self.names)
        return self.line(format(figure, self.form) for figure in figures)


def groups_for(names, beside):
    """The columns for these sides."""
    builds = [name for name in names if name != NOTHING]
    groups = [
        Group("calls a second", names, ",.0f", lambda told, name: rate(told[name])),
        Group("of nothing's", builds, ".2f", lambda told, name: times(told, name, NOTHING)),
    ]
    if OTHER in builds:
        groups += [Group("times other's", [THIS], ".2f", lambda told, name: times(told, name, OTHER))]
    groups += [Group("us of a processor a call", names, ",.1f", lambda told, name: processor(told[name]))]
    if beside:
        groups += [
            Group("us of 99 % beside", names, ",.0f", lambda told, name: 1e6 * told[name]["percentile"]),
            Group("us of the longest", names, ",.0f", lambda told, name: 1e6 * told[name]["longest"], max),
        ]
    return groups


def print_line(label, parts):
    print(f"{label:24}   " + "   ".join(parts), flush=True)


def print_about(programs, given, busy, has_priority):
    """What is measured, and how."""
    for name, program in programs.items():
        print(f"{name}: {program}")
    print(f"nothing: a server that does nothing\nconnections: {given.connections}, depth: {given.depth}; ", end="")
    print(f"medians of {given.rounds} rounds of {given.seconds:g} s; ", end="")
    print(f"{SPINNERS} processors taken by spinning processes; " if given.busy else "", end="")
    print(f"real-time priority: {'yes' if has_priority else 'NO'}; ", end="")
    print(f"before, other work had {busy:.1f} of {os.cpu_count()} processors\n", flush=True)


def measure(given, folder):
    """Lets all take their turns, and prints the table."""
    load, nothing = compiled(folder)
    busy = busy_processors()
    has_priority = not given.plain and take_priority(SERVER_PRIORITY)
    programs = dict(zip([THIS, OTHER], given.programs))
    print_about(programs, given, busy, has_priority)
    programs[NOTHING] = nothing
    groups = groups_for(list(programs), given.beside)
    with contextlib.ExitStack() as stack:
        sides = [stack.enter_context(side(name, program, load, given)) for name, program in programs.items()]
        spinners = stack.enter_context(Spinners(SPINNERS if given.busy else 0, has_priority))
        print_line("", [group.top() for group in groups])
        print_line("", [group.head() for group in groups])
        for workload in given.workloads:
            rounds = rounds_of(workload, sides, given, spinners)
            print_line(WORKLOADS[workload], [group.figures(rounds) for group in groups])


def options():
    """What the command line says."""
    words = nfsd.parser(__doc__)
    words.add_argument("--programs", metavar="PROGRAM", nargs="+", type=pathlib.Path, default=[nfsd.PROGRAM],
                       help="this build and, if it is to be compared, another (the proved one alone)")
    words.add_argument("--workloads", metavar="A,B..", type=lambda text: text.split(","), default=list(WORKLOADS),
                       help=f"which, with commas between (all: {','.join(WORKLOADS)})")
    words.add_argument("--connections", metavar="N", type=int, default=CONNECTIONS, help=f"how many ({CONNECTIONS})")
    words.add_argument("--depth", metavar="N", type=int, default=DEPTH,
                       help=f"calls in progress on each connection ({DEPTH})")
    words.add_argument("--rounds", metavar="N", type=int, default=5, help="how many (5)")
    words.add_argument("--seconds", metavar="S", type=float, default=0.5, help="of each turn that are counted (0.5)")
    words.add_argument("--beside", action="store_true", help="how long another client waits for its GETATTRs meanwhile")
    words.add_argument("--busy", action="store_true", help="with two processors taken by others")
    words.add_argument("--plain", action="store_true", help="without real-time priority")
    given = words.parse_args()
    if len(given.programs) > 2:
        words.error("--programs names this build, and one other")
    for program in given.programs:
        if not os.access(program, os.X_OK):
            words.error(f"{program} is no program: `rt run` in crates/nfsd builds it, and bench/unproved without proof")
    for workload in given.workloads:
        if workload not in WORKLOADS:
            words.error(f"there is no workload {workload}")
    if given.rounds < 1 or given.seconds <= 0:
        words.error("there is no round, or it has no length")
    if given.connections < 1 or given.depth < 1:
        words.error("there is no connection, or no call in progress")
    return given


def main():
    given = options()
    # so that nothing is left running when this is told to stop
    for number in (signal.SIGTERM, signal.SIGINT):
        signal.signal(number, lambda *_: sys.exit("turns: stopped"))
    with tempfile.TemporaryDirectory(prefix="turns-") as folder:
        measure(given, pathlib.Path(folder))


if __name__ == "__main__":
    main()
