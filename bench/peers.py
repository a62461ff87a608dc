#!/usr/bin/env python3
"""nfsd beside others: lets this build, nfs-ganesha over a tmpfs, and a server that does nothing take turns at the same
calls over TCP, at one priority, and keeps what came of it by commit in bench/results/. It writes bench/RESULTS.md, a
page with all this and with the figures of other scripts that stand in bench/results/figures.tsv.

nfs-ganesha is Debian's, and is installed where it isn't there, with rpcbind, which it asks for (`apt-get update`,
`apt-get install`): use a machine that may have them. All servers run in a network and a file system view of their own
(`unshare`), so no port of the machine is opened. It serves a tmpfs by its VFS, or with --mem its own store in memory;
either way it writes nothing to a disk. Of its settings all that matter for speed are as Debian has them. Locks are left
out, for which it needs a status monitor too.

Calls, connections and rounds are those of bench/turns.py: each figure is the median of the rounds, and a ratio that of
the rounds' ratios. Where other work had more than a third of a processor before, the page says that the machine was
busy: such figures show that it runs, and no more.

It needs root, Debian, gcc and git.

    bench/peers.py                           measures crates/nfsd/out/nfsd, and writes the page
    bench/peers.py --render                  writes the page again

usage: bench/peers.py [--program PROGRAM] [--workloads A,B..] [--rounds N] [--seconds S] [--connections N] [--depth N]
                      [--mem] [--plain] [--render]
"""
import contextlib
import csv
import datetime
import hashlib
import json
import os
import pathlib
import platform
import shutil
import signal
import socket
import statistics
import subprocess
import sys
import tempfile
import time

import nfsd
import turns

ROOT = pathlib.Path(__file__).resolve().parent.parent
RESULTS = ROOT / "bench/results"
FIGURES = RESULTS / "figures.tsv"
PAGE = ROOT / "bench/RESULTS.md"
NFSD, GANESHA, NOTHING = "nfsd", "ganesha", "nothing"
PACKAGES = ("nfs-ganesha", "nfs-ganesha-vfs", "nfs-ganesha-mem", "rpcbind")
APART = "PEERS_APART"  # set where this runs in a view of its own
BUSY = 0.33  # processors that others had, above which a machine is busy
START = 20  # seconds for a server to listen
WORKLOADS = [name for name in turns.WORKLOADS if name != "lock"]
PROVED = "proved"
PORT, MOUNT_PORT, NLM_PORT = 20490, 20491, 20492

CONFIGURATION = """
NFS_CORE_PARAM {{
    Protocols = 3;
    NFS_Port = {port};
    MNT_Port = {mount_port};
    NLM_Port = {nlm_port};
    Enable_RQUOTA = false;
    mount_path_pseudo = true;
}}
NFSV4 {{ Graceless = true; }}
EXPORT {{
    Export_Id = 1;
    Path = {path};
    Pseudo = /data;
    Access_Type = RW;
    Squash = No_Root_Squash;
    Protocols = 3;
    SecType = sys;
    FSAL {{ Name = {store}; }}
}}
{more}
"""
# (its files in memory hold so much of their data; more is let go unseen)
MEM = "MEM {{ Inode_Size = {bytes}; }}".format(bytes=1 << 20)


def run(*words, **how):
    return subprocess.run(words, check=True, stdout=subprocess.PIPE, text=True, **how).stdout


def install():
    """Debian's packages, where they are not there."""
    if shutil.which("ganesha.nfsd") and shutil.which("rpcbind"):
        return
    quiet = {"stdout": subprocess.DEVNULL, "env": {**os.environ, "DEBIAN_FRONTEND": "noninteractive"}, "check": True}
    subprocess.run(["apt-get", "update"], **quiet)
    subprocess.run(["apt-get", "install", "-y", "--no-install-recommends", *PACKAGES], **quiet)


def go_apart():
    """Goes on in a network of its own, where nothing that runs on this machine can be reached or in the way."""
    if not os.environ.get(APART):
        os.environ[APART] = "1"
        words = ["unshare", "--net", "--mount", "--propagation", "private", sys.executable, *sys.argv]
        os.execvp("unshare", words)
    run("ip", "link", "set", "lo", "up")
    for folder in ("/run", "/var/lib/nfs"):
        run("mount", "-t", "tmpfs", "tmpfs", folder)
    for folder in ("/run/rpcbind", "/run/lock", "/var/lib/nfs/ganesha"):
        os.makedirs(folder)


# The servers.


@contextlib.contextmanager
def process(*words, **how):
    """A process that runs meanwhile."""
    started = subprocess.Popen(list(map(str, words)), **how)
    try:
        yield started
    finally:
        started.terminate()
        started.wait()


class Ganesha:
    """nfs-ganesha that runs, with its port mapper."""

    def __init__(self, stack, folder, given):
        store = folder / "store"
        store.mkdir()
        run("mount", "-t", "tmpfs", "tmpfs", store)
        store_name, more = ("MEM", MEM) if given.mem else ("VFS", "")
        ports = {"port": PORT, "mount_port": MOUNT_PORT, "nlm_port": NLM_PORT}
        configuration = folder / "ganesha.conf"
        configuration.write_text(CONFIGURATION.format(path=store, store=store_name, more=more, **ports))
        stack.enter_context(process("rpcbind", "-f", stderr=subprocess.DEVNULL))
        while not os.path.exists("/run/rpcbind.sock"):
            time.sleep(0.05)
        words = ["ganesha.nfsd", "-F", "-N", "NIV_WARN", "-L", folder / "log", "-f", configuration, "-p", "/run/g.pid"]
        self.process = stack.enter_context(process(*words))
        self.port, self.mount_port = PORT, MOUNT_PORT
        until = time.monotonic() + START
        while not all(map(listens, ports.values())):
            if self.process.poll() is not None or time.monotonic() > until:
                sys.exit(f"peers: nfs-ganesha does not start:\n{(folder / 'log').read_text()[-2000:]}")
            time.sleep(0.1)


def listens(port):
    with contextlib.suppress(OSError), socket.create_connection(("127.0.0.1", port), 1):
        return True
    return False


def side(stack, name, server, load, given):
    """A server with a load generator that has made its files there."""
    words = [load, "--port", server.port, "--mount-port", getattr(server, "mount_port", server.port)]
    words += ["--server", server.process.pid, "--connections", given.connections, "--depth", given.depth]
    words += ["--warm-up", turns.WARM_UP, "--seconds", given.seconds] + ["--unchecked"] * (name == NOTHING)
    pipes = {"stdin": subprocess.PIPE, "stdout": subprocess.PIPE, "text": True}
    return turns.Side(name, server, stack.enter_context(process(*words, **pipes)))


def sides_of(stack, folder, given):
    load, nothing = turns.compiled(folder)
    nfsd_server = stack.enter_context(turns.network.Server(given.program))
    nothing_server = stack.enter_context(turns.network.Server(nothing))
    ganesha = Ganesha(stack, folder, given)
    servers = ((NFSD, nfsd_server), (GANESHA, ganesha), (NOTHING, nothing_server))
    return [side(stack, name, server, load, given) for name, server in servers]


# What came of it.


def commit():
    """The last commit that changed the program, and what it is called."""
    words = ["git", "-C", str(ROOT), "-c", f"safe.directory={ROOT}"]
    if run(*words, "status", "--porcelain", "--", "crates").strip():
        sys.exit("peers: crates/ has changes that are not committed, and figures are kept by commit")
    found, moment, subject = run(*words, "log", "-1", "--format=%H%n%cI%n%s", "--", "crates").splitlines()
    return {"commit": found, "committed": moment, "subject": subject}


def machine():
    cpus = pathlib.Path("/proc/cpuinfo").read_text()
    model = next((line.partition(": ")[2] for line in cpus.splitlines() if line.startswith("model name")), "?")
    return {"processors": os.cpu_count(), "model": model, "kernel": platform.release()}


def measured(given, folder):
    """What is kept of a run."""
    told = commit()
    is_proved = given.program.resolve() == nfsd.PROGRAM
    told |= {
        "measured": datetime.datetime.now(datetime.timezone.utc).isoformat(timespec="seconds"),
        "build": PROVED if is_proved else "not known to be proved",
        "sha256": hashlib.sha256(given.program.read_bytes()).hexdigest(),
        "ganesha": run("dpkg-query", "--show", "--showformat=${Version}", "nfs-ganesha"),
        "store": "MEM" if given.mem else "VFS on tmpfs",
        "machine": machine(),
        "connections": given.connections, "depth": given.depth, "rounds": given.rounds, "seconds": given.seconds,
        "busy_processors": round(turns.busy_processors(2), 2),
        "real_time": not given.plain and turns.take_priority(turns.SERVER_PRIORITY),
    }  # fmt: skip
    with contextlib.ExitStack() as stack:
        sides = sides_of(stack, folder, given)
        told["workloads"] = {}
        for workload in given.workloads:
            print(turns.WORKLOADS[workload], file=sys.stderr, flush=True)
            rounds = turns.rounds_of(workload, sides, given, turns.Spinners(0, False))
            told["workloads"][workload] = [
                {name: {"rate": turns.rate(turn), "processor": turns.processor(turn)} for name, turn in turn_of.items()}
                for turn_of in rounds
            ]
    return told


def median(rounds, of):
    return statistics.median(map(of, rounds))


def times(rounds, name, other):
    """The median of how many times the rate of another one has."""
    return median(rounds, lambda told: turns.ratio(told[name]["rate"], told[other]["rate"]))


# The page.


def page(results):
    """What the page says of these results, of which the last one is the newest."""
    newest = results[-1]
    lines = [
        "# What was measured", "",
        "`bench/peers.py` writes this page (`--render`), from `bench/results/`. Compare two programs by letting them",
        "take turns on one machine (`bench/turns.py`), and not with a figure of this page.", "",
        "## Now, next to others", "",
        "Calls a second over TCP on one machine, medians of the rounds; a ratio is the median of the rounds' ratios.",
        "`nothing` is a server that answers each call at once and does nothing: what kernel, loopback and load",
        "generator allow at most. How much a page of READDIRPLUS holds is each server's own choice.", "",
        *about(newest), "",
        "| | nfsd | ganesha | nothing | nfsd of nothing's | times ganesha's | µs of a processor: nfsd | ganesha |",
        "|---|---:|---:|---:|---:|---:|---:|---:|",
        *(row(workload, rounds) for workload, rounds in newest["workloads"].items()), "",
        "## By commit", "", *by_commit("of nothing's rate", results, NOTHING), "",
        *by_commit("times nfs-ganesha's rate", results, GANESHA), "",
        "## Other figures", "",
        "Each was measured once, of the text of its commit or of one shortly before; this page, as that commit has",
        "it, tells more. `by` is the script of `bench/` that measures it again.", "",
        "| | figure | build | by | commit |", "|---|---|---|---|---|", *figures(),
    ]  # fmt: skip
    return "\n".join(lines) + "\n"


def figures():
    """A row for each figure that no file of a commit has, under the name of its topic."""
    with FIGURES.open(newline="") as table:
        rows = list(csv.DictReader(table, delimiter="\t", quoting=csv.QUOTE_NONE))
    for number, told in enumerate(rows):
        if number == 0 or told["topic"] != rows[number - 1]["topic"]:
            yield f"| **{told['topic']}** | | | | |"
        by = ", ".join(f"`{script}`" for script in told["by"].split(", ") if script)
        yield f"| {told['what']} | {told['figure']} | {told['build']} | {by} | {told['commit']} |"


def about(told):
    """Of what, where and how it was measured."""
    machine_told = told["machine"]
    yield f"- Commit `{told['commit'][:12]}` ({told['subject']}); the build is {told['build']}."
    yield f"- nfs-ganesha {told['ganesha']}, {told['store']}; {told['connections']} connections,"
    yield f"  {told['depth']} calls in progress on each; {told['rounds']} rounds of {told['seconds']:g} s."
    yield f"- {machine_told['processors']} processors ({machine_told['model']}), Linux {machine_told['kernel']};"
    yield f"  real-time priority: {'yes' if told['real_time'] else 'no'}; measured {told['measured'][:10]}."
    if is_busy(told):
        yield f"- **The machine was busy**: other work had {told['busy_processors']:.1f} processors before. These"
        yield "  figures show that it runs, and no more."


def is_busy(told):
    return told["busy_processors"] > BUSY


def row(workload, rounds):
    rates = (f"{median(rounds, lambda told: told[name]['rate']):,.0f}" for name in (NFSD, GANESHA, NOTHING))
    shares = (f"{times(rounds, NFSD, other):.2f}" for other in (NOTHING, GANESHA))
    costs = (f"{median(rounds, lambda told: told[name]['processor']):.1f}" for name in (NFSD, GANESHA))
    return "| " + " | ".join([turns.WORKLOADS[workload], *rates, *shares, *costs]) + " |"


def by_commit(title, results, other):
    """A row for each commit: how many times the rate of another one nfsd's is."""
    names = [name for name in WORKLOADS if any(name in told["workloads"] for told in results)]
    yield f"| {title} | {' | '.join(names)} | busy | proved |"
    yield "|---|" + "---:|" * len(names) + "---:|---|"
    for told in reversed(results):
        rounds = told["workloads"]
        shares = (f"{times(rounds[name], NFSD, other):.2f}" if name in rounds else "" for name in names)
        busy = f"**{told['busy_processors']:.1f}**" if is_busy(told) else "no"
        yield f"| `{told['commit'][:12]}` | {' | '.join(shares)} | {busy} | {'yes' if told['build'] == PROVED else 'no'} |"


def render():
    results = [json.loads(file.read_text()) for file in RESULTS.glob("*.json")]
    if not results:
        sys.exit("peers: there is no result to show")
    PAGE.write_text(page(sorted(results, key=lambda told: (told["committed"], told["measured"]))))


def options():
    """What the command line says."""
    words = nfsd.parser(__doc__)
    words.add_argument("--program", metavar="PROGRAM", type=pathlib.Path, default=nfsd.PROGRAM, help="the proved one")
    words.add_argument("--workloads", metavar="A,B..", type=lambda text: text.split(","), default=WORKLOADS,
                       help=f"which, with commas between (all: {','.join(WORKLOADS)})")
    words.add_argument("--rounds", metavar="N", type=int, default=5, help="how many (5)")
    words.add_argument("--seconds", metavar="S", type=float, default=0.5, help="of each turn that are counted (0.5)")
    words.add_argument("--connections", metavar="N", type=int, default=turns.CONNECTIONS, help="how many (4)")
    words.add_argument("--depth", metavar="N", type=int, default=turns.DEPTH, help="calls on each at once (8)")
    words.add_argument("--mem", action="store_true", help="nfs-ganesha with its own store in memory")
    words.add_argument("--plain", action="store_true", help="without real-time priority")
    words.add_argument("--render", action="store_true", help="write the page alone")
    given = words.parse_args()
    for workload in given.workloads:
        if workload not in WORKLOADS:
            words.error(f"there is no workload {workload}")
    if not given.render and not os.access(given.program, os.X_OK):
        words.error(f"{given.program} is no program: `rt run` in crates/nfsd builds it, or bench/unproved")
    return given


def main():
    given = options()
    if not given.render:
        install()
        go_apart()
        for number in (signal.SIGTERM, signal.SIGINT):
            signal.signal(number, lambda *_: sys.exit("peers: stopped"))
        with tempfile.TemporaryDirectory(prefix="peers-") as folder:
            told = measured(given, pathlib.Path(folder))
            run("umount", pathlib.Path(folder) / "store")
        RESULTS.mkdir(exist_ok=True)
        (RESULTS / f"{told['commit'][:12]}.json").write_text(json.dumps(told, indent=1) + "\n")
    render()
    print(PAGE.read_text())


if __name__ == "__main__":
    main()
