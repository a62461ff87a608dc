"""Runs of programs while refuse.c refuses them growths: a program of any kind, each scene, and each test that is made
for it. Shared by bench/refuse, whose text says what must be. """
import mmap
import os
import pathlib
import re
import shutil
import struct
import subprocess
import sys
import tempfile

HERE = pathlib.Path(__file__).resolve().parent
CRATES = HERE.parent / "crates"
TOLD = 5  # how many wrong runs are told of each list

# The tests in which any growth may be refused, by their crates.
TESTS = {
    "wire_tests": ["what_memory_was_refused_for_is_fed_again"],
    "machine_tests": ["a_refused_growth_changes_nothing"],
    "nlm_tests": ["a_refused_change_leaves_the_table", "a_refused_call_leaves_the_file"],
    "engine_tests": [
        "a_refused_step_is_made_again",
        "a_refused_growth_changes_nothing",
        "a_refused_start_is_made_again",
    ],
    "stream_tests": [
        "null_is_refused",
        "getattr_is_refused",
        "mnt_is_refused",
        "create_is_refused",
        "lines_are_refused_for_want_of_memory",
    ],
    "pool_tests": [
        "a_file_is_made_once_for_each_verifier",
        "a_handle_that_is_gone_is_not_given_again",
        "a_repeat_gets_the_reply_that_is_kept",
        "a_file_with_two_names_loses_one",
        "a_full_era_is_followed_by_another",
        "an_era_ends_in_the_room_of_the_one_before_it",
        "a_pool_is_stopped_with_its_records",
        "a_call_is_refused_at_each_of_its_steps",
        "a_call_is_refused_in_each_shard",
    ],
}

# What the program of the scenes says of one that is as it must be.
KEPT = re.compile(rb"1 scenes are as they must be, 0 are not\n(?:(\d+) records were refused, and sent again\n)?")

NO_LINES = {ord("\n"): " "}


class Wrong(Exception):
    """What must not be."""


class Orders:
    """What refuse.c is told, and what it counts."""

    def __init__(self, folder):
        if not shutil.which("gcc"):
            sys.exit("refuse: there is no gcc, which compiles refuse.c")
        library, name = folder / "refuse.so", folder / "orders"
        words = ["gcc", "-std=gnu11", "-O2", "-shared", "-fPIC", "-o", library, HERE / "refuse.c"]
        if subprocess.run(words).returncode != 0:
            sys.exit("refuse: gcc does not compile refuse.c")
        name.write_bytes(bytes(32))
        with open(name, "r+b") as file:
            self.words = mmap.mmap(file.fileno(), 32)
        # They go to each program that is started from here on.
        os.environ["LD_PRELOAD"], os.environ["REFUSE_ORDERS"] = str(library), str(name)

    def give(self, first=0, last=0):
        """From now on growths are counted from 1, and those from the first to the last are refused."""
        struct.pack_into("=4Q", self.words, 0, 0, 0, 0, 0)
        struct.pack_into("=2Q", self.words, 8, first, last)

    def counted(self):
        return struct.unpack_from("=Q", self.words, 0)[0]

    def refused(self):
        return struct.unpack_from("=Q", self.words, 24)[0]


def windows(given, growths, before=0):
    """Which growths are refused together, in turn; those before are left."""
    last = min(given.last or growths, growths - before)
    for first in range(before + given.first, before + last + 1, given.every):
        yield first, first + given.in_turn


class Runs:
    """Runs of one program, and what they came to."""

    def __init__(self, words, given, orders):
        self.words, self.given, self.orders = words, given, orders
        self.count, self.refused, self.wrong = 0, 0, []

    def ran(self, window=(), source=os.devnull):
        """How a run ends, and what it writes, while these growths are refused."""
        self.orders.give(*window)
        with open(source, "rb") as file:
            try:
                done = subprocess.run(self.words, stdin=file, capture_output=True, timeout=self.given.patience)
            except subprocess.TimeoutExpired:
                raise Wrong(f"it has not ended after {self.given.patience:g} seconds") from None
        return done.returncode, done.stdout, done.stderr

    def grown(self, source=os.devnull):
        """How a run ends for which nothing is refused, and how many growths it takes."""
        ended = self.ran(source=source)
        return ended, self.orders.counted()

    def judge(self, growths, before, judged, source=os.devnull):
        """Runs it for each window, and has each end judged."""
        for window in windows(self.given, growths, before):
            self.count += 1
            try:
                ended = self.ran(window, source)
                self.refused += self.orders.refused() > 0
                judged(ended)
            except Wrong as fault:
                self.wrong.append((window, fault))

    def tell(self):
        """Tells which runs were wrong."""
        for window, fault in self.wrong if self.given.all else self.wrong[:TOLD]:
            print(f"    growths {window[0]} to {window[1]} refused: {fault}", flush=True)
        return not self.wrong


def shown(ended):
    status, output, said = ended
    return f"it ends with {status}, {output[-300:]!r} and {said[-200:]!r}"


def tried_program(given, orders):
    """Whether the named program ends as without refusals, whatever is refused. Tells what came."""
    runs = Runs([given.program, *given.arguments], given, orders)
    source = given.stdin or os.devnull
    expected, growths = runs.grown(source)

    def judged(ended):
        if ended[:2] != expected[:2]:
            raise Wrong(shown(ended))

    runs.judge(growths, 0, judged, source)
    print(
        f"{given.program.name} ends with {expected[0]} and takes {growths:,} growths; {runs.count:,} runs, of which"
        f" {runs.refused:,} had growths refused; {len(runs.wrong)} ended otherwise"
    )
    return runs.tell()


def scenes(text):
    """The scenes that bear that growths are refused: of each the title, the lines `let` before it, and its own."""
    lets, found = [], []
    for line in text.splitlines(keepends=True):
        word = line.split(maxsplit=1)[:1]
        if word == ["let"]:
            lets.append(line)
        elif word in (["scene"], ["world"]):
            found.append((line.strip(), "".join(lets), [line]))
        elif found and word != ["#"]:
            found[-1][2].append(line)
    for title, before, lines in found:
        if "bears\n" in lines:
            yield title, before, "".join(lines).replace("bears\n", "bears\nuncut\n", 1)
        elif title.startswith("world want of memory"):
            yield title, before, "".join(lines)


def tried_scenes(given, orders):
    """Whether each scene is as it must be, whatever is refused behind the lines `let`. Tells what came."""
    chosen = [scene for scene in scenes((CRATES / "scenes/stdin").read_text()) if given.only in scene[0]]
    if not chosen:
        sys.exit(f"no scene that bears a refusal has {given.only} in its title")
    plays, grown, again, good = 0, 0, 0, True
    with tempfile.NamedTemporaryFile(prefix="refuse-scene-") as source:
        for title, before, lines in chosen:
            runs = Runs([given.named], given, orders)
            # the same text with the scene as a note: what it grows by is behind those growths
            _, idle = of_text(runs, source, f"{before}# {lines[2:-1].translate(NO_LINES)}\n")
            ended, growths = of_text(runs, source, before + lines)
            again += sent_again(ended)

            def judged(ended):
                nonlocal again
                again += sent_again(ended)

            runs.judge(growths, idle, judged, source.name)
            plays, grown = plays + runs.count, grown + growths - idle
            if runs.wrong:
                print(f"{title}: {len(runs.wrong)} of {runs.count:,} runs are wrong")
                good = runs.tell() and good
    print(
        f"{len(chosen)} scenes, {grown:,} growths; {plays:,} runs, {again:,} records refused and sent again;"
        f" {'none is' if good else 'those above are'} wrong"
    )
    return good


def of_text(runs, source, text):
    """How a run with this text as its input ends, and how many growths it takes."""
    source.seek(0)
    source.truncate()
    source.write(text.encode())
    source.flush()
    return runs.grown(source.name)


def sent_again(ended):
    """How many records a run of one scene sent again, which has to be as it must be."""
    said = KEPT.fullmatch(ended[1])
    if ended[0] != 0 or not said:
        raise Wrong(shown(ended))
    return int(said[1] or 0)


def programs_of_tests(folder):
    """The programs of tests that stand in this folder, by their crates."""
    for crate in TESTS:
        for program in (folder / crate / f"out/{crate}_tests", folder / f"{crate}_tests"):
            if os.access(program, os.X_OK):
                yield crate, program
                break
        else:
            print(f"{crate}: no program of its tests stands in {folder}")


def tried_tests(given, orders):
    """Whether each test that is made for it passes, whatever is refused behind its start. Tells what came."""
    good = True
    for crate, program in programs_of_tests(given.named):
        listed = subprocess.run([program, "--list"], capture_output=True, text=True).stdout
        for name in TESTS[crate]:
            full = [line.removesuffix(": test") for line in listed.split("\n") if f"::{name}:" in f"{line}:"]
            if len(full) != 1:
                sys.exit(f"{crate} has no test {name}, or several")
            if given.only in f"{crate} {full[0]}":
                good = tried_test(crate, program, full[0], given, orders) and good
    return good


def tried_test(crate, program, name, given, orders):
    """Whether a test passes, whatever is refused. Tells what came."""
    _, idle = Runs([program, "no test"], given, orders).grown()
    runs = Runs([program, name], given, orders)
    expected, growths = runs.grown()

    def judged(ended):
        if ended[0] != 0 or ended[1] != expected[1]:
            raise Wrong(shown(ended))

    judged(expected)
    runs.judge(growths, idle, judged)
    print(
        f"{crate} {name}: {growths - idle:,} growths; {runs.count:,} runs, of which {runs.refused:,} had growths"
        f" refused; {len(runs.wrong)} wrong",
        flush=True,
    )
    return runs.tell()
