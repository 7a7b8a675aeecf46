#!/usr/bin/env python3
"""Times two corridor programs on large corridors, one after the other on the same files, and prints their ratio.

    benches/bench.py crates/corridor/out/corridor corridor-reference --repeats 5
    benches/bench.py crates/corridor/out/corridor corridor-reference --count

Times are the process's own processor time (user and system), best and median of the repeats; the ratio is the first program's best
over the second's. `--count` counts instructions in place of seconds, with perf where it may count, else with valgrind, on shorter
runs. Both programs must print the same, else exit 1.

How far to trust a ratio: two builds of one and the same source, on a busy machine with two repeats, came out between 0.88 and 1.25
by time, and between 0.99 and 1.02 by instructions. Use more repeats on a quiet machine, or --count, for anything closer than that.

The loads. A file has at most 65,535 bytes and a booking at most 200 vehicles, so a file brings in at most some 550,000 vehicles:
over 1,000,000 steps that is about one vehicle in two steps. In `heavy` and `longest` the links into the exits let just that many
through, so that queues stand on every walk in nearly every step.

- heavy: 42 links, three entrances, three exits, nine pairs; 11 of the 13 merges have traffic on both legs.
- longest: 46 links, the most that 32 nodes allow; this leaves one entrance, one exit and one walk, of 31 links.
- flood: the same 46 links, wide, with the same vehicles in as few steps as pass them.
- idle: the same 46 links with 200 vehicles in all.
- bookings, shows: a full file of rows of one kind; nearly all of the bookings are refused, each with a line.
"""

import argparse
import os
import random
import shutil
import statistics
import subprocess
import sys
import tempfile

sys.path.insert(0, os.path.join(os.path.dirname(os.path.abspath(__file__)), "..", "reference"))
from corridors import Corridor, dress, lattice, shape  # noqa: E402

LIMIT = 65_535


def roomy(rng):
    f, b = rng.randint(1, 12), rng.randint(2, 20)
    return f, b, rng.randint(2, 8), rng.randint(30, 70)


def wide(rng):
    f, b = rng.randint(1, 3), rng.randint(1, 3)
    return f, b, 12, 12 * (f + b)


def narrow_exits(corridor):
    """The links into the exits pass one vehicle in two steps between them."""
    n = len(corridor.exits)
    corridor.links = [(*link[:2], n, n, 1, 1) if not corridor.leaving[link[1]] else link for link in corridor.links]
    return corridor


def with_meters(corridor):
    """A meter at every merge, of one vehicle at every clock or at every other."""
    corridor.meters = [(n, 1, 1 + k % 2) for k, n in enumerate(corridor.merges)]
    return corridor


def crossing(rule):
    rng = random.Random("mixed 10996")  # of 60,000 tried, the one with the most merges in use
    return narrow_exits(dress(rng, shape(rng, 32, 3, 8), roomy, rule=rule, metered=0))


def ladder(numbers=roomy):
    return dress(random.Random("ladder"), lattice(15), numbers, rule="fair", metered=0)


def text(rows):
    return "".join(row + "\n" for row in rows).encode()


def steps(count):
    return [f"step {LIMIT}"] * (count // LIMIT) + ([f"step {count % LIMIT}"] if count % LIMIT else [])


def loaded(corridor, clock):
    """Bookings of 200 for all served pairs in turn, as many as the file holds, spread evenly up to the clock."""
    pairs = corridor.served()
    head = corridor.head()
    free = LIMIT - len(text(head)) - 100
    lots = free // len(text(["book 10 32 200", f"step {clock // 2000 + 1}"]))
    lots = min(lots, clock)
    rows = []
    for k in range(lots):
        e, x = pairs[k % len(pairs)]
        rows += [f"book {e} {x} 200", f"step {clock * (k + 1) // lots - clock * k // lots}"]
    return text(head + rows + ["show"])


def fill(head, row, tail=()):
    free = LIMIT - len(text(head)) - len(text(tail))
    return text(head + [row] * (free // len(text([row]))) + list(tail))


def files(clock):
    for rule in ("fair", "ramp", "zip"):
        yield f"heavy, {rule}", loaded(crossing(rule), clock)
    yield "heavy, fair, meters", loaded(with_meters(crossing("fair")), clock)
    yield "heavy, zip, meters", loaded(with_meters(crossing("zip")), clock)
    yield "longest", loaded(narrow_exits(ladder()), clock)
    yield "longest, meters", loaded(with_meters(narrow_exits(ladder())), clock)
    yield "flood", loaded(ladder(wide), min(clock, 50_000))
    yield "idle", text(ladder().head() + ["book 1 32 200"] + steps(clock) + ["show"])
    yield "bookings", fill(Corridor(2, [(1, 2, 1, 1, 200, 2000)]).head(), "book 1 2 1", ["show"])
    yield "shows", fill(ladder().head() + ["book 1 32 200", "step 20"], "show")


def seconds(program, path):
    with open(path, "rb") as stdin:
        child = subprocess.Popen([program], stdin=stdin, stdout=subprocess.DEVNULL, stderr=subprocess.DEVNULL)
        _, status, usage = os.wait4(child.pid, 0)
        child.returncode = os.waitstatus_to_exitcode(status)
    return usage.ru_utime + usage.ru_stime


def counted(program, path):
    """Instructions, by perf if this machine lets it count, else by valgrind."""
    def output(command):
        with open(path, "rb") as stdin:
            return subprocess.run(command, stdin=stdin, stdout=subprocess.DEVNULL, stderr=subprocess.PIPE, text=True).stderr

    if shutil.which("perf"):
        for line in output(["perf", "stat", "-x", ",", "-e", "instructions:u", program]).splitlines():
            count, _, event, *_ = (line + ",,,").split(",")
            if event.startswith("instructions") and count.isdigit():
                return int(count)
    if shutil.which("valgrind"):
        for line in output(["valgrind", "--tool=callgrind", "--callgrind-out-file=/dev/null", program]).splitlines():
            if "Collected :" in line:
                return int(line.split(":")[1])
    sys.exit("neither perf nor valgrind can count here")


def printed(program, path):
    with open(path, "rb") as stdin:
        return subprocess.run([program], stdin=stdin, stdout=subprocess.PIPE, stderr=subprocess.DEVNULL).stdout


def main():
    parser = argparse.ArgumentParser(description=__doc__.split("\n")[0])
    parser.add_argument("proved")
    parser.add_argument("reference")
    parser.add_argument("--repeats", type=int, default=5)
    parser.add_argument("--clock", type=int, help="steps of the long runs: 1,000,000, or 20,000 with --count")
    parser.add_argument("--count", action="store_true", help="count instructions in place of seconds")
    parser.add_argument("--only", default="", help="only corridors whose name has this in it")
    options = parser.parse_args()
    programs = [os.path.abspath(options.proved), os.path.abspath(options.reference)]
    clock = options.clock or (20_000 if options.count else 1_000_000)
    heading = "instructions" if options.count else "milliseconds, best and median"
    print(f"{'corridor':22}{'bytes':>8}   {heading}: {options.proved} | {options.reference} | ratio")
    same = True
    with tempfile.TemporaryDirectory() as folder:
        path = os.path.join(folder, "corridor.txt")
        for name, data in files(clock):
            if options.only not in name:
                continue
            with open(path, "wb") as f:
                f.write(data)
            outputs = [printed(program, path) for program in programs]
            same = same and outputs[0] == outputs[1]
            if options.count:
                counts = [counted(program, path) for program in programs]
                figures = [f"{count:,}" for count in counts]
                ratio = counts[0] / counts[1]
            else:
                # alternating, so that both see the machine in the same state
                times = list(zip(*[[seconds(program, path) for program in programs] for _ in range(options.repeats)]))
                figures = [f"{1000 * min(t):.1f} {1000 * statistics.median(t):.1f}" for t in times]
                ratio = min(times[0]) / max(min(times[1]), 1e-6)
            print(f"{name:22}{len(data):8}   {figures[0]:>20} | {figures[1]:>20} | {ratio:.2f}"
                  + ("" if outputs[0] == outputs[1] else "   DIFFERENT OUTPUT"), flush=True)
    sys.exit(0 if same else 1)


if __name__ == "__main__":
    main()
