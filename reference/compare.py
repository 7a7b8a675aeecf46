#!/usr/bin/env python3
"""Runs two corridor programs on random files, sound and damaged, and compares what they print byte by byte.

    reference/compare.py crates/corridor/out/corridor corridor-reference --cases 5000 --seed 7

Prints the cases run, how often each refusal was seen, and every difference with the file saved. Exit 1 on a difference.
A case depends on `--seed` and its own number alone: `--first 1234 --cases 1` runs one again.
"""

import argparse
import collections
import os
import random
import subprocess
import sys
import tempfile

from corridors import MOST_NODES, dress, flowing, lattice, shape, uniform

LIMIT = 65_535
ALL = [1, 2, 3, 4, 11, 12, 13, 14, 15, 21, 22, 23, 24, 25, 31, 32, 33, 34, 35, 36, 37]
NAMES = ["net", "link", "route", "merge", "meter", "go", "book", "step", "show"]
ODD = ["0", "00", "01", "1", "2", "32", "33", "48", "49", "63", "64", "200", "201", "2000", "2001", "65535", "65536", "99999",
       "12345678901234567890", "18446744073709551617", "1a", "a1", "fair", "zip", "ramp", "go", "x"]

# Files whose answer is fixed by docs/file-format.md.
WORKED = b"net 4 3\nlink 1 3 1 2 4 12\nlink 2 3 1 1 2 4\nlink 3 4 2 2 3 8\nmerge fair\n"
GO = WORKED + b"go\n"
ONE = b"net 2 1\nlink 1 2 1 1 1 1\nmerge zip\ngo\n"
FULL = ONE + b"step 1\n" * 9_356 + b"show\n"  # 65,535 bytes
FORK = b"net 4 3\nlink 1 2 1 1 1 1\nlink 2 3 1 1 1 1\nlink 2 4 1 1 1 1\n"
EDGES = [
    (b"", "no 15 1 0"), (b"\n", "no 3 1 0"), (b" ", "no 3 1 0"), (b" \n", "no 3 1 0"), (b"go", "no 4 1 2"), (b"go ", "no 3 1 3"),
    (b"  \xff", "no 2 1 2"), (b"\x80\n", "no 2 1 0"), (b"net 4  3\n", "no 3 1 6"), (b"net 4 3 \n", "no 3 1 8"),
    (b"net 4 3\r\n", "no 2 1 7"), (b"Net 4 3\n", "no 2 1 0"), (b"net\t4 3\n", "no 2 1 3"), (b"net 4 3\x00", "no 2 1 7"),
    (b"net 4 3\n", "no 15 2 8"), (b"net 4 3\n\n", "no 3 2 8"), (b"7 4 3\n", "no 11 1 0"), (b"00\n", "no 11 1 0"), (b"nets\n", "no 11 1 0"),
    (b"show\n", "no 12 1 0"), (b"book\n", "no 12 1 0"), (b"net 4\n", "no 13 1 0"), (b"net 04 3\n", "no 14 1 4"), (b"net 4 00\n", "no 14 1 6"),
    (b"net 0 0\n", "no 14 1 4"), (b"net 1 1\n", "no 14 1 4"), (b"net 33 49\n", "no 14 1 4"), (b"net 32 49\n", "no 14 1 7"),
    (b"net 32 48\n", "no 15 2 10"), (b"net 12345678901234567890 3\n", "no 14 1 4"),
    (b"net 65540 3\n", "no 14 1 4"), (b"net 4294967300 3\n", "no 14 1 4"), (b"net 18446744073709551620 3\n", "no 14 1 4"), (b"net 4 65536\n", "no 14 1 6"),
    (b"net 4 3\nlink 9 3 0 2 4 12\n", "no 14 2 13"), (b"net 4 3\nlink 3 1 0 2 4 12\n", "no 14 2 17"), (b"net 4 3\nlink 3 1 1 2 4 12\n", "no 21 2 8"),
    (b"net 4 3\nlink 2 2 1 2 4 12\n", "no 21 2 8"), (b"net 4 3\nlink 1 2 63 63 200 2000\n", "no 15 3 32"), (b"net 4 3\nlink 1 2 64 1 1 1\n", "no 14 2 17"),
    (b"net 4 3\nlink 1 2 1 64 1 1\n", "no 14 2 19"), (b"net 4 3\nlink 1 2 1 1 201 1\n", "no 14 2 21"), (b"net 4 3\nlink 1 2 1 1 1 2001\n", "no 14 2 23"),
    (b"net 4 3\nlink 1 5 1 1 1 1\n", "no 14 2 15"), (b"net 3 1\nlink 1 2 1 1 1 1\nX", "no 22 2 8"), (b"net 3 1\nlink 2 1 1 1 1 1\n", "no 21 2 8"),
    (WORKED[:60] + b"link 1 2 1 1 1 1\n", "no 12 5 60"), (WORKED[:43] + b"merge fair\n", "no 12 4 43"), (WORKED, "no 15 6 71"),
    (WORKED[:-5] + b"fairs\n", "no 14 5 66"), (WORKED[:-5] + b"1\n", "no 14 5 66"), (WORKED[:60] + b"go\n", "no 12 5 60"),
    (WORKED[:60] + b"meter 3 1 1\n", "no 12 5 60"), (WORKED + b"route 3 4 3\n", "no 12 6 71"), (WORKED[:60] + b"route 3 4 3\n", "no 23 5 60"),
    (WORKED + b"meter 1 1 1\n", "no 25 6 71"), (WORKED + b"meter 3 1 1\nmeter 3 2 2\n", "no 24 7 83"), (WORKED + b"meter 3 201 64\n", "no 14 6 79"),
    (WORKED + b"meter 3 200 64\n", "no 14 6 83"), (WORKED + b"meter 3 200 63\n", "no 15 7 86"), (WORKED + b"meter 3 0 1\n", "no 14 6 79"),
    (WORKED + b"meter 5 1 1\n", "no 14 6 77"), (WORKED + b"go 1\n", "no 13 6 71"), (WORKED + b"go", "no 4 6 73"),
    (FORK + b"route 2 3 1\n", "no 23 5 59"), (FORK + b"route 2 1 2\n", "no 23 5 59"), (FORK + b"route 2 3 4\n", "no 14 5 69"),
    (FORK + b"route 2 3 2\nroute 2 3 2\n", "no 24 6 71"), (FORK + b"route 2 3 2\nroute 2 3 1\n", "no 23 6 71"),
    (FORK + b"route 2 3 3\nmerge zip\ngo\nbook 1 3 1\nbook 1 4 1\n", "no 34 8 84\nno 34 9 95"),
    (GO, ""), (GO + b"net 4 3\n", "no 12 7 74"), (GO + b"go\n", "no 12 7 74"), (GO + b"\n", "no 3 7 74"), (GO + b"hello\n", "no 11 7 74"),
    (GO + b"step 0\n", "no 14 7 79"), (GO + b"step 65536\n", "no 14 7 79"), (GO + b"step 65535\n", ""), (GO + b"step\n", "no 13 7 74"),
    (GO + b"show 1\n", "no 13 7 74"), (GO + b"book 0 99 0\nbook 1 99 0\nbook 1 4 0\nbook 1 4 201\nbook 65535 4 6\n",
                               "no 32 7 74\nno 33 8 86\nno 35 9 98\nno 35 10 109\nno 32 11 122"),
    (GO + b"book 1 4 65536\n", "no 14 7 83"), (GO + b"book 01 4 x\n", "no 14 7 79"), (GO + b"book 3 4 1\nbook 4 4 1\n", "no 32 7 74\nno 32 8 85"),
    (GO + b"book 1 4 200\nbook 1 4 200\nbook 1 4 100\nbook 1 4 1\n", "no 36 10 113"),
    (GO + b"book 1 4 200\nbook 1 4 200\nbook 1 4 101\nbook 1 4 100\n", "no 36 9 100"),
    (GO + b"book 1 4 6\nbook 2 4 3\nstep 4\nshow\n",
     "clock 4\nlink 1 6 5 6 1 2\nlink 2 3 3 3 0 2\nlink 3 8 3 3 0 2\nwait 1 0\nwait 2 0\ngone 4 3"),
    (GO + b"book 1 4 6\nbook 2 4 3\nstep 7\nshow\nstep 1\nshow\nBAD\n",
     "clock 7\nlink 1 6 6 6 0 -\nlink 2 3 3 3 0 -\nlink 3 9 8 8 0 -\nwait 1 0\nwait 2 0\ngone 4 8\n"
     "clock 8\nlink 1 6 6 6 0 -\nlink 2 3 3 3 0 -\nlink 3 9 9 9 0 2\nwait 1 0\nwait 2 0\ngone 4 9\nno 2 13 120"),
    (b"net 2 1\nlink 1 2 1 1 1 2000\nmerge zip\ngo\n", ""), (ONE + b"step 65535\n" * 15 + b"step 16975\nstep 2\nstep 1\nshow\n",
     "no 37 21 214\nno 37 22 221\nclock 1000000\nlink 1 0 0 0 0 -\nwait 1 0\ngone 2 0"),
    (b"net 4 2\nlink 1 2 1 1 1 2000\nlink 3 4 1 1 1 1000\nmerge fair\ngo\n", ""),
    (b"net 4 2\nlink 1 2 1 1 1 2000\nlink 3 4 1 1 1 1001\nmerge fair\ngo\nBAD", "no 31 5 59"),
    (b"x" * 65_536, "no 1 0 0"), (b"x" * 65_535, "no 4 1 65535"), (b"\xff" * 65_536, "no 1 0 0"),
    (FULL, "clock 9356\nlink 1 0 0 0 0 -\nwait 1 0\ngone 2 0"), (FULL[:-1], "no 4 9361 65534"), (FULL + b"\n", "no 1 0 0"),
]


def text(rows):
    return "".join(row + "\n" for row in rows).encode()


def any_corridor(rng, room=4000):
    nodes = rng.choice((2, 3, 4, 5, 6, 8, 10, 14, 20, 27, MOST_NODES, rng.randint(2, MOST_NODES)))
    pairs = lattice(15) if rng.random() < 0.02 else shape(rng, nodes, rng.choice((1, 2, 3, 7)), rng.choice((0.3, 1, 1, 4)))
    most = rng.choice(((3, 3, 4, 12), (2, 2, 3, 4), (5, 8, 12, 60), (63, 63, 200, 2000), (1, 1, 1, 1), (9, 63, 30, 400), (63, 4, 200, 900)))
    least = (1, 1, 1, 1) if rng.random() < 0.8 else tuple(max(1, m * 3 // 4) for m in most)
    return dress(rng, pairs, uniform(most, least), room, routed=rng.choice((1, 1, 0.9, 0.5)), metered=rng.choice((0, 0.3, 1)))


def booking(rng, pairs):
    if pairs and rng.random() < 0.93:
        e, x = rng.choice(pairs)
    else:
        e, x = (rng.choice((0, 1, 2, 3, 33, 65535, rng.randint(1, MOST_NODES))) for _ in range(2))
    if pairs and rng.random() < 0.2:
        e = rng.choice(pairs)[0] if rng.random() < 0.5 else e
        x = rng.choice(pairs)[1]
    count = rng.choice((1, 2, 3, 5, 9, 20, rng.randint(1, 200), rng.randint(1, 200))) if rng.random() < 0.95 else rng.choice((0, 201, 200, 65535))
    return f"book {e} {x} {count}"


def tasks(rng, corridor):
    """Rows behind `go`: mostly lively traffic, now and then refusals and long runs."""
    pairs = corridor.served()
    heavy = rng.choice((0.3, 0.6, 0.9))
    length = rng.choice((1, 2, 3, 5, rng.randint(1, 30)))
    rows = []
    for _ in range(rng.choice((3, 8, 20, 60, rng.randint(1, 300)))):
        rows += [booking(rng, pairs) for _ in range(rng.choice((1, 1, 2, 4))) if rng.random() < heavy]
        rows.append(f"step {rng.randint(1, length)}")
        if rng.random() < 0.4:
            rows.append("show")
    if rng.random() < 0.03:
        rows += [f"step {rng.randint(1, LIMIT)}", "show"] + [booking(rng, pairs) for _ in range(5)] + ["step 40", "show"]
    if rng.random() < 0.002:
        rows += ["step 65535"] * 15 + [f"step {rng.randint(16_000, 17_000)}"] + [booking(rng, pairs) for _ in range(5)] + ["step 2000", "show", "step 9"]
    return rows + ["show"]


def sound(rng):
    corridor = any_corridor(rng)
    return text(corridor.head() + tasks(rng, corridor))


def busy(rng):
    """More traffic than fits, in small mixed lots: queues at every kind of node, in which the order of vehicles tells."""
    pairs = lattice(rng.randint(1, 15)) if rng.random() < 0.1 else shape(rng, rng.randint(5, MOST_NODES), rng.choice((2, 3, 4)), 3)
    corridor = dress(rng, pairs, flowing, metered=rng.choice((0, 0.3)))
    served = corridor.served()
    rows = []
    for _ in range(rng.randint(10, 60)):
        lots = rng.choices(served, k=rng.randint(2, 8)) if served and rng.random() < 0.9 else []
        rows += [f"book {e} {x} {rng.randint(1, 4)}" for e, x in lots]
        rows.append(f"step {rng.randint(1, 3)}")
        if rng.random() < 0.2:
            rows.append("show")
    return text(corridor.head() + rows + ["show", "step 30", "show"])


def long_file(rng):
    """Just about the greatest length, on either side of it."""
    corridor = any_corridor(rng)
    data = text(corridor.head())
    pairs = corridor.served()
    while len(data) < LIMIT - 40:
        data += text([booking(rng, pairs) if rng.random() < 0.6 else f"step {rng.randint(1, 9)}" if rng.random() < 0.98 else "show"])
    return (data + text(["show"] * 9))[:LIMIT + rng.randint(-30, 30)]


def crowded(rng):
    """Near the greatest area that the program opens, on either side of it."""
    room = 4000 + rng.choice((0, 0, 1, 500, 3000))
    corridor = any_corridor(rng, room)
    spare = room - corridor.room_needed()
    for i, link in enumerate(corridor.links):
        more = max(0, min(2000 - link[5], spare))
        corridor.links[i] = (*link[:5], link[5] + more)
        spare -= more
    return text(corridor.head() + tasks(rng, corridor))


def soup(rng):
    """Rows made of words at random, or bytes at random."""
    if rng.random() < 0.3:
        return bytes(rng.choice(b"abz019 \n\r\t\0\x7f\xe9AZ") for _ in range(rng.randint(0, 60)))
    rows = []
    for name in NAMES[:rng.randint(1, 9)]:
        for _ in range(rng.choice((1, 1, 2, 3))):
            words = {"net": 2, "link": 6, "route": 3, "merge": 1, "meter": 3, "book": 3, "step": 1}.get(name, 0)
            rows.append(" ".join([name] + [rng.choice(ODD) if rng.random() < 0.3 else str(rng.randint(1, 4)) for _ in range(words)]))
    return text(rows)


def wrong_network(rng, corridor, rows):
    """A fault that only the whole network shows."""
    def all_of(name):
        return [k for k, row in enumerate(rows) if row.split()[0] == name]

    node = lambda: rng.randint(1, corridor.nodes)
    choice = rng.randrange(7)
    k = rng.choice(all_of("link"))
    words = rows[k].split()
    if choice == 0:  # a link runs backward, or stands still
        words[1:3] = words[2], rng.choice((words[1], words[2]))
        rows[k] = " ".join(words)
    elif choice == 1:  # another end, and perhaps a node of no kind
        words[rng.choice((1, 2))] = str(node())
        rows[k] = " ".join(words)
    elif choice == 2:  # other counts
        rows[0] = f"net {max(2, min(32, corridor.nodes + rng.choice((-1, 0, 1))))} {max(1, min(48, len(corridor.links) + rng.choice((-1, 0, 1))))}"
    elif choice in (3, 4):  # a route, right or wrong
        at = all_of("merge")[0]
        rows.insert(rng.choice(all_of("route") or [at]), f"route {rng.choice(corridor.diverges or [node()])} "
                    f"{rng.choice(corridor.exits + [node()])} {rng.randint(1, len(corridor.links))}")
    else:  # a meter, right or wrong
        rows.insert(all_of("merge")[0] + 1, f"meter {rng.choice(corridor.merges + [node()])} {rng.randint(1, 201)} {rng.randint(1, 64)}")
    return rows


def spoil_rows(rng, rows):
    i, j = rng.randrange(len(rows)), rng.randrange(len(rows))
    words = rows[i].split() or [""]
    w = rng.randrange(len(words))
    choice = rng.randrange(10)
    if choice == 0:
        rows.insert(j, rows[i])
    elif choice == 1:
        rows[i], rows[j] = rows[j], rows[i]
    elif choice == 2:
        rows.insert(j, rows.pop(i))
    elif choice == 3:
        del rows[i]
    elif choice == 4:
        words[w] = rng.choice(ODD + NAMES)
        rows[i] = " ".join(words)
    elif choice == 5:
        words[w] = "0" * rng.randint(1, 3) + words[w]
        rows[i] = " ".join(words)
    elif choice == 6:
        words.insert(w + 1, rng.choice(ODD))
        rows[i] = " ".join(words)
    elif choice == 7:
        del words[w]
        rows[i] = " ".join(words)
    elif choice == 8:
        rows[i] = rng.choice((" " + rows[i], rows[i] + " ", rows[i].replace(" ", "  ", 1), " ", ""))
    else:
        rows.insert(j, rng.choice(NAMES + ["", "x", "net 2 1", "link 1 2 1 1 1 1", "merge fair", "go", "show", "step 3", "meter 1 1 1"]))
    return rows or [""]


def spoil_bytes(rng, data):
    at = rng.randrange(len(data))
    choice = rng.randrange(8)
    if choice == 0:
        return data[:at]
    if choice == 1:
        return data[:at] + data[at + 1:]
    if choice == 2:
        return data[:at] + bytes([rng.randrange(256)]) + data[at:]
    if choice == 3:
        return data[:at] + bytes([rng.randrange(256)]) + data[at + 1:]
    if choice == 4:
        return data[:at] + rng.choice((b" ", b"\n", b"0", b"\r\n")) + data[at:]
    if choice == 5:
        return data.rstrip(b"\n")
    digits = [k for k, b in enumerate(data) if 48 <= b <= 57]
    if not digits:
        return data
    at = rng.choice(digits)
    return data[:at] + bytes([rng.choice(b"0123456789")]) + data[at + 1:]


def damaged(rng):
    corridor = any_corridor(rng)
    head = corridor.head()
    body = tasks(rng, corridor)[:rng.choice((0, 3, 12))]
    for _ in range(rng.choice((0, 1, 1, 2))):
        head = wrong_network(rng, corridor, head)
    for _ in range(rng.choice((0, 0, 1, 2))):
        if body and rng.random() < 0.4:
            body = spoil_rows(rng, body)
        else:
            head = spoil_rows(rng, head)
            break
    data = text(head + body)
    for _ in range(rng.choice((0, 0, 1, 2))):
        data = spoil_bytes(rng, data) or b""
        if not data:
            break
    return data


KINDS = [(sound, 25), (busy, 20), (damaged, 45), (crowded, 4), (soup, 5), (long_file, 0.5)]


def run(program, data_file, seconds):
    """What the program prints, or how it failed."""
    data_file.seek(0)
    try:
        done = subprocess.run([program], stdin=data_file, stdout=subprocess.PIPE, stderr=subprocess.DEVNULL, timeout=seconds)
    except subprocess.TimeoutExpired:
        return b"(no answer in time)"
    return done.stdout if done.returncode == 0 else done.stdout + b"(exit status %d)" % done.returncode


def main():
    parser = argparse.ArgumentParser(description=__doc__.split("\n")[0])
    parser.add_argument("proved")
    parser.add_argument("reference")
    parser.add_argument("--cases", type=int, default=2000)
    parser.add_argument("--seed", type=int, default=1)
    parser.add_argument("--first", type=int, default=0, help="number of the first case")
    parser.add_argument("--save", default="target/compare", help="folder for the files that made a difference")
    parser.add_argument("--seconds", type=float, default=60, help="time for one program on one file")
    options = parser.parse_args()
    programs = [options.proved, options.reference]
    for program in programs:
        if not os.access(program, os.X_OK):
            sys.exit(f"no program at {program}")

    kinds, refusals, clocks, differences = collections.Counter(), collections.Counter(), 0, 0

    def report(name, data, outputs, labels):
        nonlocal differences
        differences += 1
        os.makedirs(options.save, exist_ok=True)
        path = os.path.join(options.save, name)
        for suffix, content in zip([".txt"] + [f".{label}" for label in labels], [data] + outputs):
            with open(path + suffix, "wb") as f:
                f.write(content)
        print(f"DIFFERENCE {name}: {path}.txt")

    def check(name, data, wanted=None):
        nonlocal clocks
        with tempfile.TemporaryFile() as f:
            f.write(data)
            f.flush()
            outputs = [run(program, f, options.seconds) for program in programs]
        for line in outputs[1].split(b"\n"):
            if line.startswith(b"no "):
                refusals[int(line.split()[1])] += 1
            elif line.startswith(b"clock "):
                clocks += 1
        if outputs[0] != outputs[1]:
            report(name, data, outputs, ["proved", "reference"])
        elif wanted is not None and outputs[1] != wanted:
            report(name, data, [outputs[1], wanted], ["printed", "wanted"])
        return outputs[1]

    for k, (data, wanted) in enumerate(EDGES):
        check(f"edge-{k}", data, (wanted + "\n").encode() if wanted else b"")
    for case in range(options.first, options.first + options.cases):
        rng = random.Random(f"{options.seed}/{case}")
        kind = rng.choices([k for k, _ in KINDS], [weight for _, weight in KINDS])[0]
        kinds[kind.__name__] += 1
        data = kind(rng)
        printed = check(f"case-{options.seed}-{case}", data)
        if kind in (sound, busy) and any(line.startswith(b"no ") and int(line.split()[1]) <= 31 for line in printed.split(b"\n")):
            report(f"unsound-{options.seed}-{case}", data, [printed], ["printed"])

    print(f"{len(EDGES)} fixed cases, {options.cases} random ones with seed {options.seed}:",
          ", ".join(f"{name} {count}" for name, count in kinds.most_common()))
    print("times shown:", clocks)
    print("refusals:", ", ".join(f"{number}: {refusals[number]}" for number in ALL))
    print("differences:", differences)
    sys.exit(1 if differences else 0)


if __name__ == "__main__":
    main()
