#!/usr/bin/env python3
"""Times how an index is opened again, beside C++ with the same steps, and counts the reads of a base.

    bench/reopening.py FOLDER [INSERTS=300000 [POINTS=100000]]

FOLDER takes the logs, a segment and the programs. `ann_opens` and `ann_merges` are made in FOLDER/repository beside a copy of the
crates, and proved before they are built. First a log of INSERTS inserts of 16 components (R 32, L 50, alpha 11/10, graphs that
freeze at 100,000 points) is opened by `ann_opens` and by the twin in turns: each figure is the least of three turns. Then
`ann_merges` seals a segment of POINTS points of the generator, and `ann_opens` opens an empty log on that base; each piece of 256
rows is to be one read. Memory is what is taken beyond that of opening an empty log without a base.

What was proved of a repository's crates lies in their folders out/. FOLDER/repository is taken as it stands where it is there, so
that a copy of a checkout with its out/ folders spares the proof of the crates below.
"""
import os
import struct
import subprocess
import sys

from repository import built_beside

HERE = os.path.dirname(os.path.abspath(__file__))
OPENS = "ann_opens: ann_disk ann_vault ann_log ann_tags ann_recover"
MERGES = "ann_merges: ann_types ann_greedy ann_pq ann_segment ann_vault ann_dead ann_table ann_frozen ann_mlaws ann_merge anyhow"
TURNS = 3
# d, R, L, a and b of the alpha, and the points at which a graph in memory freezes.
SETTING = ["16", "32", "50", "11", "10", "100000"]


def twin_program(folder):
    out = os.path.join(folder, "reopening_twin")
    source = os.path.join(HERE, "reopening.cpp")
    subprocess.run(["g++", "-O3", "-march=x86-64-v2", "-std=c++17", source, "-o", out], check=True)
    return out


class Opened:
    """What a program tells of opening the index in a folder."""

    def __init__(self, program, place):
        run = subprocess.run([program, "open"], cwd=place, stdout=subprocess.PIPE, stderr=subprocess.PIPE, text=True)
        if run.returncode:
            sys.exit(f"{program}: status {run.returncode}\n{run.stderr}")
        told = {line.split()[0]: [int(word) for word in line.split()[1:]] for line in run.stderr.splitlines()}
        self.nanos, self.count, self.live, self.reads = told["opened"]
        self.most, self.held = told["most"][0], told["held"][0]


class Side:
    """The turns of one program, and what memory it takes to open an empty log."""

    def __init__(self, program, empty):
        self.program, self.before, self.turns = program, Opened(program, empty), []

    def take_turn(self, place):
        self.turns.append(Opened(self.program, place))

    def milliseconds(self):
        return min(turn.nanos for turn in self.turns) / 1e6

    def memory(self):
        most = min(turn.most for turn in self.turns) - self.before.most
        held = min(turn.held for turn in self.turns) - self.before.held
        return f"{most / 1000:.1f} MB at most and {held / 1000:.1f} MB held"


def tell_inserts(index, twin, place, empty):
    sides = [Side(program, empty) for program in (index, twin)]
    for _ in range(TURNS):
        for side in sides:
            side.take_turn(place)
    if len({(turn.count, turn.live) for side in sides for turn in side.turns}) != 1:
        sys.exit("the lists differ")
    ours, other = (side.milliseconds() for side in sides)
    print(f"{sides[0].turns[0].count} inserts: {ours:.0f} ms, C++ {other:.0f} ms, ratio {ours / other:.2f}; "
          f"memory {sides[0].memory()}, C++ {sides[1].memory()}", flush=True)


def write_base(place, points):
    """The log without entries on the segment of so many points, which `ann_merges` has sealed; of 0, on no base."""
    number = 2 * points + 1 if points else 0
    book = b"ANNPQ001" + struct.pack("<HH", 64, 16) + bytes(c for _ in range(16) for c in range(256) for _ in range(4))
    base = (number + 3) // 2 if points else 0
    fields = struct.pack("<8HI", 64, 16, 32, 12, 10, 4, 16, 0, 5000) + struct.pack("<4Q", 1, base, number, points)
    with open(os.path.join(place, "ann.log"), "wb") as out:
        out.write(b"\x01ANNLOG02" + fields + book + b"\x00")
    open(os.path.join(place, "ann2.log"), "wb").close()


def tell_base(index, merges, place, empty, points):
    if not os.path.exists(os.path.join(place, f"{2 * points + 1}.seg")):
        subprocess.run([merges, "fill", str(points), str(points), "1"], cwd=place, stderr=subprocess.DEVNULL, check=True)
    write_base(place, points)
    side = Side(index, empty)
    for _ in range(TURNS):
        side.take_turn(place)
    turn = side.turns[0]
    pieces = (points + 255) // 256
    print(f"a base of {turn.live} points at {turn.count}: {side.milliseconds():.0f} ms, {turn.reads} reads for {pieces} pieces; "
          f"memory {side.memory()}")


def main():
    folder = os.path.abspath(sys.argv[1])
    inserts, points = sys.argv[2:3] or ["300000"], sys.argv[3:4] or ["100000"]
    log, base, empty = f"{folder}/inserts-{inserts[0]}", f"{folder}/base-{points[0]}", f"{folder}/empty"
    for place in (log, base, empty):
        os.makedirs(place, exist_ok=True)
    write_base(empty, 0)
    twin, index = twin_program(folder), built_beside(folder, OPENS)
    if not os.path.exists(f"{log}/ann2.log"):
        subprocess.run([twin, "make", *inserts, *SETTING], cwd=log, check=True)
    tell_inserts(index, twin, log, empty)
    tell_base(index, built_beside(folder, MERGES, "fill", "2", "2", "1"), base, empty, int(points[0]))


if __name__ == "__main__":
    main()
