#!/usr/bin/env python3
"""Times the Delete, Insert and Patch phases beside their twin in C++, in turns, over SIFT descriptors of photographs.

    bench/phases.py FOLDER [POINTS=10000 [NEW=5000]]

FOLDER takes the vectors (by sift/make.sh, where they aren't there yet), a codebook of 32 parts (by tools/codebook.py) and the
programs. The index is `ann_phases`, which is made in FOLDER/repository beside a copy of the crates, and proved before it is built.
POINTS and NEW are multiples of a hundred. Each figure is the least of three turns, in processor time of one thread, and the lists of both sides
are the same. It needs what sift/compare.py and tools/codebook.py need.
"""
import os
import subprocess
import sys

from repository import built_beside, descriptors

HERE = os.path.dirname(os.path.abspath(__file__))
LINE = "ann_phases: ann_types ann_greedy ann_prune ann_pq ann_table ann_insert ann_mdelete ann_minsert ann_mpatch arrayvec"
# R, L and alpha of the index.
SETTING = ["64", "75", "12", "10"]
TURNS = 3


def twin_program(folder):
    out = os.path.join(folder, "phases_twin")
    subprocess.run(["g++", "-O3", "-march=x86-64-v2", "-std=c++17", "-w", os.path.join(HERE, "phases.cpp"), "-o", out], check=True)
    return out


def figures(text):
    """Of each phase the nanoseconds for each point, and the hash of its lists."""
    lines = (line.split() for line in text.splitlines())
    return {name: (int(nanos), lists) for name, nanos, lists in lines}


def index_figures(program, source, points, new):
    words = [program, str(points // 100), str(new // 100), *SETTING]
    with open(source, "rb") as vectors:
        run = subprocess.run(words, stdin=vectors, capture_output=True, text=True, check=True)
    return figures(run.stderr)


def twin_figures(program, folder, book, points, new):
    words = [program, f"{folder}/base.u8bin", book, str(points), str(new), *SETTING]
    return figures(subprocess.run(words, capture_output=True, text=True, check=True).stdout)


def main():
    folder = os.path.abspath(sys.argv[1])
    points, new = (int(word) for word in sys.argv[2:4] + ["10000", "5000"][len(sys.argv[2:4]) :])
    os.makedirs(folder, exist_ok=True)
    (base, book), source = descriptors(folder), f"{folder}/phases-{points}-{new}"
    with open(source, "wb") as out:
        out.write(open(book, "rb").read())
        out.write(open(base, "rb").read()[8 : 8 + (points + new) * 128])
    twin, index = twin_program(folder), built_beside(folder, LINE, "1", "1")
    turns = [(index_figures(index, source, points, new), twin_figures(twin, folder, book, points, new)) for _ in range(TURNS)]
    for name, (_, lists) in turns[0][0].items():
        if {side[name][1] for turn in turns for side in turn} != {lists}:
            sys.exit(f"the lists differ: {name}")
        mine, other = (min(turn[side][name][0] for turn in turns) / 1000 for side in (0, 1))
        ratio = "" if name == "base" else f" {mine:.1f} us a point, C++ {other:.1f} us, ratio {mine / other:.2f},"
        print(f"{name}:{ratio} lists {int(lists):016x} on both sides")


if __name__ == "__main__":
    main()
