#!/usr/bin/env python3
"""Times an index for one owner: inserts beside `once`, and searches from the disk beside C++.

    bench/served.py FOLDER [INSERTS=10000] [POINTS=20000]

FOLDER takes the vectors (by sift/make.sh, where they aren't there yet), a codebook of 32 parts (by tools/codebook.py), the programs
and an index. `ann_serves` is made in FOLDER/repository beside a copy of the crates, and proved before it is built. First it serves
a script of INSERTS descriptors in memory, as `once` does and by an index whose files lie in memory, in turns; then it makes an index
of POINTS descriptors in FOLDER/kept, merges them into a segment, and searches it, in turns with served.cpp over the same segment. The
tags that are found must be the same, and so must the blocks that are read. Each figure is the least of three turns.
"""
import os
import shutil
import subprocess
import sys

from repository import built, built_beside, descriptors

HERE = os.path.dirname(os.path.abspath(__file__))
LINE = "ann_serves: ann_types ann_outside ann_init ann_disk ann_log ann_vault ann_recover ann_merge ann_ledger ann_index ann_script ann_once anyhow"
R, L, ALPHA, BEAM, PARTS = "64", "75", ("12", "10"), "4", "32"
SEARCHES, K = 1000, "10"
WIDTHS = ("20", "50", "100")
TURNS = 3


def vectors(path, most):
    data = open(path, "rb").read()[8:]
    return [data[at : at + 128] for at in range(0, min(len(data), most * 128), 128)]


def ran(words, place, source):
    """The lines of a program to standard error as numbers by their first word, and what it wrote to standard output."""
    done = subprocess.run(words, cwd=place, input=source, capture_output=True)
    if done.returncode:
        sys.exit(f"{' '.join(words)}: status {done.returncode}\n{done.stderr.decode()}")
    figures = {}
    for line in done.stderr.decode().splitlines():
        name, *numbers = line.split()
        figures[name] = [int(number) for number in numbers]
    return figures, done.stdout


def time_inserts(program, folder, base, inserts):
    lines = [b"a insert %d %s\n" % (tag, b" ".join(b"%d" % x for x in vector)) for tag, vector in enumerate(vectors(base, inserts))]
    turns = [ran([program, "memory", "128", R, L, *ALPHA], folder, b"".join(lines))[0] for _ in range(TURNS)]
    once, index = (min(turn[name][0] for turn in turns) / inserts / 1000 for name in ("once", "index"))
    print(f"inserts of {inserts} descriptors, processor time of one: once {once:.1f} us, an index over files in memory {index:.1f} us, ratio {index / once:.3f}")


def make_index(program, main, folder, base, book, points):
    kept = os.path.join(folder, "kept")
    shutil.rmtree(kept, ignore_errors=True)
    os.mkdir(kept)
    words = [main, "init", "128", R, L, "/".join(ALPHA), BEAM, PARTS, "100000"]
    subprocess.run(words, cwd=kept, stdin=open(book, "rb"), check=True, stdout=subprocess.DEVNULL)
    all_changes = [b"insert %d %s" % (tag, b" ".join(b"%d" % x for x in vector)) for tag, vector in enumerate(vectors(base, points))]
    lines = [b"a batch " + b" ; ".join(all_changes[at : at + 64]) + b"\n" for at in range(0, points, 64)]
    figures, _ = ran([program, "folder"], kept, b"".join([*lines, b"a merge\n"]))
    updates, merges = figures["updates"][0] / 1e9, figures["merges"][0] / 1e9
    print(f"an index of {points} descriptors in a folder: updates {updates:.1f} s, a merge {merges:.1f} s of the processor")
    return kept


def time_searches(program, twin, kept, folder, book):
    segment = next(os.path.join(kept, name) for name in os.listdir(kept) if name.endswith(".seg"))
    queries = os.path.join(folder, "query.u8bin")
    asked = vectors(queries, SEARCHES)
    for width in WIDTHS:
        script = b"".join(b"a search %s %s %s\n" % (K.encode(), width.encode(), b" ".join(b"%d" % x for x in v)) for v in asked)
        ours, theirs = [], []
        for _ in range(TURNS):
            ours.append(ran([program, "folder"], kept, script))
            theirs.append(ran([twin, segment, book, queries, K, width, BEAM], folder, b""))
        if any(turn[1] != theirs[0][1] or turn[0]["reads"] != theirs[0][0]["reads"] for turn in [*ours, *theirs]):
            sys.exit("the two found or read other things")
        index, other = (min(turn[0]["searches"][0] for turn in turns) / len(asked) / 1000 for turns in (ours, theirs))
        reads = ours[0][0]["reads"][0] / len(asked)
        print(f"searches from the disk, l {width}, {reads:.1f} blocks each: index {index:.1f} us, C++ {other:.1f} us, ratio {index / other:.3f}")


def main():
    folder = os.path.abspath(sys.argv[1])
    inserts = int(sys.argv[2]) if len(sys.argv) > 2 else 10000
    points = int(sys.argv[3]) if len(sys.argv) > 3 else 20000
    base, book = descriptors(folder)
    program = built_beside(folder, LINE)
    twin = os.path.join(folder, "served_twin")
    subprocess.run(["g++", "-O3", "-march=x86-64-v2", "-std=c++17", "-w", os.path.join(HERE, "served.cpp"), "-o", twin], check=True)
    time_inserts(program, folder, base, inserts)
    main_program = built(os.path.join(folder, "repository", "crates", "ann_program"), "once", "2", "2", "4", "1/1")
    kept = make_index(program, main_program, folder, base, book, points)
    time_searches(program, twin, kept, folder, book)


main()
