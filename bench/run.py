#!/usr/bin/env python3
"""Times the proved program against plain C++ of the same rules, and prints ratios from one run.

    bench/run.py FOLDER [POINTS ..]
    bench/run.py FOLDER log
    bench/run.py FOLDER sift [POINTS [TURNS]]

FOLDER takes the scripts, logs and programs that are made (some 250 MB). POINTS are the sizes to insert, 10000 where none is
given; with `log` only the opening of a log is timed. With `sift` the index runs in turns with its twin in C++, hnswlib and faiss over
SIFT descriptors of photographs (sift/compare.py). The proved program `ann_program` is the one that `rt run` left in its
crate, and `ann_bench` is made in FOLDER/repository, beside a copy of the crates; where one is not there, `rt run` proves and
makes it. Both sides are compiled for the same processor, x86-64-v2.
"""
import os
import subprocess
import sys

from repository import TOP, built, built_beside

HERE = os.path.dirname(os.path.abspath(__file__))
D, R, L, ALPHA = "128", "64", "75", "12/10"
WIDTHS = (10, 50, 100, 200)
SEARCHES = 5000
ENTRIES = 300000
# The line of crates.txt for the program that times the kernels.
BENCH = "ann_bench: ann_types ann_lanes ann_pool ann_greedy ann_table ann_insert ann_bytes ann_pq ann_block ann_log ann_disk"


def index_program():
    """The program itself."""
    return built(os.path.join(TOP, "crates", "ann_program"), "once", "2", "2", "4", "1/1")


def timing_program(folder):
    """The program that times the kernels."""
    return built_beside(folder, BENCH, "40", "1")


def compiled(folder, name, *flags):
    out = os.path.join(folder, name + "".join(flags))
    subprocess.run(["g++", "-O3", "-march=x86-64-v2", *flags, "-o", out, os.path.join(HERE, name + ".cpp")], check=True)
    return out


def script(folder, maker, kind, points, searches, k, l):
    path = os.path.join(folder, f"{kind}-{points}-{searches}-{k}-{l}.script")
    if not os.path.exists(path):
        with open(path, "w") as out:
            subprocess.run([maker, kind, D, str(points), str(searches), str(k), str(l)], stdout=out, check=True)
    return path


def once_timed(program, words, path):
    """The processor seconds of a run, the greatest memory in MB, and what was written."""
    child = os.fork()
    if child == 0:
        os.dup2(os.open(path, os.O_RDONLY), 0)
        os.dup2(os.open(path + ".out", os.O_WRONLY | os.O_CREAT | os.O_TRUNC, 0o644), 1)
        os.execv(program, [program, *words])
    _, status, usage = os.wait4(child, 0)
    if status != 0:
        sys.exit(f"{program} ended with {status}")
    return usage.ru_utime + usage.ru_stime, usage.ru_maxrss / 1024, open(path + ".out", "rb").read()


def timed(programs, words, path, turns):
    """For each program the least seconds of some turns, its memory, and what it wrote; the programs take turns."""
    runs = [[once_timed(program, words, path) for program in programs] for _ in range(turns)]
    return [(min(run[i][0] for run in runs), runs[0][i][1], runs[0][i][2]) for i in range(len(programs))]


def compare(folder, programs, maker, kind, points):
    words = ["once", D, R, L, ALPHA]
    other = ["once", "127", R, L, ALPHA]  # every line is refused, so that only the reading is timed
    turns = 1 if points > 20000 else 5
    bare = script(folder, maker, kind, points, 0, 10, 10)
    reading, base = timed(programs, other, bare, turns), timed(programs, words, bare, turns)
    insert = [(b[0] - r[0]) / points * 1e6 for b, r in zip(base, reading)]
    print(f"{kind} {points} insert: {insert[0]:.1f} us, C++ {insert[1]:.1f} us, ratio {insert[0] / insert[1]:.2f}, same transcript {base[0][2] == base[1][2]}")
    print(f"{kind} {points} memory: {base[0][1]:.0f} MB, C++ {base[1][1]:.0f} MB, ratio {base[0][1] / base[1][1]:.2f}", flush=True)
    if points > 20000:
        return
    for l in WIDTHS:
        path = script(folder, maker, kind, points, SEARCHES, 10, l)
        refused, whole = timed(programs, other, path, turns), timed(programs, words, path, turns)
        # less the inserts, and less the reading of the searches
        search = [((w[0] - b[0]) - (f[0] - r[0])) / SEARCHES * 1e6 for w, b, f, r in zip(whole, base, refused, reading)]
        print(f"{kind} {points} search l {l}: {search[0]:.1f} us, C++ {search[1]:.1f} us, ratio {search[0] / search[1]:.2f}, same hits {whole[0][2] == whole[1][2]}", flush=True)


def mixed(folder, programs, maker, commands):
    """Scripts of all commands: whether both sides write the same."""
    for d in (4, 16):
        path = os.path.join(folder, f"mixed-{d}-{commands}.script")
        with open(path, "w") as out:
            subprocess.run([maker, "mixed", str(d), str(commands)], stdout=out, check=True)
        ours, theirs = timed(programs, ["once", str(d), "24", "40", ALPHA], path, 1)
        print(f"mixed {d} {commands}: {ours[0]:.1f} s, C++ {theirs[0]:.1f} s, ratio {ours[0] / theirs[0]:.2f}, same transcript {ours[2] == theirs[2]}", flush=True)


def kernels(folder, points, turns):
    """The timed loops of both sides: for each the least time of five runs in turns."""
    programs = (timing_program(folder), compiled(folder, "kernels"))
    runs = []
    for _ in range(5):
        ours = subprocess.run([programs[0], str(points), str(turns)], stderr=subprocess.PIPE, stdout=subprocess.DEVNULL, check=True).stderr
        theirs = subprocess.run([programs[1], str(points), str(turns)], stdout=subprocess.PIPE, check=True).stdout
        runs.append([[line.split() for line in out.decode().splitlines()] for out in (ours, theirs)])
    for i, (mine, other) in enumerate(zip(*runs[0])):
        if (mine[0], mine[2:]) != (other[0], other[2:]):
            sys.exit(f"{mine} and {other} differ")
        best = [min(int(run[side][i][1]) for run in runs) / int(mine[2]) for side in (0, 1)]
        print(f"{mine[0]}: {best[0]:.1f} ns, C++ {best[1]:.1f} ns, ratio {best[0] / best[1]:.2f}", flush=True)


def log_files(folder, maker, entries):
    """A folder with the two files of a log of so many inserts."""
    path = os.path.join(folder, str(entries))
    if not os.path.exists(os.path.join(path, "ann2.log")):
        os.makedirs(path, exist_ok=True)
        subprocess.run([maker, "make", str(entries), D], cwd=path, check=True)
    return path


def opened(maker, program, path):
    """Of one opening the lines, by their names, and the bytes that it held at most and when it was done."""
    done = subprocess.run([maker, "peak", program, "open"], cwd=path, stdout=subprocess.PIPE, stderr=subprocess.PIPE, check=True)
    lines = {line.split()[0]: line.split()[1:] for line in done.stderr.decode().splitlines()}
    return lines, int(done.stdout) * 1024, int(lines["held"][0]) * 1024


def log(folder):
    """Opens a log on both sides, five times in turns: the least time, and the memory beyond that of opening an empty log."""
    program = timing_program(folder)
    folder = os.path.join(folder, "log")
    os.makedirs(folder, exist_ok=True)
    maker = compiled(folder, "log")
    programs = (program, maker)
    full, empty = (log_files(folder, maker, n) for n in (ENTRIES, 0))
    runs = [[(opened(maker, program, full), opened(maker, program, empty)) for program in programs] for _ in range(5)]
    told = {str([run[0]["open"][1:3], run[0]["pass"][1:3]]) for turn in runs for run, _ in turn}
    if len(told) != 1:
        sys.exit(f"what was read differs: {told}")
    best = [min(int(turn[side][0][0]["open"][0]) for turn in runs) / 1e6 for side in (0, 1)]
    print(f"log open {ENTRIES}: {best[0]:.1f} ms, C++ {best[1]:.1f} ms, ratio {best[0] / best[1]:.2f}")
    entries = ENTRIES * (int(D) + 13)
    for name, place in (("at most", 1), ("held", 2)):
        room = [min(run[place] - base[place] for run, base in (turn[side] for turn in runs)) for side in (0, 1)]
        print(f"log memory {name}: {room[0] / 1e6:.1f} MB, C++ {room[1] / 1e6:.1f} MB, ratio {room[0] / room[1]:.2f}; "
              f"of the entries' {entries / 1e6:.1f} MB {room[0] / entries:.2f}, C++ {room[1] / entries:.2f}", flush=True)


def main():
    folder = os.path.abspath(sys.argv[1])
    os.makedirs(folder, exist_ok=True)
    if sys.argv[2:] == ["log"]:
        log(folder)
        return
    if sys.argv[2:3] == ["sift"]:
        subprocess.run([os.path.join(HERE, "sift", "compare.py"), folder, *sys.argv[3:]], check=True)
        return
    sizes = [int(n) for n in sys.argv[2:]] or [10000]
    kernels(folder, 2000, 40)
    log(folder)
    maker, theirs, ours = compiled(folder, "vectors"), compiled(folder, "once"), index_program()
    mixed(folder, (ours, theirs), maker, 100000)
    for points in sizes:
        for kind in ("close", "even"):
            compare(folder, (ours, theirs), maker, kind, points)


main()
