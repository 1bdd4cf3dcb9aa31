#!/usr/bin/env python3
"""Times the index beside its twin in C++, hnswlib and faiss, in turns, over SIFT descriptors of photographs.

    compare.py FOLDER [POINTS=100000] [TURNS=3]

FOLDER takes the vectors (by make.sh, where they aren't there yet) and the programs. The index is `ann_sift`, which is made
in FOLDER/repository beside a copy of the crates, and proved before it is built. All C++ is compiled by g++ -O3 for x86-64-v2,
which is what the kit makes for. Each figure is the least of the turns, in processor time of one thread. It needs libhnswlib-dev,
libfaiss-dev, libopenblas-dev, python3-opencv and python3-numpy.
"""
import os
import subprocess
import sys

HERE = os.path.dirname(os.path.abspath(__file__))
sys.path.append(os.path.dirname(HERE))
from repository import built_beside

LINE = "ann_sift: ann_types ann_pool ann_greedy ann_table ann_insert"
# R, L and alpha of the index, and the widths of searches; hnswlib and faiss have M = R / 2 or 32, and build 75 wide.
SETTINGS = [("64", "75", "12", "10"), ("32", "50", "11", "10")]
WIDTHS = ["10", "30", "50", "75", "80", "100"]
EFS = ["10", "40", "75", "100"]


def made(folder, name, *flags):
    out = os.path.join(folder, name)
    subprocess.run(["g++", "-O3", "-march=x86-64-v2", "-std=c++17", "-w", os.path.join(HERE, name + ".cpp"), "-o", out, *flags], check=True)
    return out


def index_program(folder):
    """The proved program of the index."""
    return built_beside(folder, LINE, "0")


def exact_tens(path):
    words = memoryview(open(path, "rb").read()).cast("I")
    count, k = words[0], words[1]
    return [set(words[2 + q * k : 12 + q * k]) for q in range(count)]


def index_figures(program, vectors, tens, points, setting):
    """Insert and search times and recall of the proved program, and the hash of its lists."""
    with open(vectors, "rb") as source:
        run = subprocess.run([program, str(points // 1000), *setting, *WIDTHS], stdin=source, capture_output=True, text=True, check=True)
    hits = dict.fromkeys(WIDTHS, 0)
    for line in run.stdout.splitlines():
        width, query, *found = line.split()
        hits[width] += len(tens[int(query)] & {int(row) for row in found})
    figures, widths = {}, iter(WIDTHS)
    for line in run.stderr.splitlines():
        name, *numbers = line.split()
        if name == "lists":
            figures["lists"] = numbers[0]
        elif name == "insert":
            figures["insert"] = (int(numbers[0]) / int(numbers[1]) / 1000, 1.0)
        elif name == "walk":
            width = next(widths)
            figures[width] = (int(numbers[0]) / int(numbers[1]) / 1000, hits[width] / (10 * len(tens)))
    return figures


def peer_figures(program, folder, exact, points, *words):
    run = subprocess.run([program, f"{folder}/base.u8bin", f"{folder}/query.u8bin", exact, str(points), *words], capture_output=True, text=True, check=True)
    figures = {}
    for line in run.stdout.splitlines():
        name, *numbers = line.split()
        if name == "lists":
            figures["lists"] = numbers[0]
        elif name == "insert":
            figures["insert"] = (float(numbers[0]), 1.0)
        else:
            figures[numbers[0]] = (float(numbers[1]), float(numbers[3]))
    return figures


def least(turns):
    """The least time of each figure over all turns."""
    best = dict(turns[0])
    for turn in turns[1:]:
        for name, value in turn.items():
            if name != "lists":
                best[name] = min(best[name], value)
    return best


def main():
    folder = os.path.abspath(sys.argv[1])
    points = int(sys.argv[2]) if len(sys.argv) > 2 else 100000
    turns = int(sys.argv[3]) if len(sys.argv) > 3 else 3
    os.makedirs(folder, exist_ok=True)
    if not os.path.exists(f"{folder}/base.u8bin"):
        subprocess.run([os.path.join(HERE, "make.sh"), folder], check=True)
    exact_program = made(folder, "exact", "-pthread")
    twin, hnsw = made(folder, "twin", "-DSTAMPS", "-DPREFETCH"), made(folder, "hnsw")
    faiss = made(folder, "faiss", "-fopenmp", "-lfaiss", "-lopenblas")
    index = index_program(folder)
    exact, vectors = f"{folder}/exact-{points}", f"{folder}/in-{points}"
    subprocess.run([exact_program, f"{folder}/base.u8bin", f"{folder}/query.u8bin", exact, str(points)], check=True)
    with open(vectors, "wb") as out:
        out.write(open(f"{folder}/base.u8bin", "rb").read()[8 : 8 + points * 128])
        out.write(open(f"{folder}/query.u8bin", "rb").read()[8:])
    tens = exact_tens(exact)
    rows = {}
    for _ in range(turns):
        for setting in SETTINGS:
            label = "R {}, L {}, {}/{}".format(*setting)
            rows.setdefault(("index", label), []).append(index_figures(index, vectors, tens, points, setting))
            rows.setdefault(("twin", label), []).append(peer_figures(twin, folder, exact, points, *setting, *WIDTHS))
        rows.setdefault(("hnswlib", "M 32, ef 75"), []).append(peer_figures(hnsw, folder, exact, points, "32", "75", *EFS))
    rows[("faiss HNSW", "M 32, ef 75")] = [peer_figures(faiss, folder, exact, points, "32", "75", *EFS)]
    best = {key: least(value) for key, value in rows.items()}
    for setting in SETTINGS:
        label = "R {}, L {}, {}/{}".format(*setting)
        mine, twins = best[("index", label)], best[("twin", label)]
        assert mine["lists"] == twins["lists"], "the lists differ"
        print(f"{label}: lists {int(mine['lists']):016x} on both sides")
        print(f"  insert {mine['insert'][0] / twins['insert'][0]:.2f} of the twin, {mine['insert'][0] / best[('hnswlib', 'M 32, ef 75')]['insert'][0]:.2f} of hnswlib")
        for width in WIDTHS:
            print(f"  search {width}: {mine[width][0] / twins[width][0]:.2f} of the twin")
    print(f"\n| {points} points | insert, us | search: width, us, recall@10 |\n|---|---|---|")
    for (name, label), figures in best.items():
        cells = "; ".join(f"{w}: {figures[w][0]:.0f}, {figures[w][1]:.4f}" for w in figures if w not in ("insert", "lists"))
        print(f"| {name}, {label} | {figures['insert'][0]:.0f} | {cells} |")


if __name__ == "__main__":
    main()
