#!/usr/bin/env python3
"""Times whole merges in doubling steps beside their twin in C++, in turns, over SIFT descriptors of photographs.

    bench/merges.py FOLDER [POINTS=80000]

FOLDER takes the vectors (by sift/make.sh, where they aren't there yet), a codebook of 32 parts (by tools/codebook.py), the
programs and the segments. The index is `ann_merges`, which is made in FOLDER/repository beside a copy of the crates, and proved
before it is built. First it merges 20,000 points of the generator by 1, 4 and 16 workers, whose segments must have the known
hash. Then it merges a sixty-fourth of POINTS descriptors, and as many more as there are until all are merged: by one worker, by
the twin and by four workers in turns. Each figure is the least of three turns, and all segments are the same. It needs what
sift/compare.py and tools/codebook.py need.
"""
import hashlib
import os
import subprocess
import sys
import tempfile

from repository import built_beside, descriptors

HERE = os.path.dirname(os.path.abspath(__file__))
LINE = "ann_merges: ann_types ann_greedy ann_pq ann_segment ann_vault ann_dead ann_table ann_frozen ann_mlaws ann_merge anyhow"
# R, L and alpha of the index.
SETTING = ["64", "75", "12", "10"]
TURNS = 3
# The segment of 20,000 points of the generator.
KNOWN = "df712b2b194aa1f80548a8614cb55916f6ba16eb7686745e81681dacf5f9971c"


def twin_program(folder):
    out = os.path.join(folder, "merges_twin")
    subprocess.run(["g++", "-O3", "-march=x86-64-v2", "-std=c++17", "-w", os.path.join(HERE, "merges.cpp"), "-o", out], check=True)
    return out


def run(words, place, source=os.devnull):
    """What a program writes in a place, and its greatest memory in MB."""
    with open(source, "rb") as given, tempfile.TemporaryFile() as said:
        child = subprocess.Popen(words, cwd=place, stdin=given, stdout=said, stderr=said)
        _, status, usage = os.wait4(child.pid, 0)
        said.seek(0)
        text = said.read().decode()
    if status:
        sys.exit(f"{words[0]}: status {status}\n{text}")
    return text, usage.ru_maxrss / 1000


def figures(text):
    """Of each merge how many points were there, how many came, and the milliseconds by the clock and of the processors."""
    return [tuple(int(word) for word in line.split()) for line in text.splitlines()]


def hashes(place):
    """The hash of each segment of a place, which is then emptied."""
    found = {}
    for name in sorted(os.listdir(place)):
        path = os.path.join(place, name)
        # By blocks, since the greatest memory of a child counts that of the process that it was forked from.
        found[name] = hashlib.sha256()
        with open(path, "rb") as segment:
            while block := segment.read(1 << 20):
                found[name].update(block)
        found[name] = found[name].hexdigest()
        os.remove(path)
    return found


def check_known(program, place):
    for workers in ("1", "4", "16"):
        text, _ = run([program, "fill", "20000", "20000", workers], place)
        if hashes(place) != {"40001.seg": KNOWN}:
            sys.exit(f"{workers} workers: another segment")
        print(f"{workers} workers: the known segment, {figures(text)[0][2]} ms by the clock", flush=True)


def tell(sides, memory):
    for at, (old, new, *_) in enumerate(sides["one"][0]):
        clock, busy = ({name: min(turn[at][column] for turn in turns) for name, turns in sides.items()} for column in (2, 3))
        ratio = busy["one"] / max(busy["twin"], 1)
        gain = clock["one"] / max(clock["four"], 1)
        print(f"{new} into {old}: {busy['one']} ms of one worker, C++ {busy['twin']} ms, ratio {ratio:.2f}, four workers {clock['four']} ms, gain {gain:.2f}")
    print(", ".join(f"{name} {most:.0f} MB" for name, most in memory.items()))


def main():
    folder = os.path.abspath(sys.argv[1])
    points = int((sys.argv[2:3] + ["80000"])[0])
    place = f"{folder}/segments"
    os.makedirs(place, exist_ok=True)
    (base, book), source = descriptors(folder), f"{folder}/merges-{points}"
    with open(source, "wb") as out:
        out.write(open(book, "rb").read())
        with open(base, "rb") as vectors:
            vectors.seek(8)
            out.write(vectors.read(points * 128))
    twin, index = twin_program(folder), built_beside(folder, LINE, "fill", "2", "2", "1")
    hashes(place)
    check_known(index, place)
    steps = [str(max(points // 64, 1)), str(points)]
    commands = {
        "one": ([index, "steps", *steps, "1", *SETTING], source),
        "twin": ([twin, base, book, *steps, *SETTING], os.devnull),
        "four": ([index, "steps", *steps, "4", *SETTING], source),
    }
    sides, memory, sealed = {name: [] for name in commands}, {}, None
    for _ in range(TURNS):
        for name, (words, given) in commands.items():
            text, memory[name] = run(words, place, given)
            sides[name].append(figures(text))
            found = hashes(place)
            if sealed not in (None, found):
                sys.exit(f"the segments differ: {name}")
            sealed = found
    tell(sides, memory)


if __name__ == "__main__":
    main()
