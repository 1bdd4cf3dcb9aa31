#!/usr/bin/env python3
"""Runs many random lists of events through the core and through a program in plain C++, and compares what each event comes to.

    bench/events.py FOLDER [LISTS=10000 [SEED=1]]

FOLDER takes the programs, the lists and what both say of them. The core is `ann_core::Core`, which `ann_events` steps; that is made
in FOLDER/repository beside a copy of the crates, and proved before it is built. `events.cpp` makes the lists, and says what they come
to by the definitions alone. One list in four begins with 10 to 80 points; one in fifty with 200 to 600, so that its merges have up to
three pieces; and one in two thousand with about a thousand, as many as a base without survivors takes. It prints for each kind of
event how often it took place and how often it was refused, and ends at the first step that differs, with status 1.
"""
import collections
import itertools
import os
import subprocess
import sys

from repository import built_beside

HERE = os.path.dirname(os.path.abspath(__file__))
LINE = "ann_events: ann_types ann_pq ann_core anyhow"
# So many lists at a time.
PART = 2000


def twin_program(folder):
    out = os.path.join(folder, "events_twin")
    subprocess.run(["g++", "-O2", "-std=c++17", os.path.join(HERE, "events.cpp"), "-o", out], check=True)
    return out


def tell_difference(done, told, wanted):
    print("the steps differ behind these events:")
    for event, step in done:
        print(f"    {event}    {step}")
    sys.exit(f"    the core: {told}\n    C++: {wanted}")


def compare(counts, script, core, twin):
    """Counts the lists and steps of a part, each of which has to be the same on both sides."""
    done = []
    for event, told, wanted in itertools.zip_longest(script, core, twin, fillvalue="nothing\n"):
        event, told, wanted = event.rstrip("\n"), told.rstrip("\n"), wanted.rstrip("\n")
        kind = event.split()[0]
        if kind == "core":
            done = []
        done.append((event, wanted))
        if told != wanted:
            tell_difference(done, told, wanted)
        counts[kind, wanted != "no"] += 1


def run_part(folder, index, twin, lists, seed, counts):
    script, told, wanted = (os.path.join(folder, f"events-{name}") for name in ("script", "core", "twin"))
    subprocess.run([twin, str(seed), str(lists), script, wanted], check=True)
    with open(script, "rb") as given, open(told, "wb") as out:
        subprocess.run([index], stdin=given, stdout=out, check=True)
    with open(script) as events, open(told) as core, open(wanted) as steps:
        compare(counts, events, core, steps)


def main():
    folder = os.path.abspath(sys.argv[1])
    lists, seed = (int(word) for word in (sys.argv[2:] + ["10000", "1"][len(sys.argv) - 2:])[:2])
    os.makedirs(folder, exist_ok=True)
    twin, index = twin_program(folder), built_beside(folder, LINE)
    counts = collections.Counter()
    for first in range(0, lists, PART):
        run_part(folder, index, twin, min(PART, lists - first), seed + first, counts)
    for kind in ("frame", "show", "enter", "reply", "leave", "piece", "seal", "switch", "remove"):
        print(f"{kind}: {counts[kind, True]} took place, {counts[kind, False]} refused")
    begun = counts.pop(("core", True), 0)
    print(f"{begun} lists and {counts.total()} steps are the same")


if __name__ == "__main__":
    main()
