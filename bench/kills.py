#!/usr/bin/env python3
"""Kills a running index a hundred times, at random moments, and opens it again.

    bench/kills.py FOLDER [KILLS=100]

FOLDER/kills takes the index, of points of eight components, and is made anew. Each turn runs `run 2` on a script of inserts,
deletes, replaces and merges, and kills it with SIGKILL after a random time, or lets it end. Then `check` must find a whole index
whose list is the one from before with a front of the script's entries behind it, which a model of the same script in this file
tells by the length of the list and the number of live tags. Where the run had ended, all entries are there, and its transcript
says so. At the end a search must find each live tag at its own place, at a distance of 0.
"""
import os
import random
import shutil
import signal
import subprocess
import sys
import time

from repository import TOP, built

WORDS = ["init", "8", "16", "32", "12/10", "4", "8", "50"]
COMMANDS = 400


def codebook():
    """Eight parts of one component, whose centroid i is i."""
    return b"ANNPQ001" + bytes([8, 0, 8, 0]) + bytes(range(256)) * 8


class Model:
    """The list of an index: how long it is, and the live tags, with their points. A merge has two entries; one that a kill
    has left open goes on, with an End alone."""

    def __init__(self):
        self.entries, self.live, self.open, self.work = 0, {}, False, False

    def take(self, entry):
        kind, tag, point = entry
        self.entries += 1
        if kind == "begin":
            self.open, self.work = True, False
        elif kind == "end":
            self.open = False
        else:
            self.work = True
            self.live.pop(tag, None)
            if kind != "delete":
                self.live[tag] = point


def script(model, draw, first):
    """A script and the entries of each of its commands, behind this model."""
    live, lines, entries = dict(model.live), [], []
    is_open, work, tag = model.open, model.work, first
    for _ in range(COMMANDS):
        kind = draw.choices(["insert", "delete", "replace", "merge"], [20, 4, 3, 1])[0]
        if kind == "merge":
            lines.append("a merge")
            if is_open:
                entries.append([("end", 0, None)])
                is_open = False
            elif work:
                entries.append([("begin", 0, None), ("end", 0, None)])
                work = False
            continue
        if kind != "insert" and not live:
            kind = "insert"
        if kind == "insert":
            tag += 1
            chosen = tag
        else:
            chosen = draw.choice(sorted(live))
        work = True
        if kind == "delete":
            del live[chosen]
            lines.append(f"a delete {chosen}")
            entries.append([("delete", chosen, None)])
        else:
            point = tuple(draw.randrange(256) for _ in range(8))
            live[chosen] = point
            lines.append(f"a {kind} {chosen} " + " ".join(map(str, point)))
            entries.append([(kind, chosen, point)])
    return "\n".join(lines) + "\n", [e for some in entries for e in some], tag


def run(program, place, words, given=b""):
    return subprocess.run([program, *words], cwd=place, input=given, stdout=subprocess.PIPE)


def killed(program, place, given, seconds):
    """Runs a script and kills it after a time; what it wrote, or None where it was killed."""
    child = subprocess.Popen([program, "run", "2"], cwd=place, stdin=subprocess.PIPE, stdout=subprocess.PIPE)
    child.stdin.write(given.encode())
    child.stdin.close()
    if seconds is not None:
        time.sleep(seconds)
        child.send_signal(signal.SIGKILL)
    text = child.stdout.read().decode()
    return text if child.wait() == 0 else None


def looked_into(program, place):
    ended = run(program, place, ["check"])
    if ended.returncode:
        sys.exit(f"check: status {ended.returncode}: {ended.stdout.decode()}")
    words = ended.stdout.decode().split()
    return int(words[1]), int(words[3])


def all_found(program, place, model):
    """Whether a search at each live point finds it."""
    lines = "".join(f"a search 1 100 {' '.join(map(str, p))}\n" for p in model.live.values())
    text = run(program, place, ["run", "1"], lines.encode()).stdout.decode()
    return all(line.endswith(":0") for line in text.splitlines()[:-1])


def main():
    folder, kills = sys.argv[1], int(sys.argv[2]) if len(sys.argv) > 2 else 100
    place = os.path.join(folder, "kills")
    shutil.rmtree(place, ignore_errors=True)
    os.makedirs(place)
    program = built(os.path.join(TOP, "crates", "ann_program"), "check")
    if run(program, place, WORDS, codebook()).stdout != b"made\n":
        sys.exit("no index was made")
    draw, model, tag, torn, turns = random.Random(1), Model(), 0, 0, 0
    whole = 0.5
    while torn < kills:
        text, entries, tag = script(model, draw, tag)
        start = time.time()
        said = killed(program, place, text, draw.uniform(0, whole) if turns % 5 else None)
        if said is not None:
            whole = 0.8 * whole + 0.2 * (time.time() - start)
        turns += 1
        torn += said is None
        length, live = looked_into(program, place)
        for entry in entries[: length - model.entries]:
            model.take(entry)
        if (length, live) != (model.entries, len(model.live)) or (said is not None and length - model.entries):
            sys.exit(f"turn {turns}: {length} entries and {live} live, where {model.entries} and {len(model.live)} are due")
        if said is not None and said.splitlines()[-1] != f"log {length} entries, {live} live":
            sys.exit(f"turn {turns}: another transcript")
    if not all_found(program, place, model):
        sys.exit("a live point isn't found")
    print(f"{torn} kills in {turns} runs: {model.entries} entries, {len(model.live)} live, each reopened whole and found")


main()
