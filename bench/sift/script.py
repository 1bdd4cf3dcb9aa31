#!/usr/bin/env python3
"""Writes a script of inserts and searches over the SIFT descriptors, or reads what the program answered.

    script.py FOLDER POINTS WIDTH                      the script, to standard output
    script.py FOLDER POINTS WIDTH TRANSCRIPT MILLIS    the recall of the answers, and how long the program took
"""
import sys

D = 128


def vectors(path, most):
    data = open(path, "rb").read()[8:]
    return [data[at : at + D] for at in range(0, min(len(data), most * D), D)]


def exact_tens(path):
    words = memoryview(open(path, "rb").read()).cast("I")
    return [set(words[2 + q * words[1] : 12 + q * words[1]]) for q in range(words[0])]


def main():
    folder, points, width = sys.argv[1], int(sys.argv[2]), sys.argv[3]
    if len(sys.argv) == 4:
        for tag, vector in enumerate(vectors(f"{folder}/base.u8bin", points)):
            print("a insert", tag, *vector)
        for vector in vectors(f"{folder}/query.u8bin", 1000):
            print("a search 10", width, *vector)
        return
    tens = exact_tens(f"{folder}/exact-{points}")
    found = [line.split()[5:] for line in open(sys.argv[4]) if line.split()[2] == "found"]
    hits = sum(len({int(item.split(":")[0]) for item in line} & ten) for line, ten in zip(found, tens))
    print(open(sys.argv[4]).read().splitlines()[-1])
    print(f"{points} inserts and {len(found)} searches in {int(sys.argv[5]) / 1000:.1f} s, recall@10 {hits / (10 * len(found)):.4f}")


main()
