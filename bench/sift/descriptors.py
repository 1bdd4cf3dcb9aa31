#!/usr/bin/python3
"""Makes a set of byte vectors (d = 128) out of the photographs that Debian packages ship.

The vectors are the SIFT descriptors that OpenCV computes, which are whole numbers 0 to 255.
The result is the same bytes for the same package versions: images are taken in order of their
names, features in order of their strength, and the shuffle has a fixed seed.

    descriptors.py IMAGES_FOLDER OUT_FOLDER [BASE=100000] [QUERIES=1000]

writes base.u8bin and query.u8bin: the count and d (4 bytes each), then all bytes.
"""
import os
import sys
from concurrent.futures import ThreadPoolExecutor

import cv2
import numpy as np

ENDINGS = (".jpg", ".jpeg", ".png", ".webp", ".tif")
LONG_SIDE = 1600
PER_IMAGE = 1500


def pictures(root):
    """Returns one file of each folder named images.. (a wallpaper in several sizes), and all others."""
    found, sized = [], {}
    for at, folders, names in os.walk(root):
        folders.sort()
        for name in sorted(names):
            path = os.path.join(at, name)
            if os.path.islink(path) or not name.lower().endswith(ENDINGS):
                continue
            if os.path.getsize(path) < 60_000:
                continue
            if os.path.basename(at).startswith("images"):
                best = sized.get(at)
                if best is None or os.path.getsize(path) > os.path.getsize(best):
                    sized[at] = path
            else:
                found.append(path)
    return sorted(found + list(sized.values()))


def describe(path):
    image = cv2.imread(path, cv2.IMREAD_GRAYSCALE)
    if image is None:
        return path, np.zeros((0, 128), np.uint8)
    scale = LONG_SIDE / max(image.shape)
    if scale < 1:
        size = (round(image.shape[1] * scale), round(image.shape[0] * scale))
        image = cv2.resize(image, size, interpolation=cv2.INTER_AREA)
    points, vectors = cv2.SIFT_create(nfeatures=PER_IMAGE).detectAndCompute(image, None)
    if vectors is None:
        return path, np.zeros((0, 128), np.uint8)
    order = sorted(range(len(points)), key=lambda i: (-points[i].response, i))[:PER_IMAGE]
    return path, vectors[order].astype(np.uint8)


def write(folder, name, rows):
    count, d = rows.shape
    with open(f"{folder}/{name}.u8bin", "wb") as out:
        out.write(np.array([count, d], "<u4").tobytes())
        out.write(rows.tobytes())


def main():
    root, folder = sys.argv[1:3]
    base, queries = [int(it) for it in sys.argv[3:5] or ["100000", "1000"]]
    os.makedirs(folder, exist_ok=True)
    cv2.setNumThreads(1)
    with ThreadPoolExecutor(3) as pool:
        parts = list(pool.map(describe, pictures(root)))
    rows = np.vstack([rows for _, rows in parts])
    total = len(rows)
    # The first of equal vectors stays, so no query is a base vector and no two are equal.
    _, first = np.unique(rows, axis=0, return_index=True)
    rows = rows[np.sort(first)]
    rows = rows[np.random.RandomState(20211).permutation(len(rows))]
    print(f"{len(parts)} images, {total} descriptors, {len(rows)} different ones")
    assert len(rows) >= base + queries, "too few descriptors: raise PER_IMAGE"
    write(folder, "query", rows[:queries])
    write(folder, "base", rows[queries : queries + base])


main()
