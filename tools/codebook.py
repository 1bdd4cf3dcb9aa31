#!/usr/bin/env python3
"""Makes a codebook for an index out of the vectors that it is to hold.

    tools/codebook.py VECTORS M BOOK [--sample N] [--rounds N] [--seed N]

VECTORS is a file of byte vectors: .u8bin (the number of vectors and of components, four bytes each, then all bytes) or
.bvecs (before each vector its number of components, four bytes). M is the number of parts of a vector, which divides the
number of components; a code has a byte for each part. BOOK is the file that is written: the bytes that `init` reads from
its input.

For each part it finds 256 centroids of a sample of the vectors by k-means (product quantisation; Jégou, Douze and Schmid,
2011), by faiss where it is installed, and else by scikit-learn.

Debian: apt-get install python3-numpy python3-faiss (or python3-sklearn)
"""
import argparse
import os
import struct
import sys

CENTROIDS = 256


def fail(message):
    sys.exit(f"codebook.py: {message}")


try:
    import numpy
except ImportError:
    fail("numpy is missing (Debian: apt-get install python3-numpy)")


def read_u8bin(path, size):
    """All vectors of a .u8bin file, a row each."""
    if size < 8:
        fail(f"{path} has {size} bytes, and a .u8bin file begins with 8: the numbers of vectors and of components")
    with open(path, "rb") as file:
        count, width = struct.unpack("<II", file.read(8))
    if width == 0 or count == 0:
        fail(f"{path} says that it has {count} vectors of {width} components")
    if size != 8 + count * width:
        fail(f"{path} has {size} bytes, and {count} vectors of {width} components take {8 + count * width}")
    return numpy.memmap(path, dtype=numpy.uint8, mode="r", offset=8, shape=(count, width))


def read_bvecs(path, size):
    """All vectors of a .bvecs file, a row each."""
    if size < 4:
        fail(f"{path} has {size} bytes, and a .bvecs file begins with 4: the number of components")
    with open(path, "rb") as file:
        (width,) = struct.unpack("<I", file.read(4))
    if width == 0 or size % (4 + width) != 0:
        fail(f"{path} has {size} bytes, which is no multiple of {4 + width}: a vector's {width} components and 4 before")
    rows = numpy.memmap(path, dtype=numpy.uint8, mode="r", shape=(size // (4 + width), 4 + width))
    widths = rows[:, :4].copy().view("<u4").ravel()
    wrong = numpy.flatnonzero(widths != width)
    if wrong.size:
        fail(f"{path}: vector {wrong[0] + 1} has {widths[wrong[0]]} components, and the first one has {width}")
    return rows[:, 4:]


def read_vectors(path):
    readers = {".u8bin": read_u8bin, ".bvecs": read_bvecs}
    ending = os.path.splitext(path)[1]
    if ending not in readers:
        fail(f"{path}: the name ends in neither .u8bin nor .bvecs")
    try:
        return readers[ending](path, os.path.getsize(path))
    except OSError as error:
        fail(f"{path}: {error.strerror}")


def faiss_means(points, rounds, seed):
    """256 means of points by faiss, or None where it isn't installed."""
    try:
        import faiss
    except ImportError:
        return None
    means = faiss.Kmeans(points.shape[1], CENTROIDS, niter=rounds, seed=seed, min_points_per_centroid=1)
    means.train(points)
    return means.centroids


def sklearn_means(points, rounds, seed):
    """256 means of points by scikit-learn."""
    try:
        from sklearn.cluster import KMeans
    except ImportError:
        fail("neither faiss nor scikit-learn is there (Debian: apt-get install python3-faiss or python3-sklearn)")
    return KMeans(CENTROIDS, n_init=1, max_iter=rounds, random_state=seed).fit(points).cluster_centers_


def centroids_of(points, rounds, seed):
    """256 centroids of a part, a row of bytes each. Where there are no more than 256 points they are these, and the last
    one again."""
    distinct = numpy.unique(points, axis=0)
    if len(distinct) <= CENTROIDS:
        again = numpy.repeat(distinct[-1:], CENTROIDS - len(distinct), axis=0)
        return numpy.concatenate([distinct, again])
    floats = numpy.ascontiguousarray(points, dtype=numpy.float32)
    means = faiss_means(floats, rounds, seed)
    if means is None:
        means = sklearn_means(floats, rounds, seed)
    return numpy.clip(numpy.rint(means), 0, 255).astype(numpy.uint8)


def main():
    words = argparse.ArgumentParser(description="Makes a codebook out of a file of byte vectors.")
    words.add_argument("vectors", help="a file that ends in .u8bin or .bvecs")
    words.add_argument("m", type=int, help="parts of a vector: bytes of a code")
    words.add_argument("book", help="the file that is written")
    words.add_argument("--sample", type=int, default=20_000, help="how many vectors are looked at (20000)")
    words.add_argument("--rounds", type=int, default=20, help="the most rounds of k-means (20)")
    words.add_argument("--seed", type=int, default=1, help="where the random numbers begin (1)")
    asked = words.parse_args()
    vectors = read_vectors(asked.vectors)
    count, width = vectors.shape
    if not 1 <= width <= 1024:
        fail(f"the vectors have {width} components, and an index takes 1 to 1024")
    if asked.m < 1 or width % asked.m != 0:
        fail(f"{asked.m} parts don't divide vectors of {width} components")
    if asked.sample < 1:
        fail("a sample has at least one vector")
    rows = numpy.random.default_rng(asked.seed).permutation(count)[: asked.sample]
    sample = vectors[numpy.sort(rows)]
    part = width // asked.m
    parts = []
    for i in range(asked.m):
        parts.append(centroids_of(sample[:, i * part : (i + 1) * part], asked.rounds, asked.seed))
        print(f"\rpart {i + 1} of {asked.m}", end="", file=sys.stderr, flush=True)
    print(file=sys.stderr)
    try:
        with open(asked.book, "wb") as out:
            out.write(b"ANNPQ001" + struct.pack("<HH", width, asked.m))
            for centroids in parts:
                out.write(centroids.tobytes())
    except OSError as error:
        fail(f"{asked.book}: {error.strerror}")


if __name__ == "__main__":
    main()
