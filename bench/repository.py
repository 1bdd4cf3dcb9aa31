"""What the measurements share: programs that the kit proves and builds, those of the repository and those of bench/, each of
these beside a copy of the crates; and the vectors that they are given."""
import os
import shutil
import subprocess

BENCH = os.path.dirname(os.path.abspath(__file__))
TOP = os.path.dirname(BENCH)


def built(crate, *words):
    """The program that the kit built of a crate, which lies in this folder; with these words it ends at once."""
    path = os.path.join(crate, "out", os.path.basename(crate))
    if not os.path.exists(path):
        run = ["rt", "run", "--", *words]
        subprocess.run(run, cwd=crate, stdin=subprocess.DEVNULL, stdout=subprocess.DEVNULL, check=True)
    return path


def laid_beside(folder, line):
    """The folder of a crate of bench/, made in a copy of the crates in FOLDER/repository. LINE is the crate's in crates.txt.
    Its sources end in .txt here, so that the gate takes them for no crate."""
    name = line.split(":")[0].split()[0]
    there = os.path.join(folder, "repository")
    crate = os.path.join(there, "crates", name)
    if not os.path.exists(there):
        left_out = shutil.ignore_patterns("out")
        shutil.copytree(os.path.join(TOP, "crates"), os.path.join(there, "crates"), ignore=left_out)
        for file in ("HANDLES", "crates.txt"):
            shutil.copy(os.path.join(TOP, file), there)
    if not os.path.exists(crate):
        with open(os.path.join(there, "crates.txt"), "a") as out:
            out.write(line + "\n")
        shutil.copytree(os.path.join(BENCH, name), crate)
        for path, _, names in os.walk(crate):
            for source in names:
                os.rename(os.path.join(path, source), os.path.join(path, source.removesuffix(".txt")))
    return crate


def built_beside(folder, line, *words):
    """The program of a crate of bench/, made in a copy of the crates in FOLDER/repository."""
    return built(laid_beside(folder, line), *words)


def descriptors(folder):
    """The vectors and their codebook of 32 parts in this folder; each is made where it isn't there yet."""
    base, book = os.path.join(folder, "base.u8bin"), os.path.join(folder, "book-32")
    if not os.path.exists(base):
        subprocess.run([os.path.join(BENCH, "sift", "make.sh"), folder], check=True)
    if not os.path.exists(book):
        subprocess.run([os.path.join(TOP, "tools", "codebook.py"), base, "32", book], check=True)
    return base, book
