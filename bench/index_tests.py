#!/usr/bin/env python3
"""Runs the tests of the index for one owner, which aren't proved.

    bench/index_tests.py FOLDER

FOLDER takes a copy of the crates. The kit compiles the tests beside it, with its checks of what they call, and runs them: runs that
were worked out by hand, each closed and opened again, and runs in which each call of each device fails once.
"""
import os
import subprocess
import sys

from repository import laid_beside

LINE = "ann_index_tests tests_may=Threads: ann_types ann_outside ann_init ann_disk ann_log ann_vault ann_recover ann_merge ann_ledger ann_index"


def main():
    crate = laid_beside(os.path.abspath(sys.argv[1]), LINE)
    sys.exit(subprocess.run(["rt", "try", "--test"], cwd=crate).returncode)


main()
