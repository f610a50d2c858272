#!/usr/bin/env python3
"""What syncing costs: the calls to the system of a create and of a refresh, without syncs, with few (the folder's only
before and after the put of the now file), and with those that the program makes (the folder's after each change). Made
here by this script, in a folder below the current one, so that only the syncs differ. Prints the least and the median
of some rounds in milliseconds. No part of the gate.

usage: bench/syncs.py [ROUNDS]
"""
import os
import sys
import tempfile
import time


def put(folder, name, syncs_file, syncs_folder):
    second = f".{os.urandom(16).hex()}..share"
    file = os.open(second, os.O_WRONLY | os.O_CREAT | os.O_EXCL, 0o600)
    os.write(file, bytes(116))
    if syncs_file:
        os.fsync(file)
    os.close(file)
    os.rename(second, name)
    if syncs_folder:
        os.fsync(folder)


def phase(members, period, way):
    """The changes of a phase that ends with this period: a create where it is 1, else a refresh."""
    folder = os.open(".", os.O_RDONLY)
    for index in range(1, members + 1):
        put(folder, f"k.{period}.{index}.share", way != "none", way == "each")
    if way == "few":
        os.fsync(folder)
    put(folder, "k.now", way != "none", way != "none")
    for index in range(1, members + 1) if period > 1 else ():
        os.unlink(f"k.{period - 1}.{index}.share")
        if way == "each":
            os.fsync(folder)
    if way == "few" and period > 1:
        os.fsync(folder)
    os.close(folder)


def main(rounds):
    with tempfile.TemporaryDirectory(dir=".") as below:
        os.chdir(below)
        for period, what in ((1, "create"), (2, "refresh")):
            for members in (4, 13):
                for way in ("none", "few", "each"):
                    took = []
                    for _ in range(rounds):
                        for name in os.listdir("."):
                            os.unlink(name)
                        if period > 1:
                            phase(members, 1, "none")
                        os.sync()
                        at = time.perf_counter()
                        phase(members, period, way)
                        took.append(1000 * (time.perf_counter() - at))
                    took.sort()
                    print(f"{what} of {members}, syncs {way}: least {took[0]:.1f} ms, median {took[rounds // 2]:.1f} ms")
        os.chdir("..")


if __name__ == "__main__":
    main(int(sys.argv[1]) if len(sys.argv) > 1 else 9)
