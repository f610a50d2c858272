#!/usr/bin/env python3
"""Times a create, a refresh and a move of 13 members (to 13 others) with the program, in a folder in memory. Prints of each
the least processor time, the least time by the clock and the most memory of some runs, and beside it how many
multiplications of field elements its definition asks for, over all seats: rows and columns of the grids, the values where
they cross, and in a move the syndromes, their openings and the corrections. The program's own start is the `check` of a key
that isn't there; what needs less memory than this measuring process shows as that. No part of the gate; the files stand in
/dev/shm.

usage: bench/phases.py [RUNS]
"""
import os
import shutil
import subprocess
import sys
import tempfile
import time

TOP = os.path.dirname(os.path.dirname(os.path.abspath(__file__)))
PROGRAM = os.path.join(TOP, "crates", "committee_cli", "out", "committee_cli")
SIZE, BOUND, LANES = 13, 4, 5


def sharing(dealers, receivers, degree):
    """Multiplications of a sharing: each dealer's rows and columns for each receiver, by Horner's rule, and each
    receiver's values at each other's point."""
    dealt = dealers * LANES * receivers * 2 * degree * (degree + 1)
    crossed = receivers * receivers * dealers * LANES * 2 * degree
    return dealt + crossed


def moving(dealers, bound, receivers, degree):
    """Those of a move: also the syndromes, an opening of each place where all posts agree (a polynomial through the first
    posts and its values at the others), and the corrections."""
    checks = dealers - bound - 1
    syndromes = receivers * LANES * checks * dealers
    opened = receivers * LANES * checks * ((degree + 1) ** 2 + receivers * degree)
    corrected = receivers * LANES * (bound + 1)
    return sharing(dealers, receivers, degree) + syndromes + opened + corrected


def measured(words, first, runs):
    """The least processor seconds and seconds by the clock, and the most memory in MB, over copies of a folder."""
    processor, clock, memory = [], [], []
    for _ in range(runs):
        folder = tempfile.mkdtemp(dir="/dev/shm")
        shutil.copytree(first, folder, dirs_exist_ok=True)
        at = time.monotonic()
        child = subprocess.Popen([PROGRAM, *words], cwd=folder, stdout=subprocess.DEVNULL, stderr=subprocess.DEVNULL)
        _, status, used = os.wait4(child.pid, 0)
        clock.append(time.monotonic() - at)
        shutil.rmtree(folder)
        if os.waitstatus_to_exitcode(status) not in (0, 3):
            sys.exit(f"bench: {' '.join(words)} ends with {os.waitstatus_to_exitcode(status)}")
        processor.append(used.ru_utime + used.ru_stime)
        memory.append(used.ru_maxrss / 1000)
    return min(processor), min(clock), max(memory)


def main(words):
    if not os.access(PROGRAM, os.X_OK):
        print("bench: no program (build it by rt ci, or ./committee): skipped")
        return
    runs = int(words[0]) if words else 60
    size, bound = str(SIZE), str(BOUND)
    empty, keyed = tempfile.mkdtemp(dir="/dev/shm"), tempfile.mkdtemp(dir="/dev/shm")
    subprocess.run([PROGRAM, "create", "k1", size, bound], cwd=keyed, stdout=subprocess.DEVNULL, check=True)
    for command, first, count in (
        (["check", "k9"], empty, 0),
        (["create", "k1", size, bound], empty, sharing(SIZE, SIZE, BOUND)),
        (["refresh", "k1"], keyed, sharing(SIZE, SIZE, BOUND - 1)),
        (["move", "k1", size, bound], keyed, moving(SIZE, BOUND, SIZE, BOUND)),
    ):
        processor, clock, memory = measured(command, first, runs)
        print(f"{' '.join(command)}: {1000 * processor:.2f} ms of processor time, {1000 * clock:.2f} ms by the clock, {memory:.1f} MB, {count} multiplications")
    shutil.rmtree(empty)
    shutil.rmtree(keyed)


if __name__ == "__main__":
    main(sys.argv[1:])
