#!/usr/bin/env python3
"""Measures a million lines through GNU parallel, with 1, 2 and 4 jobs, and compares the replies with those of the program alone.

    bench/many_lines.py [--literals FILE] [PROGRAM]

FILE has lines as the default command reads them; where it is not given, patterns are made by a fixed seed (json_speed.py). PROGRAM is crates/rx_cli/out/rx_cli where it is not
given. Nothing here is a test: times depend on the machine, and the fastest of three runs counts.
"""
import argparse
import hashlib
import itertools
import os
import resource
import subprocess
import sys
import tempfile
import time

import json_speed

LINES = 1000000
RUNS = 3
PIECE = 100000


def lines_of(path):
    """A million lines: those of a file, again and again."""
    lines = [f"L\t{flags}\t{pattern}\n".encode() for flags, pattern in json_speed.literals(path)]
    return list(itertools.islice(itertools.cycle(lines), LINES))


def alone(program, lines):
    """What the program replies to so few lines at once that no input is too long."""
    found = hashlib.sha256()
    for at in range(0, len(lines), PIECE):
        found.update(subprocess.run([program], input=b"".join(lines[at : at + PIECE]), stdout=subprocess.PIPE, check=False).stdout)
    return found.hexdigest()


def parallel(program, path, jobs, room):
    """The time by the clock, the processor time, and what the replies are, of one run."""
    command = ["parallel", "--will-cite", "--pipe", "-k", "--block", "8M", "-j", str(jobs), program]
    before, began = resource.getrusage(resource.RUSAGE_CHILDREN), time.perf_counter()
    with open(path, "rb") as given, open(f"{room}/replies", "wb") as sink:
        subprocess.run(command, stdin=given, stdout=sink, check=False)
    took, after = time.perf_counter() - began, resource.getrusage(resource.RUSAGE_CHILDREN)
    with open(f"{room}/replies", "rb") as file:
        return took, after.ru_utime - before.ru_utime, hashlib.file_digest(file, "sha256").hexdigest()


def main():
    words = argparse.ArgumentParser(description=__doc__, formatter_class=argparse.RawDescriptionHelpFormatter)
    words.add_argument("--literals")
    words.add_argument("program", nargs="?", default=f"{json_speed.TOP}/crates/rx_cli/out/rx_cli", type=os.path.abspath)
    given = words.parse_args()
    lines = lines_of(given.literals)
    wanted = alone(given.program, lines)
    with tempfile.TemporaryDirectory() as room:
        with open(f"{room}/lines", "wb") as file:
            file.writelines(lines)
        for jobs in (1, 2, 4):
            runs = [parallel(given.program, f"{room}/lines", jobs, room) for _ in range(RUNS)]
            same = all(found == wanted for _, _, found in runs)
            print(f"{jobs} jobs: {min(runs)[0]:.1f} s by the clock, {min(run[1] for run in runs):.1f} s of user time, {'the same replies' if same else 'OTHER REPLIES'}")


if __name__ == "__main__":
    sys.exit(main())
