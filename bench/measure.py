#!/usr/bin/env python3
"""Measures the program: MB/s and peak memory over 60 MB of lines that a seeded generator makes.

    bench/measure.py [PROGRAM]

PROGRAM is crates/rx_cli/out/rx_cli where it is not given; `./regexp </dev/null` builds it. Nothing here is a test: times depend on the machine.
"""
import os
import random
import subprocess
import sys
import tempfile
import time

HERE = os.path.dirname(os.path.abspath(__file__))
SIZE = 60_000_000
LETTERS = "abcdefghijklmnopqrstuvwxyzABCDEFGHIJKLMNOPQRSTUVWXYZ0123456789 -_,:;=<>!@#%&~\"'/"


def line(source, low, high):
    """A request line whose pattern has so many characters: mostly letters, with dots, bars and a few that take more bytes."""
    length = source.randint(low, high)
    picks = source.choices(["letter", "dot", "bar", "wide"], weights=[90, 5, 3, 2], k=length)
    made = {"dot": ".", "bar": "|"}
    text = "".join(made.get(it) or (source.choice(LETTERS) if it == "letter" else source.choice("éλ漢😀")) for it in picks)
    return f"L\tu\t{text}\n".encode()


def make(path, low, high):
    source = random.Random(2026)
    block = b"".join(line(source, low, high) for _ in range(max(1, 2_000_000 // (high + 5))))
    with open(path, "wb") as it:
        written = 0
        while written + len(block) <= SIZE:
            it.write(block)
            written += len(block)
    return written


def peak_of(pid):
    """The most memory that the program has had so far, in KiB."""
    try:
        with open(f"/proc/{pid}/status") as it:
            return max([int(row.split()[1]) for row in it if row.startswith("VmHWM")], default=0)
    except OSError:
        return 0


def measure(program, path, size, name):
    best, peak = None, 0
    for _ in range(3):
        with open(path, "rb") as given, open(os.devnull, "wb") as out:
            began = time.perf_counter()
            child = subprocess.Popen([program], stdin=given, stdout=out)
            while child.poll() is None:
                peak = max(peak, peak_of(child.pid))
                time.sleep(0.005)
            took = time.perf_counter() - began
        if child.returncode != 0:
            sys.exit(f"{name}: status {child.returncode}")
        best = min(best or took, took)
    print(f"{name}: {size / 1e6:.1f} MB in {best:.2f} s, {size / 1e6 / best:.1f} MB/s, peak memory {peak / 1024:.1f} MiB")


def main():
    program = sys.argv[1] if len(sys.argv) > 1 else f"{HERE}/../crates/rx_cli/out/rx_cli"
    with tempfile.TemporaryDirectory() as room:
        for name, low, high in [("short lines (8 to 40 characters)", 8, 40), ("lines of about 1 KB", 900, 1100)]:
            path = f"{room}/lines"
            measure(program, path, make(path, low, high), name)


if __name__ == "__main__":
    main()
