#!/usr/bin/env python3
"""Measures the program on generated flat patterns under `u`: nanoseconds a pattern, MB/s, and the cost at 1, 2, 4 and 8 times the length of one pattern.

    bench/flat_patterns.py [PROGRAM]

PROGRAM is crates/rx_cli/out/rx_cli where it is not given; `./regexp </dev/null` builds it. `canonical` is measured by the patterns as they are; LiteralParser::parse
by the same patterns with a `)` after them, at which each is refused, so that all is read and nothing is spelled. Nothing here is a test: times depend on the machine.
"""
import os
import random
import re
import subprocess
import sys
import tempfile
import time

HERE = os.path.dirname(os.path.abspath(__file__))
COUNT = 100_000
ATOMS = ["a", "Z", "7", "-", "é", "漢", "😀", ".", r"\d", r"\W", r"\s", r"\n", r"\cJ", r"\0", r"\x41", r"\u0041", r"\uD83D\uDE00", r"\u{1F600}", r"\/", r"\.", r"\|"]
BOUNDARIES = ["^", "$", r"\b", r"\B"]
QUANTIFIERS = ["*", "+", "?", "*?", "{2}", "{2,}", "{0,1}?", "{12,34}"]


def pattern(source, pieces):
    made = []
    for _ in range(pieces):
        pick = source.random()
        if pick < 0.05:
            made.append("|")
        elif pick < 0.12:
            made.append(source.choice(BOUNDARIES))
        elif pick < 0.32:
            made.append(source.choice(ATOMS[:-1]) + source.choice(QUANTIFIERS))
        else:
            made.append(source.choice(ATOMS) if made[-1:] != [r"\0"] else "a")
    return re.sub(r"\\0(?=\d)", r"\\0a", "".join(made))


def seconds(program, lines, words=()):
    """The least of three runs with these words, and the status."""
    with tempfile.NamedTemporaryFile() as it:
        it.write(lines)
        it.flush()
        best, status = None, 0
        for _ in range(3):
            with open(it.name, "rb") as given, open(os.devnull, "wb") as out:
                began = time.perf_counter()
                status = subprocess.run([program, *words], stdin=given, stdout=out).returncode
                took = time.perf_counter() - began
            best = took if best is None else min(best, took)
        return best, status


def main():
    program = sys.argv[1] if len(sys.argv) > 1 else os.path.join(HERE, "..", "crates", "rx_cli", "out", "rx_cli")
    source = random.Random(2026)
    texts = [pattern(source, source.randint(1, 24)) for _ in range(COUNT)]
    for name, after in (("canonical", ""), ("LiteralParser::parse", ")")):
        lines = "".join(f"L\tu\t{text}{after}\n" for text in texts).encode()
        took, status = seconds(program, lines)
        print(f"{name}: {COUNT} patterns, {len(lines) / COUNT:.1f} bytes a line, status {status}: {took / COUNT * 1e9:.0f} ns a pattern, {len(lines) / took / 1e6:.1f} MB/s")
    one = pattern(random.Random(7), 400)
    for times in (1, 2, 4, 8):
        line = f"L\tu\t{one * times}\n".encode()
        many = 4000 // times
        took, status = seconds(program, line * many)
        print(f"one pattern of {len(line) - 5} bytes, status {status}: {took / many * 1e6:.1f} us, {took / many / len(line) * 1e9:.0f} ns a byte")


if __name__ == "__main__":
    main()
