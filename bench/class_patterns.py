#!/usr/bin/env python3
"""Measures the program on generated patterns with classes and property escapes under `u`: microseconds a pattern, MB/s, and the cost of one class of 100, 1000, 10000 and 100000 items.

    bench/class_patterns.py [PROGRAM]

PROGRAM is crates/rx_cli/out/rx_cli where it is not given; `./regexp </dev/null` builds it. Nothing here is a test: times depend on the machine.
"""
import os
import random
import sys

sys.dont_write_bytecode = True
from flat_patterns import HERE, seconds

COUNT = 100_000
ITEMS = ["a", "é", "😀", r"\d", r"\W", r"\n", r"\x41", r"\u{1F600}", r"\]", r"\-", "a-z", "0-9", r"\x20-\x7E", "α-ω", r"\p{L}", r"\P{Lu}", r"\p{sc=Greek}"]
OTHERS = ["a", ".", r"\d+", "(b|c)", r"\p{L}+", r"\P{ASCII}", r"\p{Script=Latin}", r"\p{Alphabetic}*"]


def some_class(source, items):
    return "[" + source.choice(["", "^"]) + "".join(source.choice(ITEMS) for _ in range(items)) + "]"


def pattern(source):
    return "".join(some_class(source, source.randint(0, 6)) if source.random() < 0.5 else source.choice(OTHERS) for _ in range(source.randint(1, 8)))


def main():
    program = sys.argv[1] if len(sys.argv) > 1 else os.path.join(HERE, "..", "crates", "rx_cli", "out", "rx_cli")
    source = random.Random(2026)
    lines = "".join(f"L\tu\t{pattern(source)}\n" for _ in range(COUNT)).encode()
    took, status = seconds(program, lines)
    print(f"{COUNT} patterns, {len(lines) / COUNT:.1f} bytes a line, status {status}: {took / COUNT * 1e6:.1f} us a pattern, {len(lines) / took / 1e6:.1f} MB/s")
    for items in (100, 1_000, 10_000, 100_000):
        line = f"L\tu\t{some_class(random.Random(7), items)}\n".encode()
        many = 100_000 // items
        took, status = seconds(program, line * many)
        print(f"one class of {items} items, {len(line) - 5} bytes, status {status}: {took / many * 1e6:.0f} us, {took / many / len(line) * 1e9:.0f} ns a byte")


if __name__ == "__main__":
    main()
