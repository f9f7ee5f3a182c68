#!/usr/bin/env python3
"""Measures the program on generated patterns with classes of sets under `v`: microseconds a pattern, MB/s, and the cost of long unions, intersections and class strings, and of classes in one another, at 100, 1000, 10000 and 100000 items.

    bench/set_patterns.py [PROGRAM]

PROGRAM is crates/rx_cli/out/rx_cli where it is not given; `./regexp </dev/null` builds it. Nothing here is a test: times depend on the machine.
"""
import os
import random
import sys

sys.dont_write_bytecode = True
from flat_patterns import HERE, seconds

COUNT = 100_000
OPERANDS = ["a", "é", "😀", r"\d", r"\W", r"\n", r"\x41", r"\-", r"\&", r"\p{L}", r"\P{Lu}", r"\p{RGI_Emoji}", r"\q{ab|c|}", "[x-z]", r"[\w--\d]", "[^a-f]"]
RANGES = ["a-z", "0-9", r"\x20-\x7E", "α-ω"]
LONG = {
    "union": lambda n: "[" + "a" * n + "]",
    "intersection": lambda n: "[" + "&&".join(["a"] * n) + "]",
    "class strings": lambda n: r"[\q{" + "|".join(["ab"] * n) + "}]",
    "classes in one another, closed": lambda n: "[a" * n + "]" * n,
    "classes in one another, open": lambda n: "[a" * n,
}


def some_class(source):
    operator = source.choice(["", "", "&&", "--"])
    items = OPERANDS + RANGES if operator == "" else OPERANDS
    return "[" + operator.join(source.choice(items) for _ in range(source.randint(1, 6))) + "]"


def pattern(source):
    return "".join(some_class(source) if source.random() < 0.7 else source.choice(["a", ".", r"\d+", "(b|c)"]) for _ in range(source.randint(1, 6)))


def main():
    program = sys.argv[1] if len(sys.argv) > 1 else os.path.join(HERE, "..", "crates", "rx_cli", "out", "rx_cli")
    source = random.Random(2026)
    lines = "".join(f"L\tv\t{pattern(source)}\n" for _ in range(COUNT)).encode()
    took, status = seconds(program, lines)
    print(f"{COUNT} patterns, {len(lines) / COUNT:.1f} bytes a line, status {status}: {took / COUNT * 1e6:.1f} us a pattern, {len(lines) / took / 1e6:.1f} MB/s")
    for what, text in LONG.items():
        for items in (100, 1_000, 10_000, 100_000):
            line = f"L\tv\t{text(items)}\n".encode()
            many = 100_000 // items
            took, status = seconds(program, line * many)
            print(f"{what}: {items} items, {len(line) - 5} bytes, status {status}: {took / many * 1e6:.0f} us, {took / many / len(line) * 1e9:.0f} ns a byte")


if __name__ == "__main__":
    main()
