#!/usr/bin/env python3
"""Measures the program on generated patterns with groups under `u`: nanoseconds a pattern and MB/s with groups nested 1 to 30 deep, and the cost of one pattern
at 500, 1000, 2000 and 4000 names: of as many groups and as many references to them, and of as many alternatives with one name.

    bench/nested_patterns.py [PROGRAM]

PROGRAM is crates/rx_cli/out/rx_cli where it is not given; `./regexp </dev/null` builds it. Nothing here is a test: times depend on the machine.
"""
import os
import random
import sys

sys.dont_write_bytecode = True
from flat_patterns import HERE, QUANTIFIERS, pattern, seconds

COUNT = 20_000
GROUPS = ["(", "(?:", "(?i:", "(?s-im:"]
LOOKS = ["(?=", "(?!", "(?<=", "(?<!"]


def nested(source, depth):
    """Groups and look-arounds, each in the one before it, with flat patterns between, and references to those that capture."""
    text, captured, names = ".", 0, []
    for _ in range(depth):
        opener = source.choice(GROUPS + LOOKS + ["(?<"])
        if opener == "(?<":
            names.append(f"name{len(names)}")
            opener = f"(?<{names[-1]}>"
        captured += opener == "(" or opener.endswith(">")
        text = opener + pattern(source, source.randint(0, 3)) + text + pattern(source, source.randint(0, 3))
        if names and source.random() < 0.3:
            text += rf"\k<{source.choice(names)}>"
        text += ")"
        if opener not in LOOKS and source.random() < 0.3:
            text += source.choice(QUANTIFIERS)
    return text + "".join(rf"\{number}" for number in range(1, captured + 1))


def many_names(count):
    """So many groups with names of their own, and a reference to each."""
    return "".join(f"(?<name{number}>a)" for number in range(count)) + "".join(rf"\k<name{number}>" for number in range(count))


def one_name(count):
    """So many alternatives, each with a group of the same name."""
    return "|".join(["(?<name>a)"] * count)


def line(text):
    return f"L\tu\t{text}\n".encode()


def main():
    program = sys.argv[1] if len(sys.argv) > 1 else os.path.join(HERE, "..", "crates", "rx_cli", "out", "rx_cli")
    source = random.Random(2026)
    for depth in (1, 3, 10, 30):
        lines = b"".join(line(nested(source, depth)) for _ in range(COUNT))
        took, status = seconds(program, lines)
        print(f"{depth} deep: {COUNT} patterns, {len(lines) / COUNT:.1f} bytes a line, status {status}: {took / COUNT * 1e9:.0f} ns a pattern, {len(lines) / took / 1e6:.1f} MB/s")
    for name, made in (("groups with names of their own, each referred to", many_names), ("alternatives with one name", one_name)):
        for count in (500, 1000, 2000, 4000):
            many = 160_000 // count
            took, status = seconds(program, line(made(count)) * many)
            size = len(line(made(count))) - 5
            print(f"{count} {name}: {size} bytes, status {status}: {took / many * 1e6:.0f} us, {took / many / size * 1e9:.0f} ns a byte")


if __name__ == "__main__":
    main()
