#!/usr/bin/env python3
"""Measures the program on a mix of 24 patterns such as code has, with neither `u` nor `v`: microseconds a pattern and MB/s, and the cost at 1, 2, 4 and 8 times the length
of all 24 joined by bars, and of braces that begin no quantifier.

    bench/legacy_patterns.py [PROGRAM]

PROGRAM is crates/rx_cli/out/rx_cli where it is not given; `./regexp </dev/null` builds it. `canonical` is measured by the patterns as they are; LiteralParser::parse
by the same patterns with a `)` after them, at which each is refused, so that all is read and nothing is spelled. Nothing here is a test: times depend on the machine.
"""
import os
import random
import sys

sys.dont_write_bytecode = True
from flat_patterns import HERE, seconds

COUNT = 100_000
MIX = [
    r"[\w-.]+@[\w-]+\.[a-z]{2,6}",
    r"\{\{\s*([\w-.]+)\s*}}",
    r"""(["'])(?:(?!\1)[^\\\r\n]|\\.)*\1""",
    r"^\s*\/\/\s?#\s*(\w+)\=(.*)$",
    r"[^a-zA-Z0-9_\-]+",
    r"^([^\:\/]+:\/)?\/",
    r"^[ \n\r\t\v\f\0]+",
    r"\${([^}]+)}",
    r"<(\w+)[^>]*>(?:[\s\S]*?<\/\1>)?",
    r"\b(?:0[xX][\da-fA-F]+|0[oO]?[0-7]+|\d+(?:\.\d*)?)\b",
    r"[\u4e00-\u9fa5\uff00-\uffef]",
    r"[\uD800-\uDBFF][\uDC00-\uDFFF]",
    r"\[[^\]]*](?!\()",
    r"\x1b\[[0-9;]*[mGKH]",
    r"(\d)(?=(?:\d{3})+(?!\d))",
    r"[-!#$%&'*+/=?^_{|}~]",
    r'"(?:[^"\\]|\\[\s\S])*"',
    r"(?<year>\d{4})-(?<month>\d\d)-(?<day>\d\d)",
    r'[\0-\x1f"\\]',
    r'd{1,4}|M{1,4}|YY(?:YY)?|([HhMs])\1?|"[^"]*"',
    r"""url\(\s*(['"]?)([^'")]+)\1\s*\)""",
    r"^v\-(?:on|bind):|^@|^\:|\.(?:prevent|stop)$",
    r"[^#]+#{[^}]*}|\{[^{}]*\}",
    r"^[\s\uFEFF\xA0]+|[\s\uFEFF\xA0]+$",
]


def line(text):
    return f"L\t\t{text}\n".encode()


def growth(program, name, one, joint):
    """The cost of a text of one part, and of 2, 4 and 8 of them with the joint between."""
    for times in (1, 2, 4, 8):
        given = line(joint.join([one] * times))
        many = 4000 // times
        took, status = seconds(program, given * many)
        size = len(given) - 4
        print(f"{name}, {size} bytes, status {status}: {took / many * 1e6:.1f} us, {took / many / size * 1e9:.0f} ns a byte")


def main():
    program = sys.argv[1] if len(sys.argv) > 1 else os.path.join(HERE, "..", "crates", "rx_cli", "out", "rx_cli")
    source = random.Random(2026)
    texts = [source.choice(MIX) for _ in range(COUNT)]
    for name, after in (("canonical", ""), ("LiteralParser::parse", ")")):
        lines = b"".join(line(text + after) for text in texts)
        took, status = seconds(program, lines)
        print(f"{name}: {COUNT} patterns, {len(lines) / COUNT:.1f} bytes a line, status {status}: {took / COUNT * 1e6:.2f} us a pattern, {len(lines) / took / 1e6:.1f} MB/s")
    growth(program, "the 24 patterns, joined", "|".join(MIX), "|")
    growth(program, "braces that begin no quantifier", "a{1,23{45" * 100, "")


if __name__ == "__main__":
    main()
