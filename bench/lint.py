#!/usr/bin/env python3
"""Measures `lint` on long patterns: classes of 10,000 and of 100,000 items, disjunctions of as many alternatives, as many groups with names and references to them.

    bench/lint.py [PROGRAM]

PROGRAM is crates/rx_cli/out/rx_cli where it is not given; `./regexp </dev/null` builds it. Printed are the seconds of processor time, those of the program without words on the same line, and
how many times as long a pattern takes that is ten times as long; of five runs the fastest counts. 100,000 are to take at most ten times what 10,000 take, give or take the program's start, and
under a second. Nothing here is a test: times depend on the machine.
"""
import os
import string
import subprocess
import sys
import tempfile

HERE = os.path.dirname(os.path.abspath(__file__))
SIZES = (10_000, 100_000)
RUNS = 5
FIRST = 0x10000


def word(number):
    """Three letters, others for each number below 52 ** 3."""
    letters = ""
    for _ in range(3):
        number, letter = divmod(number, 52)
        letters += string.ascii_letters[letter]
    return letters


def class_of(count, item):
    return "[" + "".join(item(at) for at in range(count)) + "]"


def disjunction_of(count, alternative):
    return "|".join(alternative(at) for at in range(count))


def groups_of(count):
    return "".join(f"(?<{word(at)}>)" for at in range(count))


def references_to(count):
    return "".join(rf"\k<{word(at)}>" for at in range(count))


PATTERNS = {
    "a class of one character again and again": lambda count: class_of(count, lambda at: "a"),
    "a class of different characters": lambda count: class_of(count, lambda at: chr(FIRST + at)),
    "the same, last to first": lambda count: class_of(count, lambda at: chr(FIRST + count - at)),
    "a class of one range again and again": lambda count: class_of(count, lambda at: "a-z"),
    "a class of ranges side by side": lambda count: class_of(count, lambda at: f"{chr(FIRST + 4 * at)}-{chr(FIRST + 4 * at + 2)}"),
    "a class of ranges, each within the next": lambda count: class_of(count, lambda at: f"{chr(0x50000 - at)}-{chr(0x50000 + at)}"),
    "a class of ranges, each within the one before": lambda count: class_of(count, lambda at: f"{chr(FIRST + at)}-{chr(0x80000 - at)}"),
    "a class of class escapes": lambda count: class_of(count, lambda at: r"\d" if at % 2 else r"\W"),
    "equal alternatives": lambda count: disjunction_of(count, lambda at: "a"),
    "empty alternatives": lambda count: disjunction_of(count, lambda at: ""),
    "different alternatives": lambda count: disjunction_of(count, word),
    "different alternatives in groups": lambda count: disjunction_of(count, lambda at: f"(?:b|{word(at)})"),
    "groups with names, half as many, and a reference to each": lambda count: groups_of(count // 2) + references_to(count // 2),
    "groups with names": groups_of,
    "groups without names, in one another": lambda count: "(" * count + ")" * count,
}


def run(program, words, line):
    """The processor time of the fastest run, and the reply."""
    times = []
    with tempfile.TemporaryFile() as given, tempfile.TemporaryFile() as written:
        given.write(line.encode())
        for _ in range(RUNS):
            for file in given, written:
                file.seek(0)
            child = subprocess.Popen([program, *words], stdin=given, stdout=written)
            _, ended, used = os.wait4(child.pid, 0)
            child.returncode = os.waitstatus_to_exitcode(ended)
            times.append(used.ru_utime + used.ru_stime)
        written.seek(0)
        return min(times), written.read().decode()


def findings_of(reply):
    """How many findings a reply lists."""
    if not reply.startswith("ok\t"):
        sys.exit(f"no findings: {reply[:40]!r}")
    return len(reply[3:].split())


def main():
    program = sys.argv[1] if len(sys.argv) > 1 else os.path.join(HERE, "..", "crates", "rx_cli", "out", "rx_cli")
    for name, pattern in PATTERNS.items():
        times = []
        for size in SIZES:
            line = f"L\tu\t{pattern(size)}\n"
            took, reply = run(program, ["lint"], line)
            plain, _ = run(program, [], line)
            times.append(took)
            print(f"{name}, {size}: {took:.3f} s (without words {plain:.3f} s), {findings_of(reply)} findings", flush=True)
        print(f"    {times[1] / times[0]:.1f} times as long", flush=True)


if __name__ == "__main__":
    main()
