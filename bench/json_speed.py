#!/usr/bin/env python3
"""Measures the command `json`: literals of a file beside the default command, hostile lines of up to a MiB, and 200 MiB of requests through one process.

    bench/json_speed.py [--literals FILE] [--count] [PROGRAM]

FILE has lines as the default command reads them, of form L; where it is not given, patterns are made by a fixed seed. With --count instructions are counted, by callgrind, in
place of processor time. PROGRAM is crates/rx_cli/out/rx_cli where it is not given. Nothing here is a test: times depend on the machine, and the fastest of several runs counts.
"""
import argparse
import json
import os
import random
import re
import resource
import subprocess
import sys
import tempfile

TOP = os.path.dirname(os.path.dirname(os.path.abspath(__file__)))
RUNS = 7
TIMES = 20
STREAM = 200 << 20
PARTS = ["a", "foo", "\\d+", "[a-z]", "[^\\s\\d]", "(?:b|c)", "(x+)?", "(?<n%d>y)", "\\.", "^", "$", "\\b", ".*?", "{2,3}", "é", "(?=z)", "\\/"]

# Hostile patterns: what stands first, what is repeated, what stands at the end as often, the flags, and what is wanted.
SHAPES = {
    "plain characters": ("", "a", "", "", []),
    "plain characters, with the tree": ("", "a", "", "", ["tree"]),
    "escaped characters": ("", "\t", "", "u", ["spelling"]),
    "emoji, with the groups": ("", "😀", "", "u", ["groups"]),
    "open groups": ("", "(", "", "", []),
    "groups in one another, with the tree": ("", "(", ")", "", ["tree"]),
    "named groups": ("", "(?<n%d>)", "", "", ["groups"]),
    "classes in one another, with the tree": ("", "[", "]", "v", ["tree"]),
    "open classes": ("", "[", "", "v", []),
    "alternatives": ("", "|", "", "u", ["tree"]),
    "quantifiers": ("", "a{1}", "", "u", ["tree"]),
    "a refusal at the end": ("(?:", "a", "", "u", []),
}


def made_literals():
    """Literals that a fixed seed makes, as lines."""
    source = random.Random(2026)
    for number in range(1500):
        parts = [source.choice(PARTS) for _ in range(source.randint(3, 30))]
        yield "L\t\t" + "".join(part % (100 * number + at) if "%d" in part else part for at, part in enumerate(parts))


def literals(path):
    """The flags and the patterns of the lines that are literals."""
    if path is None:
        lines = made_literals()
    else:
        with open(path, encoding="utf-8", newline="\n") as file:
            lines = file.read().split("\n")
    return [line.split("\t", 2)[1:] for line in lines if line.startswith("L\t")]


def request(pattern, flags, want):
    return (json.dumps({"pattern": pattern, "flags": flags, "want": want}, ensure_ascii=False) + "\n").encode()


def seconds(program, words, path):
    """The least processor time of several runs over a file."""
    best = None
    for _ in range(RUNS):
        before = resource.getrusage(resource.RUSAGE_CHILDREN)
        with open(path, "rb") as given:
            subprocess.run([program, *words], stdin=given, stdout=subprocess.DEVNULL, check=False)
        after = resource.getrusage(resource.RUSAGE_CHILDREN)
        took = after.ru_utime - before.ru_utime
        best = min(best or took, took)
    return best


def instructions(program, words, path):
    """How many instructions a run over a file takes."""
    with open(path, "rb") as given, tempfile.TemporaryDirectory() as room:
        counted = ["valgrind", "--tool=callgrind", f"--callgrind-out-file={room}/out", program, *words]
        ran = subprocess.run(counted, stdin=given, stdout=subprocess.DEVNULL, stderr=subprocess.PIPE, check=False)
    return int(re.search(rb"Collected : (\d+)", ran.stderr)[1])


def compare(program, given, count):
    """The default command and `json` with ever more in the reply, over the same literals."""
    times = 1 if count else TIMES
    asked = literals(given)
    usual = [f"L\t{flags}\t{pattern}\n".encode() for flags, pattern in asked]
    kinds = [("the default command", [], usual)]
    for want in ([], ["spelling"], ["spelling", "groups"], ["tree"]):
        kinds.append((f"json, want {json.dumps(want)}", ["json"], [request(pattern, flags, want) for flags, pattern in asked]))
    first = None
    with tempfile.NamedTemporaryFile() as file:
        for name, words, lines in kinds:
            file.seek(0)
            file.truncate()
            file.write(b"".join(lines) * times)
            file.flush()
            took = instructions(program, words, file.name) / 1e6 if count else seconds(program, words, file.name) / times / len(lines) * 1e6
            first = first or took
            print(f"{name}: {took:.2f} {'million instructions' if count else 'microseconds a pattern'}, {took / first:.2f} of the default command")


def peak_of(pid):
    """The most memory that a process has had so far, in MiB."""
    with open(f"/proc/{pid}/status", encoding="ascii") as status:
        return next(int(row.split()[1]) for row in status if row.startswith("VmHWM")) / 1024


def ticks_of(pid):
    """The processor time that a process has taken in user mode, in seconds."""
    with open(f"/proc/{pid}/stat", encoding="ascii") as stat:
        return int(stat.read().rsplit(") ", 1)[1].split()[11]) / os.sysconf("SC_CLK_TCK")


def one_line(program, line):
    """What one line takes: user time, peak of memory, and the length of its reply."""
    with subprocess.Popen([program, "json"], stdin=subprocess.PIPE, stdout=subprocess.PIPE) as running:
        running.stdin.write(line)
        running.stdin.flush()
        length, last = 0, b""
        while not last.endswith(b"\n"):
            last = running.stdout.read1(1 << 20)
            length += len(last)
        found = ticks_of(running.pid), peak_of(running.pid), length
        running.stdin.close()
    return found


def repeated(shape, size):
    """A pattern of about so many bytes."""
    front, part, back, flags, want = shape
    count = size // len((part % 100000 if "%d" in part else part).encode() + back.encode())
    middle = "".join(part % at for at in range(count)) if "%d" in part else part * count
    return request(front + middle + back * count, flags, want)


def hostile(program):
    """Hostile lines at a quarter, a half and nearly the whole of a MiB."""
    for name, shape in SHAPES.items():
        unit = 500000 if shape[1] == "\t" else 1040000
        found = [one_line(program, repeated(shape, unit // part)) for part in (4, 2, 1)]
        print(f"{name}: " + "; ".join(f"{took:.2f} s, {peak:.0f} MiB, a reply of {length / (1 << 20):.1f} MiB" for took, peak, length in found))


def stream(program, given):
    """Requests through one process: its memory after a tenth of them, after half and after all."""
    lines = b"".join(request(pattern, flags, ["spelling", "groups", "tree"]) for flags, pattern in literals(given))
    rounds = STREAM // len(lines) + 1
    with open(os.devnull, "wb") as sink, subprocess.Popen([program, "json"], stdin=subprocess.PIPE, stdout=sink) as running:
        peaks = []
        for at in range(1, rounds + 1):
            running.stdin.write(lines)
            if at in (rounds // 10, rounds // 2, rounds):
                running.stdin.flush()
                peaks.append(peak_of(running.pid))
        running.stdin.close()
    print(f"{rounds * len(lines) / (1 << 20):.0f} MiB of requests with the tree: " + ", ".join(f"{peak:.2f} MiB" for peak in peaks))


def main():
    words = argparse.ArgumentParser(description=__doc__, formatter_class=argparse.RawDescriptionHelpFormatter)
    words.add_argument("--literals")
    words.add_argument("--count", action="store_true")
    words.add_argument("program", nargs="?", default=f"{TOP}/crates/rx_cli/out/rx_cli", type=os.path.abspath)
    given = words.parse_args()
    compare(given.program, given.literals, given.count)
    if not given.count:
        hostile(given.program)
        stream(given.program, given.literals)


if __name__ == "__main__":
    sys.exit(main())
