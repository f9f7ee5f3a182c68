#!/usr/bin/env python3
"""Compares two builds of the program: the processor time of each on the same small inputs, in turns.

    bench/compare.py BEFORE AFTER [ROUNDS]

The inputs are those of the other scripts, cut so that a run takes a few milliseconds, at most some 50. Each program runs ROUNDS times (25 where it is not given) on each input, BEFORE
also as a third program, so that the noise is seen beside the difference: of each the fastest run counts. Nothing here is a test: times depend on the machine.
"""
import os
import random
import statistics
import sys
import tempfile

sys.dont_write_bytecode = True
import class_patterns
import flat_patterns
import legacy_patterns
import measure
import nested_patterns
import set_patterns

COUNT = 10_000


def many(make, count=COUNT):
    source = random.Random(2026)
    return [make(source) for _ in range(count)]


def flat(source):
    return flat_patterns.pattern(source, source.randint(1, 24))


def inputs():
    """Each input with its name, its flags, its patterns, and how many times they stand."""
    mix = many(lambda source: source.choice(legacy_patterns.MIX))
    joined = "|".join(legacy_patterns.MIX)
    one = flat_patterns.pattern(random.Random(7), 400)
    yield "classes", "u", many(class_patterns.pattern), 1
    for items in (100, 1_000, 10_000, 100_000):
        yield f"one class of {items} items", "u", [class_patterns.some_class(random.Random(7), items)], 100_000 // items
    yield "sets", "v", many(set_patterns.pattern), 1
    for what, text in set_patterns.LONG.items():
        yield f"{what}: 10000", "v", [text(10_000)], 4
    yield "legacy, canonical", "", mix, 1
    yield "legacy, LiteralParser::parse", "", [text + ")" for text in mix], 1
    for times in (1, 8):
        yield f"the 24 patterns {times} times, joined", "", ["|".join([joined] * times)], 800 // times
        yield f"braces {times} times", "", ["a{1,23{45" * 100 * times], 800 // times
    yield "flat, canonical", "u", many(flat), 1
    yield "flat, LiteralParser::parse", "u", [text + ")" for text in many(flat)], 1
    for times in (1, 8):
        yield f"one flat pattern {times} times", "u", [one * times], 400 // times
    for depth in (1, 10):
        yield f"{depth} deep", "u", many(lambda source: nested_patterns.nested(source, depth), 6_000 // depth), 1
    yield "1000 names", "u", [nested_patterns.many_names(1000)], 10
    yield "1000 groups of one name", "u", [nested_patterns.one_name(1000)], 20


def all_inputs():
    for name, flags, texts, times in inputs():
        yield name, "".join(f"L\t{flags}\t{text}\n" for text in texts).encode() * times
    source = random.Random(2026)
    yield "short lines", b"".join(measure.line(source, 8, 40) for _ in range(30_000))
    yield "lines of about 1 KB", b"".join(measure.line(source, 900, 1100) for _ in range(900))


def processor_time(program, given, out):
    given.seek(0)
    actions = [(os.POSIX_SPAWN_DUP2, given.fileno(), 0), (os.POSIX_SPAWN_DUP2, out.fileno(), 1)]
    _, ended, used = os.wait4(os.posix_spawn(program, [program], {}, file_actions=actions), 0)
    status = os.waitstatus_to_exitcode(ended)
    if status not in (0, 1):
        sys.exit(f"{program}: status {status}")
    return used.ru_utime + used.ru_stime


def fastest(programs, lines, rounds):
    """The least time of each program, which run in turns."""
    with tempfile.NamedTemporaryFile() as given, open(os.devnull, "wb") as out:
        given.write(lines)
        given.flush()
        times = [[processor_time(program, given, out) for program in programs] for _ in range(rounds)]
    return [min(of_one) for of_one in zip(*times)]


def main():
    if len(sys.argv) < 3:
        sys.exit(__doc__)
    before, after = (os.path.abspath(path) for path in sys.argv[1:3])
    rounds = int(sys.argv[3]) if len(sys.argv) > 3 else 25
    ratios = []
    for name, lines in all_inputs():
        first, second, third = fastest([before, after, before], lines, rounds)
        ratios.append((second / first, third / first))
        print(f"{name}, {len(lines)} bytes: {first * 1e3:.2f} and {second * 1e3:.2f} ms, {second / first:.3f}; before and before {third / first:.3f}", flush=True)
    print("all: {:.3f}; before and before {:.3f}".format(*(statistics.geometric_mean(column) for column in zip(*ratios))))


if __name__ == "__main__":
    main()
