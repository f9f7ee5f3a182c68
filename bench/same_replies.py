#!/usr/bin/env python3
"""Compares the replies of two builds of the program, byte for byte.

    bench/same_replies.py BEFORE AFTER [LINES] [SEED]

The lines are those of bench/soak_lines.py: of both forms and all modes, plain, broken, huge and binary. A seed makes them, 1 where it is not given, and at least LINES are asked,
2,000,000 where it is not given. They are asked in blocks, each with a command of COMMANDS in turn; one command is `json`, to which the patterns of a block are given as requests.
The status is 0 where both programs gave the same replies and the same status to each block, else 1, and the first block that differs is named by its seed.
"""
import json
import os
import random
import subprocess
import sys
from concurrent.futures import ProcessPoolExecutor

sys.dont_write_bytecode = True
from soak_lines import some_lines

BLOCK = 20_000
BLOCK_BYTES = 8 << 20
COMMANDS = [[], ["standard"], [], ["strict"], ["display"], ["json"], ["paint"], ["rewrite"], [], ["lint"], ["support", "named_capture_groups,unicode_sets,pattern_modifiers"],
            ["steps", "abcab1 x", "100000"], ["standard", "display"]]
WANTED = [[], ["tree"], ["spelling", "groups"], ["tree", "spelling", "groups"]]


def block_of(seed):
    """The lines of a block."""
    source = random.Random(seed)
    lines, size = [], 0
    while len(lines) < BLOCK and size < BLOCK_BYTES:
        more = some_lines(source)
        lines += more
        size += sum(len(line) + 1 for line in more)
    return lines


def json_requests(lines):
    """The lines as requests in JSON, of those that are text in three fields."""
    for number, line in enumerate(lines):
        fields = line.decode("utf-8", "replace").split("\t", 2)
        if len(fields) == 3:
            form, flags, pattern = fields
            text = {"pattern": pattern, "flags": flags} if form == "L" else {"pattern": pattern, "flags": flags, "form": "constructor"}
            yield json.dumps({**text, "want": WANTED[number % len(WANTED)]}, ensure_ascii=number % 3 == 0).encode()


def answers(program, words, given):
    """What a program writes, and its status."""
    ran = subprocess.run([program, *words], input=given, stdout=subprocess.PIPE, stderr=subprocess.STDOUT, check=False)
    return ran.stdout, ran.returncode


def compare(before, after, seed):
    """How many lines of a block there are, and whether both programs give the same replies; with the seed and the command."""
    words = COMMANDS[seed % len(COMMANDS)]
    lines = block_of(seed)
    if words == ["json"]:
        lines = list(json_requests(lines))
    given = b"".join(line + b"\n" for line in lines)
    return len(lines), answers(before, words, given) == answers(after, words, given), seed, words


def main():
    if len(sys.argv) not in (3, 4, 5):
        sys.exit(__doc__)
    before, after = (os.path.abspath(path) for path in sys.argv[1:3])
    most = int(sys.argv[3]) if len(sys.argv) > 3 else 2_000_000
    seed = int(sys.argv[4]) if len(sys.argv) > 4 else 1
    jobs = os.cpu_count() or 1
    asked = blocks = 0
    with ProcessPoolExecutor(jobs) as pool:
        while asked < most:
            some = range(seed, seed + jobs)
            for count, is_same, which, words in pool.map(compare, [before] * jobs, [after] * jobs, some):
                asked, blocks = asked + count, blocks + 1
                if not is_same:
                    sys.exit(f"block of the seed {which}, {' '.join(words) or 'no command'}: the replies are not the same")
            seed += jobs
    print(f"{asked} lines in {blocks} blocks: the same replies")


if __name__ == "__main__":
    main()
