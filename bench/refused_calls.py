#!/usr/bin/env python3
"""Refuses calls of the libraries memory: of each row of crates/rx_calls/stdin each allocation of its call is refused in turn, alone.

    bench/refused_calls.py [--brief] [PROGRAM]

PROGRAM is the program to run in place of the proved one of `rx_calls`, which makes the call of each row that it reads. With --brief only the last line is
written, and what went wrong. Each call must answer out of memory, with what it changes as it was before, or what its row says. A line of the output has the
call, what it is given, the number of its allocations, and how many runs ended in which answer. The status is 0 where all went as it must, else 1.

The program writes a parenthesis right before and right after each call. The allocations are refused by bench/refuse.c, as bench/memory.py has it done, which
writes a letter for each, `.` or `!`, into the same output: so the allocations of a call are the letters between its parentheses.
"""
import collections
import os
import re
import subprocess
import sys

import refusing

PROVED = f"{refusing.TOP}/crates/rx_calls/out/rx_calls"
TABLE = f"{refusing.TOP}/crates/rx_calls/stdin"
OUTPUT = re.compile(r"([.!]*)\(([.!]*)\)([.!]*) (.*)\n[.!]*")
OUT_OF_MEMORY = "out of memory"
AS_ITS_ROW_SAYS = "as its row says"

# A line of the table, and the parts of it that are told.
Row = collections.namedtuple("Row", "line call given text")

# How a run ended: how many allocations came before the call, a letter for each of the call, and what came of it.
Run = collections.namedtuple("Run", "before calls outcome")


def rows():
    with open(TABLE, encoding="utf-8") as table:
        lines = [line for line in table if "\t" in line]
    return [Row(line.encode(), *line.split("\t")[:3]) for line in lines]


def run(program, library, row, refused=0):
    """A run in which this allocation is refused, or none at 0."""
    source = refusing.input_of([row.line])
    to_output = 1
    told = refusing.refusing(library, to_output, refused, refused)
    ran = subprocess.run([program], stdin=source, stdout=subprocess.PIPE, stderr=subprocess.STDOUT, env=told)
    os.close(source)
    output = ran.stdout.decode()
    found = OUTPUT.fullmatch(output)
    return Run(len(found[1]), found[2], found[4]) if found else Run(0, "", output)


class Calls:
    """Runs in which an allocation is refused, and the faults that were found."""

    def __init__(self, given, library):
        self.program, self.brief, self.library = given.program, given.brief, library
        self.runs = self.faults = 0

    def tell(self, row, what):
        self.faults += 1
        print(f"refused_calls: wrong: {row.call} {row.given} {row.text}: {what}")

    def check(self, row):
        """Refuses each allocation of the call of a row, and tells what came of it."""
        wanted = run(self.program, self.library, row)
        if wanted.outcome != AS_ITS_ROW_SAYS or not wanted.calls:
            self.tell(row, f"with all memory: {wanted.outcome}, {len(wanted.calls)} allocations")
        outcomes = collections.Counter()
        for number in range(1, len(wanted.calls) + 1):
            found = run(self.program, self.library, row, wanted.before + number)
            self.runs += 1
            outcomes[found.outcome] += 1
            if found.calls[number - 1 : number] != "!" or found.outcome not in (OUT_OF_MEMORY, AS_ITS_ROW_SAYS):
                self.tell(row, f"allocation {number} refused: {found.outcome}")
        if not self.brief:
            cells = [refusing.cell(part) for part in (row.call, row.given, row.text)]
            numbers = [len(wanted.calls), outcomes[OUT_OF_MEMORY], outcomes[AS_ITS_ROW_SAYS]]
            print("|", " | ".join(cells + [str(number) for number in numbers]), "|", flush=True)


def main():
    given = refusing.words_of(__doc__, PROVED)
    with refusing.library() as library:
        calls = Calls(given, library)
        if not given.brief:
            print("| call | given | text | allocations | out of memory | what the row says |\n|---|---|---|---|---|---|")
        for row in rows():
            calls.check(row)
    print(f"refused_calls: {calls.runs} runs with an allocation refused, {calls.faults} wrong")
    return 1 if calls.faults else 0


if __name__ == "__main__":
    sys.exit(main())
