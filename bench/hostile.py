#!/usr/bin/env python3
"""Asks the program for searches that are made to take long or to take much memory. Each gets its reply, and stays within SECONDS of processor time and MEMORY bytes. (It
is cut off where it asks for ROOM bytes.)

    bench/hostile.py [--budget B] [--program P]

The budget B is 1000000000 where it is not given. A search that takes more Ticks is replied `spent`: how many each takes was worked out by hand. P is `./regexp` where it is not
given. One search that goes wrong is a line of the output. The status is 0 where all go as they must, else 1.
"""
import argparse
import collections
import os
import resource
import subprocess
import sys
import tempfile

TOP = os.path.dirname(os.path.dirname(os.path.abspath(__file__)))
SECONDS = 120
MEMORY = 200_000_000
ROOM = 4_000_000_000
MANY = 100_000
FOREVER = 10 ** 20
LETTERS = "a" * MANY

# A search, with the Ticks that it takes (FOREVER: more than any budget), and its reply where the budget has as many.
Search = collections.namedtuple("Search", "name flags pattern text ticks reply")


def nested(opener, depth, inside="", closer=")"):
    return opener * depth + inside + closer * depth


def none(name, pattern, ticks, flags="", text=LETTERS):
    """A search that finds nothing."""
    return Search(name, flags, pattern, text, ticks, "ok\tnone")


def found(name, pattern, ticks, end, groups=(), flags="", text=LETTERS):
    """A search that finds a match from place 0 to this end."""
    return Search(name, flags, pattern, text, ticks, f"ok\t0..{end}\t" + ",".join(groups))


def references(count):
    """Groups of names of their own, and a reference to each."""
    return "".join(f"(?<n{at}>)" for at in range(count)) + "".join(rf"\k<n{at}>" for at in range(count))


def searches():
    turns, deep, some = MANY // 1000, MANY // 2, MANY // 10
    yield none("two equal alternatives", "(?:a|a)*b", FOREVER)
    yield none("turns of turns", "(a*)*b", FOREVER)
    yield none("turns of dots", "(.*)*x", FOREVER)
    yield none("from each place", "a*b", (MANY + 1) * (MANY + 3))
    yield none("back from each place", "(?<=ba*)$", (MANY + 1) * (MANY + 4))
    yield none("a large number, from each place", "a{1000000000}", (MANY + 1) * (MANY + 4) // 2)
    yield none("a large number, a short text", "a{1000000000}", 14, text="aaa")
    yield found("empty turns that are owed", "(?:){999999999}", 1_000_000_000, 0)
    yield found("empty turns that are not owed", "(?:){0,999999999}", 2, 0)
    yield found("a group that is set again and again", "(){999999999}", 1_000_000_000, 0, ["0..0"])
    yield found("the same, after a choice", "(?:|a)(){999999999}", 1_000_000_001, 0, ["0..0"])
    yield found("large numbers in one another", "(?:a{0,1000}){0,1000}", 1 + turns * 1002 + 3, MANY)
    yield none("the same, and what is not there", "(?:a{0,1000}){0,1000}b", FOREVER)
    yield found("nested groups", nested("(?:", MANY), MANY, 0)
    yield found("nested groups that capture", nested("(", MANY), MANY, 0, ["0..0"] * MANY)
    yield found("nested look-arounds", nested("(?=", MANY), MANY, 0)
    yield found("nested look-arounds, back", nested("(?<=", MANY), MANY, 0)
    yield found("nested look-arounds with groups", nested("(?=()", some), 2 * some, 0, ["0..0"] * some)
    yield found("nested quantifiers", nested("(?:", deep, "a", ")*"), deep * deep + 3 * deep + 1, 1, text="a")
    yield found("alternatives", "a|" * MANY + "b", MANY + 1, 1, text="b")
    yield found("a nested class", nested("[", MANY, "a", "]"), 1, 1, flags="v")
    yield none("a nested class that does not hold", nested("[", MANY, "b", "]"), MANY + 1, flags="v")
    yield found("terms", LETTERS, MANY, MANY)
    yield none("groups from each place", "b" + "()" * some, some + 1, text="a" * some)
    yield found("names and references", references(40_000), 80_000, 0, ["0..0"] * 40_000)


def wanted(search, budget):
    return search.reply if search.ticks <= budget else "spent"


def limit():
    resource.setrlimit(resource.RLIMIT_CPU, (SECONDS, SECONDS))
    resource.setrlimit(resource.RLIMIT_AS, (ROOM, ROOM))


def run(program, budget, search):
    """The reply, the processor time, and the most memory that was held at once."""
    with tempfile.TemporaryFile() as given, tempfile.TemporaryFile() as written:
        given.write(f"L\t{search.flags}\t{search.pattern}\n".encode())
        given.seek(0)
        child = subprocess.Popen([program, "match", str(budget), search.text], stdin=given, stdout=written, preexec_fn=limit)
        _, ended, used = os.wait4(child.pid, 0)
        child.returncode = os.waitstatus_to_exitcode(ended)
        written.seek(0)
        return written.read().decode().removesuffix("\n"), child.returncode, used.ru_utime + used.ru_stime, used.ru_maxrss * 1024


def faults(program, budget, search):
    """What goes wrong in a search."""
    reply, status, seconds, memory = run(program, budget, search)
    print(f"hostile: {search.name}: {seconds:.2f} s, {memory / 1e6:.0f} MB, {reply[:40]!r}", flush=True)
    if reply != wanted(search, budget):
        yield f"status {status}, reply {reply[:40]!r}, and not {wanted(search, budget)[:40]!r}"
    if memory > MEMORY:
        yield f"{memory / 1e6:.0f} MB"


def main():
    words = argparse.ArgumentParser(description=__doc__, formatter_class=argparse.RawDescriptionHelpFormatter)
    words.add_argument("--budget", type=int, default=1_000_000_000)
    words.add_argument("--program", default=f"{TOP}/regexp")
    given = words.parse_args()
    wrong = [f"{search.name}: {fault}" for search in searches() for fault in faults(given.program, given.budget, search)]
    for line in wrong:
        print(f"hostile: wrong: {line}")
    print(f"hostile: {len(list(searches()))} searches with a budget of {given.budget}, {len(wrong)} wrong")
    return 1 if wrong else 0


if __name__ == "__main__":
    sys.exit(main())
