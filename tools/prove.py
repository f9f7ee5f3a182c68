#!/usr/bin/env python3
"""Proves and builds the program, and shows how far that is.

    tools/prove.py

It has `rt ci` do so in a copy of the crates that the program needs, without the bodies that must be refused: crates are proved side by side, each over the statements of those
below it, and what is proved is kept beside the toolchain. So a run that was interrupted goes on with the crates that were not proved yet. Where nothing can be kept there,
`rt lib` proves one crate after another, and keeps each in its `out/`. How long the rest takes is told by how long this run took for the crates that it proved, and by the
processor time of each crate's proof, in the table `tools/proof_seconds.txt`.
"""
import contextlib
import os
import re
import shutil
import sys
import tempfile
import time

import progress

TOP = os.path.dirname(os.path.dirname(os.path.abspath(__file__)))
PROGRAM = "rx_cli"
BUILT = f"crates/{PROGRAM}/out/{PROGRAM}"
TABLE = f"{TOP}/tools/proof_seconds.txt"
# What no copy of a crate has: what was built there, and the bodies that must be refused.
LEFT_OUT = ("out", "must-fail")
# What `rt ci` says where the proof of a crate ends, and how that is told.
ENDED = re.compile(r"^rt: (\w+) (proved|is kept|NOT PROVED)", re.MULTILINE)
TOLD = {"proved": "is proved", "is kept": "was proved before", "NOT PROVED": "is not proved"}
# What it says of a crate that was proved in this run, or in an earlier one.
PROVED = re.compile(r"^== (\w+)\n.*?^rt: \1 proved\n|^rt: \w+ is kept: [^\n]*\n|^[^\n]*: proved\n", re.DOTALL | re.MULTILINE)
# The processor time of a line's proof where the table has no crate, in seconds.
SECONDS_A_LINE = 0.05
# No crate is taken to need less than this.
LEAST = 5
# What a check takes of memory, at most. `rt` counts some four times as much for the largest crates, and would prove next to nothing beside them.
BYTES_A_CHECK = 4 << 30
# How many times faster n checks side by side are than one: n to this power, for eight at most, since crates wait for those below them.
POWER = 0.8
MOST_CHECKS = 8
# For how many seconds of the table that figure counts beside what this run took.
TRUSTED = 600
# For how many seconds after a crate that was proved before nothing is told of the rest: more may have been.
QUIET = 15
# How often it is tried to remove a folder in which what is ending may still write.
TRIES = 20


def listed():
    """The crates of crates.txt, each with its line."""
    with open(f"{TOP}/crates.txt", encoding="utf-8") as file:
        return {line.partition(":")[0].split()[0]: line.rstrip("\n") for line in file if ":" in line.partition("#")[0]}


def below(lines, name):
    """The crates below a crate, each after those that it stands on."""
    found = []
    for library in lines[name].partition("#")[0].partition(":")[2].split():
        if library in lines:
            found += [it for it in [*below(lines, library), library] if it not in found]
    return found


def lines_of(name):
    count = 0
    for folder, folders, names in os.walk(f"{TOP}/crates/{name}"):
        folders[:] = [it for it in folders if it not in LEFT_OUT]
        for it in names:
            with open(f"{folder}/{it}", "rb") as file:
                count += file.read().count(b"\n")
    return count


def table():
    """The seconds of processor time that the proof of each crate took, as far as they are listed."""
    try:
        with open(TABLE, encoding="utf-8") as file:
            rows = [line.partition("#")[0].split() for line in file]
    except OSError:
        return {}
    return {row[0]: float(row[1]) for row in rows if len(row) == 2}


def seconds_of(names):
    """The same of these crates; one that is not listed is taken to need as much a line as the others."""
    known, lines = table(), {name: lines_of(name) for name in names}
    both = [name for name in names if name in known]
    counted = sum(lines[name] for name in both)
    each = sum(known[name] for name in both) / counted if counted else SECONDS_A_LINE
    return {name: max(LEAST, known.get(name, lines[name] * each)) for name in names}


def checks():
    """How many crates are proved side by side: as many as there are processors and memory for, or as the environment says."""
    memory = os.sysconf("SC_PHYS_PAGES") * os.sysconf("SC_PAGE_SIZE")
    said = os.environ.get("RT_JOBS", "")
    return int(said) if said.isdigit() and int(said) else max(1, min(len(os.sched_getaffinity(0)), memory // BYTES_A_CHECK))


class Estimate:
    """What is left to prove by the seconds of the table, and how long that takes."""

    def __init__(self, seconds):
        self.left, self.done = dict(seconds), 0
        self.before = min(checks(), MOST_CHECKS) ** -POWER
        self.until, self.quiet = self.rest(0), QUIET

    def rest(self, elapsed):
        """The seconds by the clock that are left: a second of the table takes as long as in this run so far, and at first what it takes for so many checks."""
        return sum(self.left.values()) * (elapsed + TRUSTED * self.before) / (self.done + TRUSTED)

    def end(self, name, was_proved_before, elapsed):
        seconds = self.left.pop(name)
        if not was_proved_before:
            self.done += seconds
        self.until, self.quiet = elapsed + self.rest(elapsed), elapsed + QUIET if was_proved_before else 0

    def told(self, elapsed):
        return "" if elapsed < self.quiet else f", {minutes(self.until - elapsed)} left"


def minutes(seconds):
    return f"about {max(1, round(seconds / 60))} min"


class Work:
    """The crates that the program needs, and how far their proofs are."""

    def __init__(self, line):
        lines = listed()
        self.needed = [*below(lines, PROGRAM), PROGRAM]
        self.lines = [lines[name] for name in self.needed]
        self.estimate = Estimate(seconds_of(self.needed))
        self.line, self.since, self.began, self.read, self.last = line, time.time(), time.monotonic(), 0, ""

    def begin(self):
        first = minutes(self.estimate.until)
        self.line.say(f"proving and building the program: {len(self.needed)} crates, {first} where none of them was proved before")
        self.line.say("you may interrupt it: what is proved by then is kept; ./regexp quick .. needs no proofs, and answers after a minute or two")

    def date(self, program):
        """Whatever changed since the work began is newer than the program."""
        os.utime(program, (self.since, self.since))

    def elapsed(self):
        return time.monotonic() - self.began

    def state(self):
        elapsed, proved = self.elapsed(), len(self.needed) - len(self.estimate.left)
        return f"{proved} of {len(self.needed)} crates proved, {progress.gone(elapsed)}{self.estimate.told(elapsed)}{self.last}"

    def end(self, name, how):
        """Tells how the proof of a crate ended; on a terminal the line that moves shows it."""
        if how != "NOT PROVED":
            self.estimate.end(name, how == "is kept", self.elapsed())
        self.last = f": {name} {TOLD[how]}"
        if not self.line.is_terminal:
            self.line.say(self.state())

    def news(self, log):
        """The whole lines of the log that were not read before."""
        with open(log.name, "rb") as file:
            file.seek(self.read)
            text = file.read()
        text = text[: text.rfind(b"\n") + 1]
        self.read += len(text)
        return text.decode(errors="replace")

    def follow(self, log):
        """Tells which proofs ended since this was called last, and shows how far the work is."""
        news = self.news(log)
        for name, how in ENDED.findall(news):
            self.end(name, how)
        if "waiting for" in news.rstrip("\n").rpartition("\n")[2]:
            self.last = ": waiting for another rt"
        self.line.move(self.state())

    def run(self, words, folder, named, **others):
        """Runs a command that proves crates, and returns what it said. Where it fails, that is shown, with the folder under the name of another."""
        with tempfile.NamedTemporaryFile(prefix="regexp-") as log:
            self.read = 0
            status = progress.run(words, folder, log, lambda _: self.follow(log), **others)
            self.follow(log)
            said = progress.text_in(log)
        if status:
            self.line.erase()
            self.line.write(PROVED.sub("", said).replace(folder, named))
            raise progress.Failed(f"the program was not proved and built; what {' '.join(words)} said of it stands above")
        return said


@contextlib.contextmanager
def room():
    """A folder that is removed in the end. All may pass through it, since where `rt` runs as root, it runs the program as nobody."""
    folder = tempfile.mkdtemp(prefix="regexp-")
    try:
        os.chmod(folder, 0o711)
        yield folder
    finally:
        for _ in range(TRIES):
            shutil.rmtree(folder, ignore_errors=True)
            if not os.path.exists(folder):
                break
            time.sleep(progress.TICK)


def copy(work, folder):
    """Copies the crates that the program needs, as a repository of their own."""
    os.makedirs(f"{folder}/.git")
    with open(f"{folder}/crates.txt", "w", encoding="utf-8") as file:
        file.writelines(f"{line}\n" for line in work.lines)
    shutil.copy2(f"{TOP}/HANDLES", folder)
    for name in work.needed:
        shutil.copytree(f"{TOP}/crates/{name}", f"{folder}/crates/{name}", symlinks=True, ignore=shutil.ignore_patterns(*LEFT_OUT))


def side_by_side(work):
    """Has `rt ci` prove a copy, and takes the program from there. The copy is no part of the checkout, in which `rt` refuses crates that the list at its top does not name."""
    program = f"{TOP}/{BUILT}"
    with room() as folder:
        copy(work, f"{folder}/copy")
        work.run(["rt", "ci"], f"{folder}/copy", TOP, env={**os.environ, "TMPDIR": folder, "RT_JOBS": str(checks())})
        os.makedirs(os.path.dirname(program), exist_ok=True)
        shutil.copy2(f"{folder}/copy/{BUILT}", f"{program}.new")
    work.date(f"{program}.new")
    os.replace(f"{program}.new", program)


def in_turn(work):
    """Has `rt lib` prove one crate after another, and `rt run` the program. Of a crate that was proved before, `rt lib` says nothing."""
    for name in work.needed:
        folder = f"{TOP}/crates/{name}"
        said = work.run(["rt", "run" if name == PROGRAM else "lib"], folder, folder)
        work.end(name, "proved" if said else "is kept")
    work.date(f"{TOP}/{BUILT}")


def can_keep():
    """Whether what `rt ci` proves is kept for later runs: in a folder beside the toolchain, which belongs to the first who ran it."""
    with tempfile.NamedTemporaryFile(prefix="regexp-") as log:
        status = progress.run(["rt", "doc"], TOP, log, lambda _: None)
        beside = os.path.dirname(os.path.dirname(progress.text_in(log).strip()))
    store = f"{beside}/rattle-kept"
    if status or not beside:
        return False
    return os.stat(store).st_uid == os.geteuid() if os.path.exists(store) else os.access(beside, os.W_OK)


def work(line):
    it = Work(line)
    it.begin()
    (side_by_side if can_keep() else in_turn)(it)
    line.say(f"the program is proved and built, {progress.gone(it.elapsed())}")


if __name__ == "__main__":
    sys.exit(progress.make(work, "interrupted; a new run goes on with the crates that were not proved yet"))
