#!/usr/bin/env python3
"""Refuses the program memory: with each row below each call of malloc and realloc is refused in turn, first it alone, then it and all later ones.

    bench/memory.py [--brief] [PROGRAM]

PROGRAM is the program to run in place of the proved one. With --brief only the last line is written, and what went wrong. Each run must end with status 5, and a front of the right replies; or as with all memory, where the
program gets over what was refused. A row of the output has the words and the line, the number of calls, and how many refusals of each kind ended the program
with status 5 and how many it got over. The status is 0 where all went as it must, else 1.

The calls are refused by bench/refuse.c, of which `cc` makes a library in a temporary folder. It is loaded before the program (LD_PRELOAD), which has to be
linked dynamically. Where there is no `cc` nothing is refused; this is said, and the status is 0.
"""
import collections
import os
import subprocess
import sys

import refusing

PROVED = f"{refusing.TOP}/crates/rx_cli/out/rx_cli"
OUT_OF_MEMORY = 5
LAST = 10 ** 9

# Words, pieces of input that are read one by one, and how the program ends with all memory: its status and what it writes.
Row = collections.namedtuple("Row", "words name pieces status replies")

# How a run ended: its status, what it wrote, and a letter for each call for memory.
Run = collections.namedtuple("Run", "status replies calls")

# How many refusals ended the program, and how many it got over.
Tally = collections.namedtuple("Tally", "ended survived")

# Lines and their replies, worked out by hand from docs/GRAMMAR.md and docs/REFUSALS.md, with `→` for TAB.
LINES = [
    (r"L→→(?=a)*\477[\c_]]", r"ok→legacy→(?=a)*'7[\x1F]\]"),
    (r"L→→(?<\u{61}>x)\k<a>\u{61}", r"ok→legacy→(?<a>x)\k<a>u{61}"),
    (r"L→u→\x41B", r"ok→unicode→AB"),
    (r"L→u→a|.", r"ok→unicode→a|."),
    (r"L→u→", r"ok→unicode→(?:)"),
    (r"L→u→(?<a>x)|(?<a>y)", r"ok→unicode→(?<a>x)|(?<a>y)"),
    (r"L→giu→(?i-m:(?<a>x)|b{1,}?)\k<a>\1\x32", r"ok→unicode→(?i-m:(?<a>x)|b+?)\k<a>\1\x32"),
    (r"L→u→[^a-z\d\p{gc=Lu}]\P{Script=Greek}", r"ok→unicode→[^a-z\d\p{gc=Lu}]\P{Script=Greek}"),
    (r"L→v→[a--[bc]][\q{a|bc}][[a-z]&&\p{L}]\p{RGI_Emoji}", r"ok→sets→[a--[bc]][\q{a|bc}][[a-z]&&\p{L}]\p{RGI_Emoji}"),
    (r"L→u→((((((((((((a))))))))))))", r"ok→unicode→((((((((((((a))))))))))))"),
    (r"L→v→[[[[[[[[[[[[a]]]]]]]]]]]]", r"ok→sets→[[[[[[[[[[[[a]]]]]]]]]]]]"),
    (r'C→"u"→"\\d+\x28a\x29"', r"ok→unicode→\d+(a)"),
    (r"C→'v'→'[\\q{a|bc}\8]'", r"ok→sets→[\q{a|bc}8]"),
    (r'C→→"\n"', r"ok→legacy→\n"),
    (r'C→→"\012"', r"ok→legacy→\n"),
    (r'C→→"\01"', r"ok→legacy→\x01"),
    (r'C→→"\8"', r"ok→legacy→8"),
    (r'C→→""', r"ok→legacy→(?:)"),
    (r'C→"gi"→"\\d+"', r"ok→legacy→\d+"),
    (r'C→"u"→"\uD83D\uDE00"', r"ok→unicode→\u{D83D}\u{DE00}"),
    (r"C→→`\01`", r"ok→legacy→1"),
    (r"C→`gi`→`\u{61}$`", r"ok→legacy→a$"),
    (r"L→u→(?<a>x)(?<a>y)", r"err→duplicated_capturing_group_names→3..4,10..11"),
    (r"L→u→(?<a>x)(?<\u0061>y)", r"err→duplicated_capturing_group_names→3..4,10..16"),
    (r"L→u→(?:(?<a>x)|b)(?:c|(?<a>y))", r"err→duplicated_capturing_group_names→6..7,21..22"),
    (r"L→u→(?<a>x|(?<a>y))", r"err→duplicated_capturing_group_names→3..4,10..11"),
    (r"L→u→\k<a>(?<b>)", r"err→invalid_named_reference→0..5"),
    (r"L→v→\P{RGI_Emoji}", r"err→invalid_unicode_property_name_negative_strings→0..13"),
    (r"L→→(a|[b", r"err→unterminated_pattern→3..5"),
    (r"L→gg→a", r"err→duplicated_flags→1..2"),
    (r'C→→"a', r"err→invalid_input→0..2"),
    (r"C→→'a", r"err→invalid_input→0..2"),
    (r'C→→"\u{100000000}"', r"err→invalid_input→0..15"),
    (r"C→→`\x4`", r"err→invalid_input→0..5"),
    (r"C→→`\u12`", r"err→invalid_input→0..6"),
    (r"C→→`${a}`", r"err→invalid_input→0..6"),
    (r"X", r"bad"),
]

# Words with a line and its reply.
COMMANDS = [
    ("strict", r"L→v→(?<a>\A)|\B", r"err→unterminated_pattern→0..6"),
    ("standard", r'C→"u"→"\uD83D\uDE00"', "ok→unicode→\U0001f600"),
    ("display", r"L→→\477", r"ok→legacy→4→\477"),
    ("standard display", r"C→→`\x41`", r"ok→legacy→4→\x41"),
    ("support look_behind_assertions,sticky", r"L→y→(?<=a)b", r"ok→1→1"),
    ("support duplicate_named_capture_groups", r"L→u→(?<a>x)|(?<a>y)", r"ok→0→1"),
    ("match 1000 1053", r"L→u→(?<=(\d+)(\d+))$", r"ok→4..4→0..1,1..4"),
    ("match 3 b", r"L→u→(a*)*", r"spent"),
    ("match 9 a", r"L→u→a\p{L}", r"unsupported→1..6"),
    ("match 9 " + "b" * 600, r"L→→^a", r"spent"),
    ("steps aaaaaaaaaa 1000", r"L→→a*b", r"ok→143"),
    ("paint", r"L→u→(?i:[a-z])", "ok→0..2=group 2..3=modifier 3..4=group 4..5=class 5..6=char 6..7=class 7..8=char 8..9=class 9..10=group"),
    ("paint color", r"L→u→a.", "ok→\x1b[39ma\x1b[0m\x1b[38;5;133m.\x1b[0m"),
    ("lint", r"L→u→A|b|\x41", r"ok→repeated_alternative@4..8"),
    ("lint", r"L→u→(?<y>[])a{1}", r"ok→unused_name@0..8 empty_class@5..7 useless_quantifier@8..12"),
    ("rewrite", r"L→su→(?<y>.)\k<y>2", r"ok→u→([^])\1\x32"),
    ("rewrite", r"L→u→(?<a>x)|(?<a>y)", r"err→name_used_twice→0..7,8..15"),
    ("strict rewrite named_capture_groups,dot_all", r"L→gms→(?<a>^.)", r"ok→gm→(^[^])"),
    (
        "json",
        r'{"id":[1.0],"pattern":"(?<a>\\x41)é","flags":"y","want":["spelling","groups","display","sticky","unicode"]}',
        r'{"id":[1.0],"status":"ok","mode":"legacy","spelling":"(?<a>A)é","groups":[{"number":1,"name":"a","start":0,"end":10,"start16":0,"end16":10}],"names":["a"],'
        r'"unsupported":["sticky"],"display":"(?<a>\\x41)é"}',
    ),
    (
        "json",
        r'{"pattern":"^","flags":"u","want":["tree"]}',
        r'{"id":null,"status":"ok","mode":"unicode","tree":{"type":"Pattern","start":0,"end":1,"start16":0,"end16":1,"body":{"type":"Disjunction","start":0,"end":1,"start16":0,"end16":1,'
        r'"body":[{"type":"Alternative","start":0,"end":1,"start16":0,"end16":1,"body":[{"type":"BoundaryAssertion","start":0,"end":1,"start16":0,"end16":1,"kind":"start"}]}]}}}',
    ),
    (
        "json",
        r'{"pattern":"é\\k<b>(?<a>)","flags":"u"}',
        r'{"id":null,"status":"refused","name":"invalid_named_reference","kind":null,"values":{"names":["a"]},"message":"Invalid regular expression: Invalid named reference",'
        r'"field":"pattern","spans":[{"start":2,"end":7,"start16":1,"end16":6}],"help":null}',
    ),
    ("json", r'{"id":"a\n","pattern":1}', r'{"id":"a\n","status":"bad","why":"field `pattern` is not a string"}'),
]

# Words that read nothing, the status, and what is written; None is what the program writes with all memory.
PRINTS = [
    ("gen 1 2", 0, "lines 2 ok 2 bytes 71"),
    ("--help", 0, None),
    ("--version", 0, "regexp 0.2.0 (a port of oxc_regular_expression 0.156.0)"),
    ("support sticky,sticky", 2, ""),
]


def bytes_of(text):
    """A text with its TABs and LF, if there is one."""
    return (text.replace("→", "\t") + "\n").encode() if text else b""


def row_of(words, line, reply):
    is_ok = reply.startswith("ok") or '"status":"ok"' in reply
    return Row(words, line, [bytes_of(line)], 0 if is_ok else 1, bytes_of(reply))


def rows():
    yield Row("", "", [], 0, b"")
    for line, reply in LINES:
        yield row_of("", line, reply)
    together = b"".join(bytes_of(reply) for _, reply in LINES)
    yield Row("", "all these lines, each in a read of its own", [bytes_of(line) for line, _ in LINES], 1, together)
    for words, line, reply in COMMANDS:
        yield row_of(words, line, reply)
    for words, status, text in PRINTS:
        yield Row(words, "", [], status, None if text is None else bytes_of(text))


def run(program, library, row, first=0, last=0):
    """A run in which the calls from first to last are refused."""
    source = refusing.input_of(row.pieces)
    log, to_log = refusing.wide_pipe()
    told = refusing.refusing(library, to_log, first, last)
    ran = subprocess.run([program, *row.words.split()], stdin=source, stdout=subprocess.PIPE, env=told, pass_fds=[to_log])
    os.close(source)
    os.close(to_log)
    with open(log, "rb") as it:
        return Run(ran.returncode, ran.stdout, it.read().decode())


def fault(found, wanted):
    """What is wrong with a run in which something was refused, or None. With all memory it is the one that is wanted."""
    if found.status == OUT_OF_MEMORY:
        return None if wanted.replies.startswith(found.replies) else f"status 5, but no front of the replies: {found.replies}"
    same = (found.status, found.replies) == (wanted.status, wanted.replies)
    return None if same else f"status {found.status}, {found.replies}"


class Refusals:
    """Runs in which memory is refused, and the faults that were found."""

    def __init__(self, given, library):
        self.program, self.brief, self.library = given.program, given.brief, library
        self.runs = self.faults = 0

    def tell(self, row, what):
        self.faults += 1
        print(f"memory: wrong: {row.words} {row.name}: {what}")

    def tally(self, row, wanted, last_of):
        """How runs end in which the calls from each one on to last_of it are refused, until none is."""
        ended = survived = 0
        first = 1
        while "!" in (found := run(self.program, self.library, row, first, last_of(first))).calls:
            self.runs += 1
            why = fault(found, wanted)
            if why:
                self.tell(row, f"calls {first} to {last_of(first)} refused: {why}")
            ended += found.status == OUT_OF_MEMORY
            survived += found.status != OUT_OF_MEMORY
            first += 1
        return Tally(ended, survived)

    def check(self, row):
        """Refuses each call of a row, and tells what came of it."""
        wanted = run(self.program, self.library, row)
        if (wanted.status, wanted.replies) != (row.status, wanted.replies if row.replies is None else row.replies):
            self.tell(row, f"with all memory: status {wanted.status}, {wanted.replies}")
        if not wanted.calls:
            self.tell(row, "no call for memory was seen: is the program linked dynamically?")
        alone = self.tally(row, wanted, lambda first: first)
        later = self.tally(row, wanted, lambda _: LAST)
        if not self.brief:
            print(f"| {refusing.cell(row.words)} | {refusing.cell(row.name)} | {len(wanted.calls)} | {alone.ended} | {alone.survived} | {later.ended} | {later.survived} |", flush=True)


def main():
    given = refusing.words_of(__doc__, PROVED)
    with refusing.library() as library:
        refusals = Refusals(given, library)
        if not given.brief:
            print("| words | line | calls | one refused: status 5 | got over | all later too: status 5 | got over |\n|---|---|---|---|---|---|---|")
        for row in rows():
            refusals.check(row)
    print(f"memory: {refusals.runs} runs with memory refused, {refusals.faults} wrong")
    return 1 if refusals.faults else 0


if __name__ == "__main__":
    sys.exit(main())
