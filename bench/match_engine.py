#!/usr/bin/env python3
"""Compares the program's `match` with node: where a pattern matches first in a text, and what its groups hold.

    bench/match_engine.py [--patterns N] [--texts T] [--seed S] [--budget B] [--program P]

It makes N patterns (3000 where it is not given) and for each T texts (40) from the seed S, and asks the program P, `./regexp` where it is not given, with the budget B
(100000). `match` takes one text and any number of patterns, so SHARE patterns have their texts and their letters in common, and the program is run once for each text
of theirs. Places of node are code units: under `u` and `v` they are turned into characters, as the program counts. Where the budget is spent node is not asked; such are
counted, and no difference. One difference is a line of the output. The status is 0 where there are none, else 1.

What node 20 lacks is asked of it in another way: modifiers by the assertions and classes that they stand for, buffer boundaries by look-arounds, and names by
numbers. So is what it has wrong. Under `u` and `v` it may find a match that begins inside a character (`/(?!.)/u` at place 1 of `😀`): it is asked at each character, by `y`.
Under `v` its negative classes may hold nothing where repeated (`/[^]{2}/v` finds the `a` of `ab`): it gets a negative look-ahead and any character.
"""
import collections
import random
import subprocess
import sys

sys.dont_write_bytecode = True
import engine
from searches import FLAGS, LETTERS, Pattern, SEARCH, Speller, some_text

SHARE = 60

NODE = SEARCH + r"""
const outcome = ([pattern, flags, text]) => {
    const found = first(pattern, flags, text);
    if (found === null) return "ok\tnone";
    const places = characters(text);
    const place = (at) => /[uv]/.test(flags) ? places[at] : at;
    const [whole, ...groups] = found.indices.map((it) => it === undefined ? "-" : `${place(it[0])}..${place(it[1])}`);
    return `ok\t${whole}\t${groups.join()}`;
};
const answer = (item) => {
    try {
        return outcome(item);
    } catch (fault) {
        return fault.message;
    }
};
console.log(JSON.stringify(JSON.parse(require("fs").readFileSync(0, "utf8")).map(answer)));
"""


class Share:
    """Patterns that have their letters and texts in common."""

    def __init__(self, source, count, texts):
        letters = source.choice(LETTERS)
        self.texts = [some_text(source, letters) for _ in range(texts)]
        patterns = [Pattern(source, letters, source.choice(FLAGS)) for _ in range(count)]
        self.flags = [pattern.flags for pattern in patterns]
        spellers = [Speller(pattern) for pattern in patterns]
        self.spellings = [speller.text for speller in spellers]
        self.nodes_flags = [speller.nodes_flags for speller in spellers]

    def lines(self):
        return "".join(f"L\t{flags}\t{spelling.ours or '(?:)'}\n" for flags, spelling in zip(self.flags, self.spellings))


def ask_program(program, budget, text, lines):
    """The replies to lines, for one text."""
    ran = subprocess.run([program, "match", str(budget), text], input=lines.encode(), stdout=subprocess.PIPE)
    replies = ran.stdout.decode().split("\n")[:-1]
    if ran.returncode not in (0, 1) or len(replies) != lines.count("\n"):
        sys.exit(f"{program} match {budget} {text!r}: status {ran.returncode}, {len(replies)} replies to {lines.count(chr(10))} lines")
    return replies


class Comparison:
    def __init__(self, program, budget):
        self.program, self.budget = program, budget
        self.counts, self.differences = collections.Counter(), []

    def take(self, share):
        """Compares what both say of each pattern and text of a share."""
        lines = share.lines()
        replies = [(at, text, reply) for text in share.texts for at, reply in enumerate(ask_program(self.program, self.budget, text, lines))]
        left = [row for row in replies if row[2] != "spent"]
        self.counts["spent"] += len(replies) - len(left)
        answers = engine.ask_node(NODE, [(share.spellings[at].nodes, share.nodes_flags[at], text) for at, text, _ in left])
        for (at, text, reply), answer in zip(left, answers):
            self.compare(share, at, text, reply, answer)

    def compare(self, share, at, text, reply, answer):
        if reply == answer:
            self.counts["none" if reply == "ok\tnone" else "found"] += 1
            return
        ours, nodes = share.spellings[at]
        self.differences.append(f"{ours!r} flags {share.flags[at]!r} text {text!r}: reply {reply!r}, node {answer!r} of {nodes!r} flags {share.nodes_flags[at]!r}")

    def report(self, patterns):
        counts = self.counts
        print(f"{patterns} patterns, {sum(counts.values()) + len(self.differences)} matches: {counts['found']} found, {counts['none']} none, {counts['spent']} spent")
        return engine.tell(self.differences)


def main():
    words = engine.words_of(__doc__)
    words.add_argument("--patterns", type=int, default=3000)
    words.add_argument("--texts", type=int, default=40)
    words.add_argument("--budget", type=int, default=100_000)
    given = words.parse_args()
    source = random.Random(given.seed)
    comparison = Comparison(given.program, given.budget)
    for begin in range(0, given.patterns, SHARE):
        comparison.take(Share(source, min(SHARE, given.patterns - begin), given.texts))
    sys.exit(comparison.report(given.patterns))


main()
