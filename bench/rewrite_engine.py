#!/usr/bin/env python3
"""Compares patterns with what the program's `rewrite` makes of them, by node: both must match at the same places, and their groups hold the same.

    bench/rewrite_engine.py [LINES] [--patterns N] [--texts T] [--seed S] [--list LIST] [--program P]

It makes N patterns (5200 where it is not given) from the seed S. LINES is a file of lines `L` TAB flags TAB pattern, if there is one; each is taken as it is, and with the flags `m`
and `s`. The program P, `./regexp` where it is not given, is asked to rewrite each pattern, all of it or what LIST names, and what it made once more, which must change nothing. Node
searches each of T texts (30) by the pattern under its flags and by what is made of it under the flags that are left. One difference is a line of the output. The status is 0 where there
are none, else 1.

What node 20 lacks is asked of it in another way, which the program has no part in: modifiers of a pattern that is made here by the assertions and classes that they stand for, groups
of a number in place of names then, and buffer boundaries by look-arounds. Under `v` its negative classes may hold nothing where repeated: it gets a negative look-ahead and any character.
A pattern that node does not read, or not within SECONDS, is counted, and no difference.
"""
import collections
import itertools
import random
import re
import subprocess
import sys

sys.dont_write_bytecode = True
import engine
from searches import BUFFER_BOUNDARIES, FLAGS, LETTERS, LIMIT, Both, Pattern, SEARCH, Speller, some_text

SHARE = 200
SECONDS = 5
FLAG_OF = {"m": "multiline", "s": "dot_all"}
ENDS_OF_LINES = ["\n", "\r\n", "\u2028", "\r"]

NODE = SEARCH + r"""
const vm = require("vm");
const outcome = (pattern, flags, text) => {
    const found = first(pattern, flags, text);
    return found === null ? "none" : found.indices.map((it) => it === undefined ? "-" : it.join("..")).join();
};
// Undefined where node reads the pattern.
const fault = (pattern, flags) => {
    try {
        new RegExp(pattern, flags);
    } catch (fault) {
        return fault.message;
    }
};
const compared = ({ old, oldFlags, made, madeFlags, texts }) => {
    if (fault(old, oldFlags) !== undefined) return { unread: fault(old, oldFlags) };
    if (fault(made, madeFlags) !== undefined) return { wrong: fault(made, madeFlags) };
    return { pairs: texts.map((text) => [outcome(old, oldFlags, text), outcome(made, madeFlags, text)]) };
};
const withinTime = (item, timeout) => {
    globalThis.compare = () => compared(item);
    try {
        return vm.runInThisContext("compare()", { timeout });
    } catch (fault) {
        if (fault.code !== "ERR_SCRIPT_EXECUTION_TIMEOUT") throw fault;
        return { slow: true };
    }
};
const { items, seconds } = JSON.parse(require("fs").readFileSync(0, "utf8"));
console.log(JSON.stringify(items.map((item) => withinTime(item, seconds * 1000))));
"""

# A pattern as the program reads it, and as node does, with the texts that it is searched for in.
Asked = collections.namedtuple("Asked", "pattern nodes flags nodes_flags texts")


class DigitSpeller(Speller):
    """Spells digits after references by name."""

    def reference(self, kind, number):
        spelled = super().reference(kind, number)
        digit = ["", "", "1", "2"][number // 7 % 4] if kind == "named" and isinstance(number, int) else ""
        return Both(spelled.ours + digit, spelled.nodes + digit)


def some_pattern(source, texts):
    letters, flags = source.choice(LETTERS), source.choice(FLAGS)
    speller = DigitSpeller(Pattern(source, letters, flags))
    ours, nodes = speller.text
    made = [some_text(source, letters) for _ in range(texts)]
    if speller.is_plain:
        return Asked(ours or "(?:)", nodes, flags, speller.nodes_flags, made)
    return Asked(ours or "(?:)", ours, flags, flags, made)


def near_text(source, pieces):
    """Pieces of a pattern, mostly in its order, with ends of lines among them."""
    begin = source.randrange(len(pieces))
    taken = pieces[begin:begin + source.randint(0, LIMIT)]
    return "".join(source.choice(ENDS_OF_LINES) if source.random() < 0.15 else source.choice([piece, piece, piece, source.choice(pieces)]) for piece in taken)


def patterns_of(source, lines, texts):
    """The pattern of each line, and the same with the flags `m` and `s`."""
    for line in lines:
        _, flags, pattern = line.split("\t")
        pieces = re.findall(r"\w+|\s+|[^\w\s\\()]", pattern) or [" "]
        for added in dict.fromkeys([flags, flags + "".join(it for it in "ms" if it not in flags)]):
            searched = re.sub("[dgy]", "", added)
            yield Asked(pattern, pattern, added, searched, [near_text(source, pieces) for _ in range(texts)])


def without_negative_classes(spelling):
    """A negative look-ahead and any character in place of each negative class that stands in no other."""
    made, openers = [], []
    for piece in re.findall(r"\\.|\[\^|.", spelling, re.S):
        if piece in ("[", "[^"):
            openers.append(piece)
            made.append("(?:(?![" if openers == ["[^"] else piece)
        elif piece == "]":
            made.append(r"])[\s\S])" if openers == ["[^"] else piece)
            openers.pop()
        else:
            made.append(piece)
    return "".join(made)


def for_node(spelling, flags):
    """A spelling without what node lacks or has wrong."""
    if not re.search("[uv]", flags):
        return spelling
    plain = re.sub(r"\\.", lambda it: BUFFER_BOUNDARIES.get(it[0], it[0]), spelling, flags=re.S)
    return without_negative_classes(plain) if "v" in flags else plain


def has_name_twice(pattern):
    names = re.findall(r"\(\?<([^=!][^>]*)>", pattern)
    return len(set(names)) < len(names)


class Comparison:
    def __init__(self, program, words):
        self.program, self.words = program, words
        self.gone = words[1].split(",") if len(words) > 1 else ["named_capture_groups", "dot_all", "multiline", "pattern_modifiers"]
        self.counts, self.differences = collections.Counter(), []

    def ask_program(self, requests):
        """The replies to patterns with flags."""
        lines = "".join(f"L\t{flags}\t{pattern}\n" for flags, pattern in requests)
        ran = subprocess.run([self.program, *self.words], input=lines.encode(), stdout=subprocess.PIPE)
        replies = [reply.split("\t") for reply in ran.stdout.decode().split("\n")[:-1]]
        if ran.returncode not in (0, 1) or len(replies) != len(requests):
            sys.exit(f"{self.program}: status {ran.returncode}, {len(replies)} replies to {len(requests)} lines")
        return replies

    def tell(self, asked, what):
        self.differences.append(f"{asked.pattern!r} flags {asked.flags!r}: {what}")

    def flags_left(self, flags):
        return "".join(it for it in "dgimsuvy" if it in flags and FLAG_OF.get(it) not in self.gone)

    def take(self, share):
        """Compares some patterns with what is made of them."""
        replies = self.ask_program([(asked.flags, asked.pattern) for asked in share])
        made = [(asked, *reply[1:]) for asked, reply in zip(share, replies) if reply[0] == "ok"]
        for asked, reply in zip(share, replies):
            self.judge_refusal(asked, reply)
        self.compare_again(made)
        self.compare_searches(made)

    def judge_refusal(self, asked, reply):
        cause = "rewritten" if reply[0] == "ok" else reply[1] if reply[1] in ("name_used_twice", "unsupported") else "refused"
        self.counts[cause] += 1
        if cause != "refused" and "named_capture_groups" in self.gone and (cause == "name_used_twice") != has_name_twice(asked.pattern):
            self.tell(asked, f"reply {reply}")

    def compare_again(self, made):
        """What is rewritten stays when it is rewritten once more."""
        for (asked, flags, spelling), reply in zip(made, self.ask_program([it[1:] for it in made])):
            if flags != self.flags_left(asked.flags):
                self.tell(asked, f"flags {flags!r}")
            if reply != ["ok", flags, spelling]:
                self.tell(asked, f"{spelling!r} flags {flags!r}, and once more {reply}")

    def compare_searches(self, made):
        items = [self.item(*it) for it in made]
        for (asked, _, _), item, answer in zip(made, items, engine.ask_node(NODE, {"items": items, "seconds": SECONDS})):
            if "pairs" in answer:
                self.compare_pairs(asked, item, answer["pairs"])
            elif "wrong" in answer and not self.may_keep(asked):
                self.tell(asked, f"node does not read {item['made']!r}: {answer['wrong']}")
            else:
                self.counts["slow" if "slow" in answer else "unread"] += 1

    def may_keep(self, asked):
        """Whether what node lacks may stay: modifiers, or a name of two groups, in a pattern that node was asked in another way."""
        return len(self.words) > 1 and asked.nodes != asked.pattern

    def item(self, asked, flags, spelling):
        """What node is asked of a pattern and of what is made of it."""
        left = re.sub("[dgy]", "", flags)
        return {"old": for_node(asked.nodes, asked.nodes_flags), "oldFlags": asked.nodes_flags, "made": for_node(spelling, left), "madeFlags": left, "texts": asked.texts}

    def compare_pairs(self, asked, item, pairs):
        self.counts["compared"] += 1
        for text, (old, new) in zip(item["texts"], pairs):
            self.counts["none" if old == "none" else "found"] += 1
            if old != new:
                self.tell(asked, f"text {text!r}: {old} by {item['old']!r} flags {item['oldFlags']!r}, {new} by {item['made']!r} flags {item['madeFlags']!r}")

    def report(self):
        counts = self.counts
        print(f"{counts['rewritten']} patterns rewritten, {counts['name_used_twice']} with a name that is used twice, {counts['unsupported']} with modifiers that are left, "
              f"{counts['refused']} refused")
        print(f"{counts['compared']} compared by node, {counts['unread']} that it does not read, {counts['slow']} that took it too long; {counts['found'] + counts['none']} searches: "
              f"{counts['found']} found, {counts['none']} none")
        return engine.tell(self.differences)


def main():
    words = engine.words_of(__doc__)
    words.add_argument("lines", nargs="?")
    words.add_argument("--patterns", type=int, default=5200)
    words.add_argument("--texts", type=int, default=30)
    words.add_argument("--list")
    given = words.parse_args()
    source = random.Random(given.seed)
    lines = open(given.lines, encoding="utf-8").read().split("\n")[:-1] if given.lines else []
    made = (some_pattern(source, given.texts) for _ in range(given.patterns))
    asked = itertools.chain(made, patterns_of(source, lines, given.texts))
    comparison = Comparison(given.program, ["rewrite", given.list] if given.list else ["rewrite"])
    while share := list(itertools.islice(asked, SHARE)):
        comparison.take(share)
    sys.exit(comparison.report())


main()
