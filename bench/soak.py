#!/usr/bin/env python3
"""Asks the program lines of all forms, modes and commands, through pipes in pieces of random sizes, and checks what docs/PROGRAM.md says of every reply.

    bench/soak.py MINUTES SEED [PROGRAM] [--run N]

It makes runs for so many minutes, from the seed; PROGRAM is `./regexp` where it is not given. With `--run` it makes one run, whatever the minutes: what goes wrong names
its run, so that it can be seen again. In a run the lines are asked without a command, and then with one, in another order. Checked are:

- there is one reply to each line, in order, of a form that docs/PROGRAM.md states; it is `bad`, or a refusal of the flags, exactly where it must be; the status is that of the
  replies;
- with a command it is another reply than without one only where the pattern is read;
- a canonical spelling is read, and is its own; of it each command says what it says of the pattern;
- the tokens of `paint` tile the pattern, and `paint color` shows it; `match` and `steps` agree; what `rewrite` writes is read, is rewritten into itself, and matches alike;
- an input that is longer than is read gets status 6 and a front of the replies.

One fault is a line of the output. The program is never killed: one that writes nothing for SILENCE seconds is a fault, after which this ends. The status is 0 where there
was no fault, else 1.
"""
import argparse
import collections
import fcntl
import os
import random
import re
import select
import subprocess
import sys
import threading
import time

sys.dont_write_bytecode = True
from soak_lines import LINE_LIMIT, MODES, some_lines

TOP = os.path.dirname(os.path.dirname(os.path.abspath(__file__)))
INPUT_LIMIT = 67108864
SILENCE = 600
PIECES = [1, 2, 7, 100, 4096, 65536, 1 << 20]
MANY_PIECES = 20000

FLAGS = "dgimsuvy"
FLAG_FEATURES = {"sticky": "y", "unicode": "u", "dot_all": "s", "match_indices": "d", "unicode_sets": "v"}
FEATURES = list(FLAG_FEATURES) + ["named_capture_groups", "duplicate_named_capture_groups", "unicode_property_escapes", "look_behind_assertions", "pattern_modifiers", "buffer_boundaries"]
REWRITES = ["named_capture_groups", "dot_all", "multiline", "pattern_modifiers"]
LETTERS = ["ab", "aab1 ", "abcxyz019_-", "a\nb\r\u2028", "\n\u2029x", "é😀a𐒤", "(a)*|"]

NUMBER = r"(?:0|[1-9][0-9]*)"
SPAN = rf"{NUMBER}\.\.{NUMBER}"
OK = re.compile(r"ok\t(legacy|unicode|sets)\t([^\t\r\n]+)")
SHOWN = re.compile(rf"ok\t(legacy|unicode|sets)\t({NUMBER})\t".encode())
REFUSED = re.compile(rf"err\t(\w+)\t({SPAN})(?:,({SPAN}))?")
FOUND = re.compile(rf"ok\t({SPAN})\t((?:{SPAN}|-)(?:,(?:{SPAN}|-))*)?")
TOKEN = re.compile(rf"({NUMBER})\.\.({NUMBER})=(?:char|escape|dot|set|class|assert|group|modifier|quantifier|reference|bar)")
COLOR = re.compile(r"\x1b\[[0-9;]+m([^\x1b]+)\x1b\[0m")
RULES = "empty_class|repeated_member|empty_alternative|repeated_alternative|unused_name|useless_quantifier"
FINDINGS = re.compile(rf"(?:(?:{RULES})@{SPAN}(?: (?:{RULES})@{SPAN})*)?")
GROUP = re.compile(r"\\.|\((?!\?(?!<[^=!]))|[][]", re.S)

# The modes in which alone a refusal comes.
ALONE = dict.fromkeys(["invalid_extended_atom_escape", "invalid_braced_quantifier", "invalid_surrogate_pair"], "legacy") | dict.fromkeys([
    "invalid_unicode_property_name_negative_strings", "invalid_character_class", "empty_class_set_expression", "class_intersection_unexpected_ampersand",
    "class_set_expression_invalid_character", "character_class_contents_invalid_operands"], "sets")

# A request, as its three fields, and the reply to it without a command.
Asked = collections.namedtuple("Asked", "form flags pattern plain")


def names_of_refusals():
    with open(f"{TOP}/docs/REFUSALS.md", encoding="utf-8") as file:
        return set(re.findall(r"^\| `(\w+)` \|", file.read(), re.M))


NAMES = names_of_refusals()


# Pipes


def give(pipe, given, source, most):
    """Writes an input in pieces, as far as it is read."""
    at = 0
    try:
        with pipe:
            while at < len(given):
                at += pipe.write(given[at : at + source.randint(1, most)])
    except BrokenPipeError:
        pass


def take(pipe, source, most):
    """Reads all that is written, in pieces, with a rest now and then."""
    taken = bytearray()
    while select.select([pipe], [], [], SILENCE)[0]:
        piece = pipe.read(source.randint(1, most))
        if not piece:
            return bytes(taken)
        taken += piece
        if source.random() < 0.001:
            time.sleep(0.01)
    raise TimeoutError


def piped(command, given, source):
    """The status of a program, and what it writes, errors too."""
    most = [it for it in PIECES if it * MANY_PIECES > len(given)]
    ran = subprocess.Popen(command, stdin=subprocess.PIPE, stdout=subprocess.PIPE, stderr=subprocess.STDOUT, bufsize=0)
    for pipe in (ran.stdin, ran.stdout):
        fcntl.fcntl(pipe, fcntl.F_SETPIPE_SZ, 4096 << source.randint(0, 8))
    feeder = threading.Thread(target=give, args=(ran.stdin, memoryview(given), random.Random(source.random()), source.choice(most)), daemon=True)
    feeder.start()
    taken = take(ran.stdout, random.Random(source.random()), source.choice(most))
    feeder.join()
    ran.stdout.close()
    return ran.wait(), taken


def replies_in(written, is_display):
    """The replies in what was written. With `display` a text says how long it is, since it may hold an LF. None where the last one does not end."""
    replies, at = [], 0
    while at < len(written):
        shown = SHOWN.match(written, at) if is_display else None
        end = shown.end() + int(shown[2]) if shown else written.find(b"\n", at)
        if written[end : end + 1] != b"\n":
            return None
        replies.append(written[at:end])
        at = end + 1
    return replies


# What a reply without a command must be


def fields_of(line):
    """The three fields of a line, or None where it is no request."""
    if len(line) > LINE_LIMIT:
        return None
    try:
        fields = line.decode().split("\t", 2)
    except UnicodeDecodeError:
        return None
    return fields if len(fields) == 3 and fields[0] in ("L", "C") else None


def refusal_of_flags(flags):
    """The refusal of a literal's flags, or None where they are right."""
    for at, flag in enumerate(flags):
        before, start = flags[:at], len(flags[:at].encode())
        name = "unknown_flag" if flag not in FLAGS else "duplicated_flags" if flag in before else "invalid_unicode_flags" if flag in "uv" and {"u", "v"} & set(before) else None
        if name:
            return f"err\t{name}\t{start}..{start + len(flag.encode())}"
    return None


def mode_of(flags):
    return "sets" if "v" in flags else "unicode" if "u" in flags else "legacy"


def is_inside(span, text):
    """Whether a span is one of a text of bytes, between characters."""
    start, end = map(int, span.split(".."))
    return start <= end <= len(text) and all(at == len(text) or text[at] & 0xC0 != 0x80 for at in (start, end))


def fault_of_refusal(form, flags, pattern, refused):
    name, first, second = refused.groups()
    if name not in NAMES or (second is not None) != (name == "duplicated_capturing_group_names"):
        return "no refusal"
    if form == "L" and ALONE.get(name, mode_of(flags)) != mode_of(flags):
        return "a refusal of another mode"
    fields = [pattern] if form == "L" else [flags, pattern]
    return None if any(all(is_inside(span, field.encode()) for span in (first, second) if span) for field in fields) else "a span that is none of the text"


def fault_of_plain(line, reply):
    """What is wrong with a reply without a command, or None."""
    fields = fields_of(line)
    if fields is None or reply == "bad":
        return None if fields is None and reply == "bad" else "bad or not"
    form, flags, pattern = fields
    refusal = refusal_of_flags(flags) if form == "L" else None
    if refusal:
        return None if reply == refusal else f"not {refusal!r}"
    read, refused = OK.fullmatch(reply), REFUSED.fullmatch(reply)
    if refused:
        return fault_of_refusal(form, flags, pattern, refused)
    if not read:
        return "no reply"
    return None if form == "C" or read[1] == mode_of(flags) else "another mode"


# What the reply of a command must be to a pattern that is read


def fault_of_display(_, asked, reply):
    shown = SHOWN.match(reply.encode())
    return None if shown and OK.fullmatch(asked.plain)[1] == shown[1].decode() else "another mode, or no text"


def fault_of_support(words, asked, reply):
    needed = any(FLAG_FEATURES.get(name, "none") in asked.flags for name in words[-1].split(","))
    return None if reply in (f"ok\t{int(needed)}\t0", f"ok\t{int(needed)}\t1") else "no reply, or wrong of the flags"


def number_of_groups(spelling):
    """How many capturing groups a canonical spelling has: parentheses that capture and stand in no class."""
    count = depth = 0
    for piece in GROUP.findall(spelling):
        depth += {"[": 1, "]": -1}.get(piece, 0)
        count += piece == "(" and not depth
    return count


def units_in(text, mode):
    return len(text.encode("utf-16-le")) // 2 if mode == "legacy" else len(text)


def fault_of_unsupported(asked, reply):
    """What is wrong with what `match` and `steps` share."""
    what = reply.split("\t")[1:]
    if "i" in asked.flags or what == ["flag"]:
        return None if "i" in asked.flags and reply == "unsupported\tflag" else "the flag i"
    return None if len(what) == 1 and re.fullmatch(SPAN, what[0]) and is_inside(what[0], asked.pattern.encode()) else "no span"


def fault_of_match(words, asked, reply):
    if "i" in asked.flags or reply.startswith("unsupported"):
        return fault_of_unsupported(asked, reply)
    found = FOUND.fullmatch(reply)
    if not found:
        return None if reply in ("ok\tnone", "spent") else "no reply"
    mode, spelling = OK.fullmatch(asked.plain).groups()
    slots = found[2].split(",") if found[2] else []
    spans = [tuple(map(int, slot.split(".."))) for slot in [found[1]] + slots if slot != "-"]
    if any(not start <= end <= units_in(words[-1], mode) for start, end in spans):
        return "places outside of the text"
    return None if len(slots) == number_of_groups(spelling) else "too many or too few slots"


def fault_of_steps(words, asked, reply):
    if "i" in asked.flags or reply.startswith("unsupported"):
        return fault_of_unsupported(asked, reply)
    return None if reply == "more" or re.fullmatch(rf"ok\t{NUMBER}", reply) and int(reply[3:]) <= int(words[-1]) else "no reply, or more than asked"


def fault_of_paint(_, asked, reply):
    text, at = (asked.pattern or "(?:)").encode(), 0
    for word in reply.removeprefix("ok\t").split(" "):
        token = TOKEN.fullmatch(word)
        if not token or int(token[1]) != at or int(token[2]) <= at:
            return f"no token, or no tiles: {word}"
        at = int(token[2])
        if at < len(text) and text[at] & 0xC0 == 0x80:
            return f"between no characters: {word}"
    return None if reply.startswith("ok\t") and at == len(text) else "not to the end"


def fault_of_color(_, asked, reply):
    shown = "".join(f"\\x{ord(it):02x}" if ord(it) < 32 or ord(it) == 127 else it for it in asked.pattern or "(?:)")
    parts = reply.removeprefix("ok\t")
    return None if reply.startswith("ok\t") and COLOR.sub("", parts) == "" and "".join(COLOR.findall(parts)) == shown else "another text in colour"


def fault_of_lint(_, asked, reply):
    findings, text = reply.removeprefix("ok\t"), asked.pattern.encode()
    if not reply.startswith("ok\t") or not FINDINGS.fullmatch(findings):
        return "no findings"
    return None if all(is_inside(it.split("@")[1], text) for it in findings.split(" ") if it) else "a span that is none of the text"


def features_of(words):
    return words[-1].split(",") if words[-1] != "rewrite" else REWRITES


def fault_of_rewrite(words, asked, reply):
    gone = "".join(flag for name, flag in (("dot_all", "s"), ("multiline", "m")) if name in features_of(words))
    flags = "".join(flag for flag in FLAGS if flag in asked.flags and flag not in gone)
    refused = re.fullmatch(rf"err\t(?:name_used_twice\t({SPAN}),({SPAN})|unsupported\t({SPAN}))", reply)
    if not refused:
        return None if re.fullmatch(rf"ok\t{flags}\t[^\t\r\n]+", reply) else "no reply, or other flags"
    name = "pattern_modifiers" if refused[3] else "named_capture_groups"
    inside = all(is_inside(span, asked.pattern.encode()) for span in refused.groups() if span)
    return None if inside and name in features_of(words) and (words[-1] != "rewrite" or not refused[3]) else "no refusal"


FAULTS = {"display": fault_of_display, "support": fault_of_support, "match": fault_of_match, "steps": fault_of_steps, "paint": fault_of_paint, "color": fault_of_color,
          "lint": fault_of_lint, "rewrite": fault_of_rewrite}


def fault_of_command(name, words, asked, reply):
    """What is wrong with the reply of a command, or None."""
    if asked.form == "C" and name != "display":
        return None if reply == "bad" else "an argument is answered"
    if not asked.plain.startswith("ok"):
        return None if reply == asked.plain else f"not as without a command, {asked.plain!r}"
    return FAULTS[name](words, asked, reply)


def said_of_spelling(name, reply):
    """What a reply must say too where the canonical spelling stands in place of the pattern."""
    if name == "lint":
        return re.sub("@" + SPAN, "", reply)
    return reply if reply.startswith("ok") else reply.rsplit("\t", 1)[0]


# Runs


def some_of(source, names):
    return ",".join(source.sample(names, source.randint(1, len(names))))


def some_text(source):
    return "".join(source.choices(source.choice(LETTERS), k=int(2 ** source.uniform(0, 9)) - 1))


def some_budget(source):
    return int(10 ** source.uniform(0, 4.5))


def some_command(source):
    """The name of a command, and its words."""
    return source.choice([
        ("display", ["display"]),
        ("support", ["support", some_of(source, FEATURES)]),
        ("match", ["match", str(some_budget(source)), some_text(source)]),
        ("paint", ["paint"]),
        ("color", ["paint", "color"]),
        ("lint", ["lint"]),
        ("rewrite", ["rewrite"]),
        ("rewrite", ["rewrite", some_of(source, REWRITES)]),
    ])


def short(line):
    """A line, or where it is long its beginning, its end and its length."""
    return repr(line) if len(line) <= 400 else f"{line[:200]!r} to {line[-100:]!r}, {len(line)} bytes"


def spelled_line(flags, spelling):
    return f"L\t{flags}\t{spelling}".encode()


class Soak:
    """Runs from one seed, and what was found in them."""

    def __init__(self, program, seed):
        self.program, self.seed = program, seed
        self.run, self.source = 0, None
        self.lines, self.faults = collections.Counter(), 0

    def tell(self, words, line, what):
        self.faults += 1
        print(f"soak: wrong: seed {self.seed}, run {self.run}, words {words}: {what[:300]}: line {short(line)}", flush=True)

    def ask(self, words, lines):
        """The replies to lines, or None where there is not one to each."""
        last = b"" if not lines or lines[-1] and self.source.random() < 0.5 else b"\n"
        status, written = piped([self.program, *words], b"\n".join(lines) + last, self.source)
        replies = replies_in(written, "display" in words)
        self.lines[" ".join(words[:2] if "strict" in words or "standard" in words else words[:1]) or "no words"] += len(lines)
        if replies is None or len(replies) != len(lines):
            self.tell(words, b"\n".join(lines), f"{len(replies or [])} replies to {len(lines)} lines, status {status}")
            return None
        if status != (0 if all(reply.startswith(b"ok") for reply in replies) else 1):
            self.tell(words, b"\n".join(lines), f"status {status}")
        return [reply.decode("utf-8", "replace") for reply in replies]

    def ask_mixed(self, words, lines):
        """The same, where the lines are asked in another order."""
        order = self.source.sample(range(len(lines)), len(lines))
        replies = self.ask(words, [lines[at] for at in order])
        return replies and [reply for _, reply in sorted(zip(order, replies))]

    def expect(self, words, lines, wanted):
        """Asks lines of which the replies are known. One that is too long now is not asked."""
        pairs = [(line, reply) for line, reply in zip(lines, wanted) if len(line) <= LINE_LIMIT]
        lines = [line for line, _ in pairs]
        for (line, reply), found in zip(pairs, self.ask_mixed(words, lines) or []):
            if found != reply:
                self.tell(words, line, f"{found!r}, and not {reply!r}")

    def check_plain(self, options, lines, replies):
        """The replies without a command, and those to the spellings in them."""
        for line, reply in zip(lines, replies):
            why = fault_of_plain(line, reply)
            if why:
                self.tell(options, line, f"{why}: {reply!r}")
        read = [reply for reply in replies if reply.startswith("ok")]
        self.expect(options, [spelled_line(MODES[mode], spelling) for _, mode, spelling in (reply.split("\t") for reply in read)], read)

    def check_options(self, options, lines, replies):
        """What is read with `strict` is read so without it; literals are read with `standard` as without it."""
        same = [(line, reply) for line, reply in zip(lines, replies) if (reply.startswith("ok") if "strict" in options else line[:1] != b"C")]
        self.expect([], [line for line, _ in same], [reply for _, reply in same])

    def check_spellings(self, name, words, asked, replies):
        """What a command says of the spelling of a literal."""
        pairs = [(it, reply) for it, reply in zip(asked, replies) if it.form == "L" and it.plain.startswith("ok")]
        lines = [spelled_line(it.flags, it.plain.split("\t")[2]) for it, _ in pairs]
        kept = [(line, reply) for line, (_, reply) in zip(lines, pairs) if len(line) <= LINE_LIMIT]
        for (line, reply), found in zip(kept, self.ask(words, [line for line, _ in kept]) or []):
            if said_of_spelling(name, found) != said_of_spelling(name, reply):
                self.tell(words, line, f"{found!r}, and of the pattern {reply!r}")

    def check_steps(self, options, words, lines, replies):
        """`steps` says `more` where `match` says `spent`, and takes the same patterns."""
        steps = [*options, "steps", words[-1], words[-2]]
        for line, reply, found in zip(lines, replies, self.ask_mixed(steps, lines) or []):
            fields = fields_of(line)
            is_counted = reply.startswith(("ok", "spent"))
            why = fault_of_steps(steps, Asked(*fields, None), found) if fields and is_counted else None
            if why or (found == "more") != (reply == "spent") or not is_counted and found != reply:
                self.tell(steps, line, f"{why or 'not as match'}: {found!r}, and match {reply!r}")

    def check_rewritten(self, options, words, lines, replies):
        """A rewritten pattern is read, is rewritten into itself, and matches alike."""
        old = [line for line, reply in zip(lines, replies) if reply.startswith("ok\t")]
        written = [reply for reply in replies if reply.startswith("ok\t")]
        fields = [reply.split("\t") for reply in written]
        new = [spelled_line(flags, pattern) for _, flags, pattern in fields]
        self.expect(options, new, [f"ok\t{mode_of(flags)}\t{pattern}" for _, flags, pattern in fields])
        self.expect(words, new, written)
        self.check_same_matches(options, [(line, after) for line, after in zip(old, new) if len(after) <= LINE_LIMIT])

    def check_same_matches(self, options, pairs):
        """The second pattern of a pair matches what the first one matches, within twice the budget."""
        text, budget = some_text(self.source), some_budget(self.source)
        before = self.ask_mixed([*options, "match", str(budget), text], [line for line, _ in pairs])
        after = self.ask_mixed([*options, "match", str(2 * budget), text], [line for _, line in pairs])
        for (line, rewritten), reply, found in zip(pairs, before or [], after or []):
            if reply != "spent" and said_of_spelling("match", reply) != said_of_spelling("match", found):
                self.tell(options, line, f"{reply!r} in {text[:50]!r}, and {found!r} of what {rewritten[:100]!r} matches")

    def check_command(self, options, lines, plain):
        name, command = some_command(self.source)
        words = options + command
        replies = self.ask_mixed(words, lines)
        if replies is None:
            return
        all_asked = [Asked(*(fields_of(line) or ["", "", ""]), reply) for line, reply in zip(lines, plain)]
        for line, asked, reply in zip(lines, all_asked, replies):
            why = fault_of_command(name, words, asked, reply)
            if why:
                self.tell(words, line, f"{why}: {reply!r}")
        if name in ("support", "match", "lint", "rewrite"):
            self.check_spellings(name, words, all_asked, replies)
        if name == "match":
            self.check_steps(options, words, lines, replies)
        if name == "rewrite":
            self.check_rewritten(options, words, lines, replies)

    def check_lines(self):
        options = self.source.choice([[], [], ["strict"], ["standard"]])
        lines = some_lines(self.source)
        plain = self.ask(options, lines)
        if plain is None:
            return
        self.check_plain(options, lines, plain)
        if options:
            self.check_options(options, lines, plain)
        self.check_command(options, lines, plain)

    def check_long_input(self):
        """An input of lines again and again, just as long as an input may be, or longer."""
        words = self.source.choice([[], ["display"], ["paint"], ["lint"]])
        lines = [line for _ in range(20) for line in some_lines(self.source)][:5000] + [b"X"]
        block = b"".join(line + b"\n" for line in lines)
        size = INPUT_LIMIT + self.source.choice([0, 1, 1000, 65536, 1 << 20])
        whole, rest = divmod(size, len(block))
        answered, in_block = piped([self.program, *words], block, self.source)
        _, in_rest = piped([self.program, *words], block[:rest], self.source)
        wanted = in_block * whole + in_rest
        status, written = piped([self.program, *words], block * whole + block[:rest], self.source)
        self.lines["an input as long as is read, or longer"] += 1
        if status != (6 if size > INPUT_LIMIT else answered) or not (wanted.startswith(written) if status == 6 else wanted == written):
            self.tell(words, block, f"again and again, {size} bytes: status {status}, {len(written)} bytes")

    def check_generator(self):
        words = ["gen", str(self.source.randrange(2 ** 31)), str(self.source.randint(1, 20000))]
        answers = [piped([self.program, *words], b"L\tu\ta\n", self.source) for _ in range(2)]
        self.lines["gen"] += 1
        if answers[0] != answers[1] or answers[0][0] != 0 or not re.fullmatch(rf"lines {words[2]} ok {words[2]} bytes [1-9][0-9]*\n", answers[0][1].decode()):
            self.tell(words, b"", f"{answers}")

    def once(self, run):
        """A run, which its number and the seed say."""
        self.run, self.source = run, random.Random(f"{self.seed} {run}")
        chance = self.source.random()
        if chance < 0.01:
            self.check_long_input()
        elif chance < 0.02:
            self.check_generator()
        else:
            self.check_lines()


def main():
    words = argparse.ArgumentParser(description=__doc__, formatter_class=argparse.RawDescriptionHelpFormatter)
    words.add_argument("minutes", type=float)
    words.add_argument("seed", type=int)
    words.add_argument("program", nargs="?", default=f"{TOP}/regexp")
    words.add_argument("--run", type=int)
    given = words.parse_args()
    soak, begun = Soak(os.path.abspath(given.program), given.seed), time.monotonic()
    try:
        if given.run is not None:
            soak.once(given.run)
        while given.run is None and time.monotonic() - begun < given.minutes * 60:
            soak.once(soak.run + 1)
    except TimeoutError:
        print(f"soak: wrong: seed {given.seed}, run {soak.run}: nothing was written for {SILENCE} seconds", flush=True)
        os._exit(1)
    for what, count in sorted(soak.lines.items()):
        print(f"soak: {what}: {count}")
    print(f"soak: seed {given.seed}, up to run {soak.run}: {sum(soak.lines.values())} lines in {(time.monotonic() - begun) / 60:.1f} minutes, {soak.faults} wrong")
    return 1 if soak.faults else 0


if __name__ == "__main__":
    sys.exit(main())
