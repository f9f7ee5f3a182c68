#!/usr/bin/env python3
"""Compares the program with node on arguments of `RegExp`: which are read, to which pattern, and which are refused, and for which of the two texts.

    bench/constructor_engine.py [--count N] [--seed S] [--program P] [--words W]

It makes N lines of form C (40000 where it is not given) from the seed S, and asks the program P, `./regexp` where it is not given, with the words W, `standard` where
they are not given. What is in a text is what is hard to read: escapes of strings and templates, wrong ones too, line continuations, surrogates that are raw or escaped,
alone or in pairs, quotes that are not closed. One difference is a line of the output; those of EXCUSED are counted. The status is 0 where all others are none, else 1.
What node is asked: whether each source text is one literal that it evaluates, in sloppy mode code; whether RegExp takes the two values; and whether it takes the
spelling of the program, between slashes. The program is asked again for node's values: as a literal, or as strings where a literal would not fit a line. Its reply must
be the same, but that the spans of a refusal are those of the same units in the request.
"""
import collections
import json
import random
import re
import subprocess
import sys

sys.dont_write_bytecode = True
import engine

BATCH = 40_000
EXCUSED = {
    "buffer boundary": r"`\A`, `\z` or `\Z` under u or v: a proposal that node lacks",
    "modifiers": "`(?i:` and alike: node 20 lacks them",
    "repeated name": "groups of one name, apart by a bar: node 20 lacks them",
    "script of no character": r"`\p{sc=Hrkt}`: PropertyValueAliases.txt has it (22.2.1.1), node reads no script without characters",
    "large number": "a number of braces above 2^53 - 1, or digits that pass 64 bits: a limit of this project",
    "order of large numbers": "numbers of braces out of order, both at least 2^31 - 1: one number for node",
}
FLAG_REFUSALS = {"unknown_flag", "duplicated_flags", "invalid_unicode_flags"}
NUMBER_REFUSALS = {"too_large_number_in_braced_quantifier", "too_large_number_digits"}

NODE = r"""
const SHAPES = [/^"(?:[^"\\]|\\[^])*"$/, /^'(?:[^'\\]|\\[^])*'$/, /^`(?:[^`\\$]|\\[^]|\$(?!\{))*`$/];
const LITERAL = /^(?![*])(?:[^\\\/\r\n\u2028\u2029]|\\[^\r\n\u2028\u2029])+$/;
const attempt = (call) => {
    try {
        return [call(), null];
    } catch (fault) {
        if (!(fault instanceof SyntaxError)) throw fault;
        return [null, fault.message];
    }
};
const value = (text) => {
    if (text === null) return "";
    return SHAPES.some((shape) => shape.test(text)) ? attempt(() => (0, eval)(`(${text})`))[0] : null;
};
const argumentsOf = ([flagsText, patternText]) => {
    const flags = value(flagsText);
    if (flags === null) return { state: "flags unread" };
    if (attempt(() => new RegExp("", flags))[1] !== null) return { state: "flags refused", flags };
    const pattern = value(patternText);
    if (pattern === null) return { state: "text unread", flags };
    const fault = attempt(() => new RegExp(pattern, flags))[1];
    return { state: fault === null ? "ok" : "refused", flags, pattern, fault, alone: !pattern.isWellFormed() };
};
const spelled = ([spelling, flags]) => {
    if (!LITERAL.test(spelling)) return { fault: "no text of a literal" };
    return { fault: attempt(() => (0, eval)(`/${spelling}/${flags}`))[1] };
};
const { what, items } = JSON.parse(require("fs").readFileSync(0, "utf8"));
console.log(JSON.stringify(items.map(what === "arguments" ? argumentsOf : spelled)));
"""

# Patterns, as values of strings.
PLAIN = list("abcdefuxzkpq019_-,:;=!<>&~#%@`'\"$/. ") + ["é", "λ", "漢", "\u00a0", "\u2028", "\u2029", "\t", "\r", "\n", "\0", "\b", "\x7f", "\ufeff"]
WIDE = ["😀", "🙏", "\U00010000", "\U0010ffff", "𐒤", "𝒜"]
ALONE = ["\ud83d", "\ude00", "\ud800", "\udc00", "\udbff", "\udfff", "\ud83d\ud83d", "\ude00\ud83d"]
ESCAPES = [r"\d", r"\D", r"\s", r"\S", r"\w", r"\W", r"\n", r"\t", r"\v", r"\f", r"\r", r"\cA", r"\cz", r"\0", r"\x41", r"\u0041", r"\uD83D\uDE00", r"\uD83D", r"\uDE00",
           r"\/", r"\.", r"\*", r"\\", r"\(", r"\[", r"\{", r"\|", r"\^", r"\$"]
UNICODE_ESCAPES = [r"\u{61}", r"\u{1F600}", r"\u{D83D}", r"\u{DE00}", r"\uD83D\u{DE00}", r"\u{00010FFFF}", r"\p{L}", r"\P{Lu}", r"\p{Script=Greek}", r"\p{scx=Grek}", r"\p{gc=Nd}",
                   r"\p{ASCII}", r"\p{Any}", r"\p{General_Category=Letter}", r"\p{IDS}", r"\p{sc=Hrkt}"]
LEGACY_ESCAPES = [r"\a", r"\e", r"\_", r"\-", r"\c", r"\c1", r"\1", r"\8", r"\07", r"\012", r"\377", r"\400", r"\x4", r"\u12", r"\u{61}", r"\p{L}", r"\k", r"\A", r"\z", r"\Z",
                  "\\😀", "\\é", r"\"", r"\'"]
WRONG = [r"\1", r"\9", r"\8", r"\00", r"\a", r"\_", r"\c", r"\x4", r"\u", r"\u12", r"\u{}", r"\u{110000}", r"\u{61", r"\p", r"\p{}", r"\p{Foo}", r"\p{L", r"\p{lu}", r"\p{gc=Greek}", r"\p{Script}", r"\p{ L}",
         r"\P{RGI_Emoji}", r"\p{RGI_Emoji}", r"\k", r"\k<a", r"\k<zz>", "(", ")", "[", "]", "{", "}", "{1}", "{,2}", "{2", "*", "+", "?", "\\", "(?", "(?<", "(?<>a)", "(?<1>a)", "(?<a b>c)", "(?<😀>c)",
         r"(?<\u002D>c)", r"(?<a\uD83D>c)", "(?a:b)", "(?<=a)*", "(?!a)*", "[b-a]", "[😀-a]", r"[\d-a]", "a{2,1}", "^*", "a**", r"\😀", "\\\ud83d", "[[a]]", "[a&&b]", "[a--b]", "[a&&&b]"]
QUANTIFIERS = ["*", "+", "?", "*?", "+?", "??", "{2}", "{2,}", "{0,3}", "{1,2}?", "{00012}", "{2147483647,2147483648}"]
LARGE = ["{9007199254740991}", "{9007199254740992}", "{3000000000,2999999999}", "{2,99999999999999999999}", "{18446744073709551616,1}", "{99999999999999999999"]
BOUNDARIES = ["^", "$", r"\b", r"\B"]
BUFFER_BOUNDARIES = [r"\A", r"\z", r"\Z"]
MODIFIERS = ["(?i:", "(?ims:", "(?-m:", "(?s-i:", "(?sm-i:"]
OPENERS = ["(", "(?:", "(?=", "(?!", "(?<=", "(?<!"]
NAMES = [("a", "a"), ("b", r"\u0062"), ("c1", "c1"), ("$", "$"), ("_x", "_x"), ("é", "é"), ("漢", r"\u6F22"), ("d", r"\u{64}"), ("𐒤", "𐒤"), ("𝒜", r"\uD835\uDC9C"),
         ("𝒷", r"\u{1D4B7}"), ("e\u200d", "e\u200d"), ("f\u0301", r"f\u0301")]
LENGTHS = [1, 1, 2, 2, 2, 3, 3, 3, 4, 4, 5, 5, 6, 7, 8, 10]
RANGES = ["a-z", "0-9", "😀-🙏", "😀-🙏", "𐒤-😀", "a-😀", "\ufffd-\U00010000", r"\uD83D\uDE00-\uD83D\uDE4F", r"\x20-\x7e", "\ud800-\udbff", "\udc00-\udfff", "α-ω", r"\u0000-\uFFFF"]
SET_OPERANDS = ["[x-z]", r"[^a]", r"\q{ab|c|}", r"\q{😀}", r"\q{a}", r"\p{RGI_Emoji}", r"[\p{Emoji_Keycap_Sequence}]", r"[a&&b]", r"[\w--\d]", r"\-", r"\&", r"\!", r"\,"]
CLASS_EXTRAS = [r"\b", r"\-", "-", "^", "$", "|", "(", ")", ".", "*", "{", "}", "[", "/"]

# Elements of source texts.
SIMPLE = {"\b": r"\b", "\t": r"\t", "\n": r"\n", "\v": r"\v", "\f": r"\f", "\r": r"\r", "\\": r"\\", "'": r"\'", '"': r"\"", "\0": r"\0"}
CONTINUATIONS = ["\\\r", "\\\u2028", "\\\u2029"]
TERMINATORS = ["\r", "\u2028", "\u2029"]
DIGITS = [r"\1", r"\7", r"\8", r"\9", r"\00", r"\08", r"\012", r"\377", r"\400", r"\477", r"\51", r"\0", r"\01"]
BAD = [r"\x", r"\x4", r"\xg1", r"\x4g", r"\u", r"\u12", r"\u123g", r"\u{}", r"\u{110000}", r"\u{10FFFF", r"\u{ 41}", r"\u{4_1}", r"\u{100000041}", r"\u{FFFFFFFFFFFFFFFFF}",
       r"\u{-1}"]
ELEMENT = re.compile(r"\\x..|\\u\{[^}]*\}|\\u.{4}|\\[0-3][0-7]{0,2}|\\[4-7][0-7]?|\\.|.", re.S)
AFTER = [" ", ";", "a", "\r", "\u2028", "\u00a0", "\ufeff", "\"", "'", "`", ",'g'", "+''", "/**/", "//", "\0"]


def kept(source, share, text):
    """The text in this share of all cases, else nothing."""
    return text if source.random() < share else ""


class Patterns:
    """Patterns of one mode. Names are taken once, but for some."""

    def __init__(self, source, mode):
        self.source, self.mode = source, mode
        self.names = source.sample(NAMES, len(NAMES))
        self.taken = []

    def name(self):
        if self.taken and (self.source.random() < 0.12 or not self.names):
            return self.source.choice(self.taken)
        self.taken.append(self.names.pop())
        return self.taken[-1]

    def character(self):
        pick = self.source.random()
        if pick < 0.6:
            found = self.source.choice(PLAIN)
        else:
            found = self.source.choice(WIDE if pick < 0.85 else ALONE)
        return "\\" + found if found in ("$", ".", "/") and pick < 0.5 else found

    def escape(self):
        return self.source.choice(ESCAPES + (LEGACY_ESCAPES if self.mode == "legacy" else UNICODE_ESCAPES))

    def class_item(self):
        pick = self.source.random()
        if pick < 0.25:
            return self.source.choice(RANGES)
        if pick < 0.45:
            return self.escape()
        if pick < 0.6:
            return self.source.choice(SET_OPERANDS if self.mode == "sets" else CLASS_EXTRAS)
        found = self.character()
        return "\\" + found if self.mode == "sets" and found in "&-!#%,:;<=>@`~/" else found

    def some_class(self):
        joint = self.source.choice(["", "", "&&", "--"]) if self.mode == "sets" else ""
        items = [self.class_item() for _ in range(self.source.randint(0, 4))]
        return "[" + kept(self.source, 0.2, "^") + joint.join(items) + "]"

    def group(self, depth):
        pick = self.source.random()
        if pick < 0.06:
            opener = self.source.choice(MODIFIERS)
        elif pick < 0.1:
            name = self.name()
            return f"(?:(?<{name[0]}>{self.character()})|(?<{name[1]}>b))"
        elif pick < 0.4:
            opener = f"(?<{self.source.choice(self.name())}>"
        else:
            opener = self.source.choice(OPENERS)
        return opener + self.disjunction(depth + 1) + ")"

    def reference(self):
        if self.taken and self.source.random() < 0.8:
            return f"\\k<{self.source.choice(self.source.choice(self.taken))}>"
        return self.source.choice([r"\1", r"\2", r"\10"]) + kept(self.source, 0.3, "5")

    def boundary(self):
        return self.source.choice(BUFFER_BOUNDARIES if self.source.random() < 0.15 else BOUNDARIES)

    def term(self, depth):
        pick = self.source.random()
        if pick < 0.05:
            return self.boundary()
        if pick < 0.07:
            return self.reference()
        if pick < 0.085:
            return self.source.choice(WRONG)
        if pick < 0.2 and depth < 3:
            atom = self.group(depth)
        elif pick < 0.35:
            atom = self.some_class()
        else:
            atom = self.escape() if pick < 0.5 else self.character()
        large = kept(self.source, 0.008, self.source.choice(LARGE))
        return atom + (large or kept(self.source, 0.15, self.source.choice(QUANTIFIERS)))

    def disjunction(self, depth=0):
        terms = [self.term(depth) for _ in range(self.source.choice([0, 1, 1, 2, 2, 3]) if depth else self.source.choice([0] + LENGTHS))]
        return "".join(term + kept(self.source, 0.12, "|") for term in terms)


class Writer:
    """Source texts between quotes that give values."""

    def __init__(self, source, quote, plain, extras):
        self.source, self.quote, self.plain, self.extras = source, quote, plain, extras

    def is_raw(self, character):
        if character in (self.quote, "\\", "\n") or "\ud800" <= character <= "\udfff":
            return False
        return not (character == "\r" or character in "${" and self.quote == "`")

    def number(self, value):
        """A character by an escape with its number."""
        ways = [f"\\u{{{value:x}}}", f"\\u{{{value:06X}}}"]
        if value < 0x10000:
            ways += [f"\\u{value:04X}", f"\\u{value:04x}"]
        if value < 0x100:
            ways += [f"\\x{value:02X}", f"\\x{value:02x}"]
        if value < 0x100 and self.quote != "`":
            ways.append(f"\\{value:03o}")
        return self.source.choice(ways)

    def pair(self, value):
        """A character past FFFF by two escapes, some apart."""
        lead, trail = 0xD800 + (value - 0x10000 >> 10), 0xDC00 + (value & 0x3FF)
        between = kept(self.source, 0.15, self.source.choice(CONTINUATIONS)) + kept(self.source, 0.05, self.source.choice(["a", "-", CONTINUATIONS[0], r"\uD83D", r"\uDE00"]))
        return self.number(lead) + between + self.number(trail)

    def element(self, character):
        pick = self.source.random()
        value = ord(character)
        if value > 0xFFFF and pick < 0.5:
            return self.pair(value)
        if pick < self.plain and self.is_raw(character):
            return character
        if character in SIMPLE and (pick < 0.9 or character == "\\" and pick < 0.97):
            return SIMPLE[character]
        if character not in "0123456789xubtnvfr\n\r\u2028\u2029" and not "\ud800" <= character <= "\udfff" and pick > 0.97:
            return "\\" + character
        return self.number(value)

    def extra(self):
        """What stands between the elements of some texts: mostly what may stand there."""
        pick = self.source.random()
        if pick < 0.55:
            return self.source.choice(CONTINUATIONS)
        if pick < 0.75:
            return self.source.choice(TERMINATORS[self.quote != "`":])
        if pick < 0.87:
            return self.source.choice(DIGITS)
        return self.source.choice(BAD + ["${", "${a}", "$", "`", "'", '"', "\r"])

    def text(self, value):
        elements = [self.element(character) for character in value]
        if self.source.random() < self.extras:
            for _ in range(self.source.randint(1, 3)):
                elements.insert(self.source.randint(0, len(elements)), self.extra())
        inside = "".join(elements)
        pick = self.source.random()
        if pick > 0.03:
            return self.quote + inside + self.quote
        ways = [self.quote + inside, inside + self.quote, self.quote + inside + "\\" + self.quote, self.quote + inside + self.quote + self.source.choice(AFTER),
                self.source.choice(AFTER) + self.quote + inside + self.quote, self.quote + inside + self.source.choice("\"'`"), "", inside]
        return self.source.choice(ways)


def written(source, value, extras):
    """A source text of the value, but for what stands between its elements in this share of all texts."""
    return Writer(source, source.choice("\"'`"), source.choice([0.4, 0.8, 0.95]), extras).text(value)


def line_fits(text):
    return "\n" not in text and not re.search("[\ud800-\udfff]", text)


def mode_of(flags):
    return "sets" if "v" in flags else "unicode" if "u" in flags else "legacy"


def plain_string(value):
    """A string in double quotes, with escapes only where a line needs them."""
    return re.sub("[\ud800-\udfff]", lambda it: f"\\u{ord(it[0]):04x}", json.dumps(value, ensure_ascii=False))


def plain_line(node, is_refused):
    """A line for node's values: a literal, or strings where a literal would not fit, or would not show which half of a character a refusal points at."""
    if node["state"] == "flags refused":
        return "C", plain_string(node["flags"]), '""'
    pattern = node["pattern"]
    if is_refused and mode_of(node["flags"]) == "legacy" and max(pattern, default="") > "\uffff":
        return "C", plain_string(node["flags"]), json.dumps(pattern)
    if node["alone"] or "\n" in pattern:
        return "C", plain_string(node["flags"]), plain_string(pattern)
    return "L", node["flags"], pattern or "(?:)"


def code_units(element):
    """How many code units of the value an element of a source text gives."""
    if element[0] == "\\" and element[1:] in tuple("\n\r\u2028\u2029"):
        return 0
    is_wide = int(element[3:-1], 16) > 0xFFFF if element.startswith("\\u{") else element[-1] > "\uffff"
    return 2 if is_wide else 1


def offsets(form, text, value, is_split):
    """The offset at each place of a text that is read, in bytes: the end of the unit before it."""
    ends, end = [], int(form == "C")
    for element in ELEMENT.findall(text[1:-1]) if form == "C" else text:
        end += len(element.encode())
        ends += [end] * code_units(element)
    found, at = [int(form == "C")], 0
    for character in value:
        units = 2 if character > "\uffff" else 1
        found += ends[at:at + 2] if is_split and units == 2 else [ends[at + units - 1]]
        at += units
    return found


def some_flags(source):
    """The value of the flags: mostly one that RegExp takes."""
    letters = [it for it in "dgimsy" if source.random() < 0.2] + source.choice([[], ["u"], ["u"], ["v"]])
    if source.random() < 0.03:
        letters.append(source.choice(["u", "v", "g", "x", "G", "é", " ", "😀", "\u2028", "\ud83d"]))
    return "".join(source.sample(letters, len(letters)))


def request(source):
    """The two fields of a line of form C: source texts of flags, or none, and of a pattern."""
    while True:
        flags = some_flags(source)
        mode = mode_of(flags)
        flags_text = None if flags == "" and source.random() < 0.8 else written(source, flags, 0.12)
        pattern_text = written(source, Patterns(source, mode).disjunction(), 0.3)
        if line_fits(pattern_text) and line_fits(flags_text or "") and "\t" not in (flags_text or "") and flags_text != "":
            return flags_text, pattern_text


def ask_node(what, items):
    return engine.ask_node(NODE, {"what": what, "items": items})


def ask_program(command, lines):
    """The reply to each line, as its fields."""
    replies = []
    for begin in range(0, len(lines), BATCH):
        given = "".join("\t".join(line) + "\n" for line in lines[begin:begin + BATCH]).encode()
        ran = subprocess.run(command, input=given, stdout=subprocess.PIPE)
        if ran.returncode not in (0, 1):
            sys.exit(f"{command}: status {ran.returncode}")
        replies += [reply.split("\t", 2) for reply in ran.stdout.decode().split("\n")[:-1]]
    if len(replies) != len(lines):
        sys.exit(f"{command}: {len(replies)} replies to {len(lines)} lines")
    return replies


def state_of(reply, lengths):
    """What the program says of the two texts, in the words that node is asked for."""
    if reply[0] == "ok":
        return "ok"
    if reply[:2] == ["err", "invalid_input"]:
        return " or ".join(state for state, length in zip(("flags unread", "text unread"), lengths) if reply[2] == f"0..{length}") or "bad reply"
    if reply[0] != "err" or not all(is_inside(span, lengths[reply[1] not in FLAG_REFUSALS]) for span in reply[2].split(",")):
        return "bad reply"
    return "flags refused" if reply[1] in FLAG_REFUSALS else "refused"


def is_inside(span, length):
    start, end = map(int, span.split(".."))
    return start <= end <= length


class Reduced:
    """A canonical spelling, or a pattern, without what node lacks: a boundary becomes `\\b`, modifiers go, a name that stands again gets an end of its own, and a script a name
    that node knows."""

    def __init__(self, text, mode):
        self.kinds, self.seen = set(), set()
        self.text = "".join(self.pieces(text, mode))

    def pieces(self, text, mode):
        depth = 0
        for piece in re.findall(r"\\[pP]\{[^}]*\}|\\.|\(\?<[^=!>]*>|\(\?[ims]*-?[ims]*:|.", text, re.S):
            if depth == 0 and mode != "legacy" and piece in BUFFER_BOUNDARIES:
                self.kinds.add("buffer boundary")
                piece = r"\b"
            elif piece.endswith("sc=Hrkt}"):
                self.kinds.add("script of no character")
                piece = piece.replace("Hrkt", "Kana")
            elif depth == 0 and piece.startswith("(?"):
                piece = self.opener(piece)
            elif piece == "[" and (depth == 0 or mode == "sets"):
                depth += 1
            elif piece == "]" and depth > 0:
                depth -= 1
            yield piece

    def opener(self, piece):
        if piece.endswith(":"):
            self.kinds |= {"modifiers"} if piece != "(?:" else set()
            return "(?:"
        while piece in self.seen:
            self.kinds.add("repeated name")
            piece = piece[:-1] + "_>"
        self.seen.add(piece)
        return piece


def number_excuse(refusal, pattern):
    """Why a number of braces may be refused that node takes, or none."""
    for low, high in re.findall(r"\{(\d+)(?:,(\d*))?\}", pattern):
        if refusal in NUMBER_REFUSALS and max(int(low), int(high or 0)) >= 2 ** 53:
            return "large number"
        if refusal == "braced_quantifier_out_of_order" and high and int(low) > int(high) >= 2 ** 31 - 1:
            return "order of large numbers"
    return None


class Comparison:
    """The lines, what both said, and what differs."""

    def __init__(self, command, requests):
        self.command, self.requests = command, requests
        self.lines = [("C", flags or "", pattern) for flags, pattern in requests]
        self.replies = ask_program(command, self.lines)
        self.node = ask_node("arguments", requests)
        self.states, self.excused, self.differences = collections.Counter(), collections.Counter(), []

    def differs(self, at, what):
        self.differences.append(f"{what}: line {self.lines[at]!r} reply {self.replies[at]!r} node {self.node[at]!r}")

    def states_agree(self, at):
        """Whether the two say the same, or differ in what is excused, if the other checks pass too; else the difference is noted."""
        reply, node = self.replies[at], self.node[at]
        state = state_of(reply, [len(text.encode()) for text in self.lines[at][1:]])
        self.states[node["state"]] += 1
        if node["state"] in state.split(" or "):
            return True
        if state == "ok" and node["state"] == "refused" and Reduced(reply[2], reply[1]).kinds:
            return True
        excuse = number_excuse(reply[1], node["pattern"]) if (state, node["state"]) == ("refused", "ok") else None
        if excuse is None:
            self.differs(at, f"{state} by the program, {node['state']} by node")
            return False
        self.excused[excuse] += 1
        return True

    def check_spellings(self, at_all):
        """Node reads each spelling; where it refused the argument itself, without what it lacks."""
        asked = [Reduced(self.replies[at][2], self.replies[at][1]) if self.node[at]["state"] != "ok" else None for at in at_all]
        items = [(reduced.text if reduced else self.replies[at][2], self.node[at]["flags"]) for at, reduced in zip(at_all, asked)]
        for at, reduced, (text, _), found in zip(at_all, asked, items, ask_node("spellings", items)):
            mode = mode_of(self.node[at]["flags"])
            if found["fault"] is not None:
                self.differs(at, f"node refuses the spelling {text!r}, {found['fault']}")
            elif self.replies[at][1] != mode:
                self.differs(at, f"the mode is {mode}")
            elif reduced:
                self.excused.update(reduced.kinds)

    def check_values(self, at_all):
        """The program says the same of node's values, written in the plainest way; of a refusal at the same units."""
        lines = [plain_line(self.node[at], self.replies[at][0] == "err") for at in at_all]
        for at, line, again in zip(at_all, lines, ask_program(self.command, lines)):
            reply = self.replies[at]
            if again[0] == "err" == reply[0]:
                again = again[:2] + [self.moved(again[2], at, line) or reply[2]]
            if again != reply:
                self.differs(at, f"node's value gets the reply {again!r}")

    def moved(self, spans, at, line):
        """Spans in a plain line's text as spans in the text of the request. None in flags with a character past FFFF, which may be one unit or two."""
        node = self.node[at]
        which, value = (1, node["flags"]) if node["state"] == "flags refused" else (2, node["pattern"])
        if which == 1 and max(value, default="") > "\uffff":
            return None
        is_split = which == 2 and mode_of(node["flags"]) == "legacy"
        places = {offset: place for place, offset in enumerate(offsets(line[0], line[which], value, is_split))}
        there = offsets("C", self.lines[at][which], value, is_split)
        return re.sub(r"\d+", lambda it: str(there[places[int(it[0])]]) if int(it[0]) in places else "no place", spans)

    def run(self):
        agreed = [at for at in range(len(self.lines)) if self.states_agree(at)]
        self.check_spellings([at for at in agreed if self.replies[at][0] == "ok"])
        self.check_values([at for at in agreed if "unread" not in self.node[at]["state"]])

    def report(self):
        print(f"{len(self.lines)} lines; by node: " + ", ".join(f"{count} {state}" for state, count in sorted(self.states.items())))
        for kind, count in sorted(self.excused.items()):
            print(f"excused: {count} of {kind} ({EXCUSED[kind]})")
        return engine.tell(self.differences)


def main():
    words = engine.words_of(__doc__)
    words.add_argument("--count", type=int, default=40_000)
    words.add_argument("--words", default="standard")
    given = words.parse_args()
    source = random.Random(given.seed)
    comparison = Comparison([given.program] + given.words.split(), [request(source) for _ in range(given.count)])
    comparison.run()
    sys.exit(comparison.report())


main()
