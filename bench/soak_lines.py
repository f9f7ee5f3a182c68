"""What bench/soak.py asks: lines that a seeded generator makes. Some are plain requests, some are broken, huge, or no requests at all."""
import math

LINE_LIMIT = 1048576

MODES = {"legacy": "", "unicode": "u", "sets": "v"}
PLAIN = list("abcdefxyz_-,:;=!<>&~#%@`'\" 019") + ["é", "λ", "漢", "\u00a0", "\u0085", "\u2028", "\u2029", "\ufeff", "\t", "\r", "\0", "\b", "\x7f", "/", "\\/"]
ASTRAL = ["😀", "🙏", "\U00010000", "\U0010ffff", "𐒤", "𝒜"]
ESCAPES = r"\d \D \s \S \w \W \n \t \v \f \r \cA \cz \0 \x41 \x2A \u0041 \uD83D\uDE00 \uD83D \uDE00 \. \* \\ \( \[ \{ \| \^ \$".split() + ["."] * 4
UNICODE_ESCAPES = r"\u{61} \u{1F600} \u{D83D} \u{00010FFFF} \p{L} \P{Lu} \p{Script=Greek} \p{scx=Grek} \p{gc=Nd} \p{General_Category=Lu} \p{ASCII} \p{Any} \p{IDS}".split()
LEGACY_ESCAPES = r"\a \e \_ \c \c1 \1 \8 \07 \012 \377 \400 \x4 \u12 \u{61} \p{L} \k \A \z ] } { {a a{1".split() + ["\\😀", "\\é"]
SIMPLE = list("aaabbx1.....") + [r"\d", r"\w", r"\S", r"\n", "[ab]", "[^b]", "[^]", "()", "é"]
BOUNDARIES = ["^", "$", r"\b", r"\B"]
QUANTIFIERS = "* + ? *? +? ?? {2} {2,} {0,3} {1} {1,2}? {00012} {0,1} {1,} {9007199254740991}".split()
GROUPS = ["(", "(", "(", "(?:", "(?:", "(?=", "(?!", "(?<=", "(?<!", "(?i:", "(?ims:", "(?-m:", "(?s-i:", "(?sm-i:"]
SIMPLE_GROUPS = ["(", "(", "(?:", "(?=", "(?<=", "(?!", "(?<!", "(?s:", "(?m:", "(?-s:", "(?s-m:"]
NAMES = [("a", "a"), ("b", r"\u0062"), ("c1", "c1"), ("$", "$"), ("é", "é"), ("漢", r"\u6F22"), ("𐒤", "𐒤"), ("𝒜", r"\uD835\uDC9C")]
RANGES = ["a-z", "0-9", "😀-🙏", "a-😀", r"\uD83D\uDE00-\uD83D\uDE4F", r"\x20-\x7e", "α-ω", r"\0-\uFFFF", "--a", "+--"]
SETS = ["[x-z]", "[^a]", r"\q{ab|c|}", r"\q{😀}", r"\q{a}", r"\p{RGI_Emoji}", r"[a&&b]", r"[\w--\d]", "[a--[bc]]", r"\-", r"\&"]
WRONG = r"\1 \9 \00 \a \c \x4 \u \u{} \u{110000} \u{100000000} \u{61 \p \p{} \p{Foo} \p{L \p{sc=Foo} \P{RGI_Emoji} \k \k<a \k<zz> ( ) [ ] { } {1} {,2} {2 * + ? \ (? (?< (?<>a) (?<1>a)".split() \
    + r"(?<😀>c) (?<\u002D>c) (?ii:a) (?i-i:a) (?-:a) (?ix:a) (?<=a)* (?!a)* [b-a] [\d-a] [a--] a{2,1} ^* a** a{9007199254740992} a{99999999999999999999 [a&&&b] [a&&] [&&a] [^\q{ab}] [[a".split()
WRONG_FLAGS = ["uv", "vu", "gg", "uu", "x", "U", "é", "😀", " ", "gimsuyd ", "\0", "\r"]
NO_UTF8 = [b"\xff", b"\xfe", b"\x80", b"\xc0\x80", b"\xc3", b"\xed\xa0\x80", b"\xf0\x9f\x98", b"\xf4\x90\x80\x80", b"\xf8\x88\x80\x80\x80"]
NO_REQUESTS = [b"", b"\r", b"L", b"C", b"L\t", b"L\tu", b"L u a", b"\t\t", b"\tu\ta", b"R\tu\ta", b"l\tu\ta", b"LC\tu\ta", b" L\tu\ta", b"L\r\tu\ta", b"\xef\xbb\xbfL\tu\ta", b"\0",
               b"L\0\tu\ta", b"\0" * 70]


class Patterns:
    """Patterns of a small grammar, most of which are read in their mode. A name or a number may be that of no group. Some have simple parts alone, so that they match
    something now and then."""

    def __init__(self, source, mode):
        self.source, self.mode = source, mode
        self.is_simple = source.random() < 0.4
        self.groups, self.names = 0, []

    def disjunction(self, depth=0):
        return "|".join(self.alternative(depth) for _ in range(self.source.choice([1, 1, 1, 2, 2, 3])))

    def alternative(self, depth):
        return "".join(self.term(depth) for _ in range(self.source.choice([0, 1, 1, 2, 3] if depth else [1, 2, 3, 4, 6])))

    def term(self, depth):
        chance = self.source.random()
        if chance < 0.1:
            return self.source.choice(BOUNDARIES + ([] if self.mode == "legacy" else [r"\A", r"\z", r"\Z"]))
        atom = self.group(depth) if chance < 0.35 and depth < 5 else self.atom()
        return atom + (self.source.choice(QUANTIFIERS) if self.source.random() < 0.25 and not atom.startswith(("(?=", "(?!", "(?<=", "(?<!")) else "")

    def atom(self):
        chance = self.source.random()
        if self.is_simple and chance > 0.1:
            return self.source.choice(SIMPLE)
        if chance < 0.2:
            return self.character_class()
        if chance < 0.25:
            return rf"\{self.source.randint(1, self.groups)}" if self.groups else "()"
        if chance < 0.3 and self.names:
            return rf"\k<{self.source.choice(self.names)}>"
        if chance < 0.6:
            return self.source.choice(ESCAPES + (LEGACY_ESCAPES if self.mode == "legacy" else UNICODE_ESCAPES))
        return self.source.choice(PLAIN + ASTRAL)

    def group(self, depth):
        opener = self.source.choice(SIMPLE_GROUPS if self.is_simple else GROUPS)
        self.groups += opener == "("
        if opener == "(" and self.source.random() < 0.4:
            name, spelled = self.source.choice(NAMES)
            if name not in self.names or self.source.random() < 0.05:
                self.names.append(name)
                opener += f"?<{spelled}>"
        return opener + self.disjunction(depth + 1) + ")"

    def character_class(self):
        opener = self.source.choice(["[", "[", "[^"])
        if self.mode == "sets":
            between = self.source.choice(["", "", "&&", "--"])
            items = [self.source.choice(SETS + (RANGES[:7] if not between else [])) for _ in range(self.source.choice([1, 2, 2, 3]))]
            return opener + between.join(items) + "]"
        items = [self.source.choice(RANGES + ESCAPES + ["a", "-", "é", "😀", "^", "|", r"\b", r"\-", "(", "["]) for _ in range(self.source.choice([0, 1, 2, 3, 5]))]
        return opener + "".join(items) + "]"


def broken(source, text):
    """A text in which something is taken out, put in, doubled, exchanged or cut off."""
    for _ in range(source.choice([1, 1, 2, 4])):
        at, to = sorted(source.randint(0, len(text)) for _ in range(2))
        to = min(to, at + 3)
        text = source.choice([
            text[:at] + text[to:],
            text[:at] + source.choice(WRONG) + text[at:],
            text[:to] + text[at:],
            text[:at] + source.choice(WRONG) + text[to:],
            text[:at] + text[at:to][::-1] + text[to:],
            text[:at],
            text[at:],
        ])
    return text


def flags_of(source, mode):
    flags = [flag for flag in "dgimsy" if source.random() < (0.3 if flag in "ms" else 0.12)] + list(MODES[mode])
    source.shuffle(flags)
    return "".join(flags) + (source.choice(WRONG_FLAGS) if source.random() < 0.05 else "")


def written(source, quote, value):
    """A character as it may be written between these quotes."""
    number = ord(value)
    if source.random() < 0.06:
        ways = [f"\\u{{{number:x}}}", "\\" + value, f"\\x{number:02x}" if number < 256 else value, f"\\{number:o}" if number < 256 else value]
        pair = value.encode("utf-16-be").hex()
        ways.append("".join(f"\\u{pair[at:at + 4]}" for at in range(0, len(pair), 4)))
        return source.choice(ways)
    if source.random() < 0.004:
        return "\\" + source.choice("\u2028\u2029\r") + value
    return "\\" + value if value in (quote, "\\", "$") else value


def quoted(source, value):
    """A value as an argument in quotes."""
    quote = source.choice("\"'`")
    text = quote + "".join(written(source, quote, it) for it in value) + quote
    return broken(source, text) if source.random() < 0.08 else text


def request(source, form, mode, pattern):
    flags = flags_of(source, mode)
    if form == "C":
        flags = quoted(source, flags) if flags or source.random() < 0.1 else ""
        pattern = quoted(source, pattern)
    return f"{form}\t{flags}\t{pattern}".encode()


def small_line(source):
    """A line with a pattern of the grammar, whole or broken, or one that is no request."""
    chance = source.random()
    mode = source.choice(list(MODES))
    pattern = Patterns(source, mode).disjunction() if chance < 0.95 else ""
    if chance > 0.7:
        pattern = broken(source, pattern)
    line = request(source, source.choice("LLLC"), mode, pattern)
    if chance > 0.98:
        line = source.choice(NO_REQUESTS)
    if source.random() < 0.03:
        at = source.randint(0, len(line))
        line = line[:at] + source.choice(NO_UTF8) + line[at:]
    return line + source.choice([b""] * 20 + [b"\r"])


def binary_line(source):
    """Bytes, some of them after the two fields that make a request of them."""
    some = range(256) if source.random() < 0.5 else b"()[]{}|\\?*+<>=!:-^$.\tabcuvLC\x00\r\"'`pqk01\xc3\xa9"
    return source.choice([b"", b"", b"L\t\t", b"L\tu\t", b"L\tv\t", b"C\t\t"]) + bytes(source.choices(some, k=source.choice([1, 5, 30, 300, 5000])))


def nested(source, mode, size):
    """Openers in one another, all of them closed, or not."""
    openers = [("(", ")"), ("(?:", ")"), ("(?=", ")"), ("(?<!", ")"), ("(?i:", ")"), ("(?:", ")*"), ("(a|", ")")] + ([("[", "]"), ("[^", "]"), ("[a&&", "]")] * 2 if mode == "sets" else [])
    opener, closer = source.choice(openers)
    depth = size // (len(opener) + len(closer))
    return opener * depth + source.choice(["a", "", "a{2,1}"]) + closer * (depth + source.choice([0, 0, 0, 0, -1, 1, -depth]))


def repeated(source, mode, size):
    """A part again and again."""
    part = source.choice([
        Patterns(source, mode).disjunction(),
        Patterns(source, mode).character_class(),
        source.choice(PLAIN + ASTRAL + ESCAPES),
    ]) + source.choice(["", "", "|"])
    return part * (size // max(1, len(part.encode())))


def long_class(source, mode, size):
    """A class of many items."""
    item = source.choice(RANGES[:3] + [r"\d", r"\x41", "é"] + (SETS if mode == "sets" else []))
    return "[" + item * (size // len(item.encode())) + source.choice(["]", "]", "]", ""])


def numbered(source, _, size):
    """Groups with a name of their own, and references to them."""
    count = size // 22
    return "".join(f"(?<n{at}>)" for at in range(count)) + source.choice(["", f"(?<n{count // 2}>)"]) + "".join(rf"\k<n{at}>" for at in range(count))


def long_digits(source, _, size):
    """Digits that go on and on."""
    opener, digit, closer = source.choice([("a{", "0", "1}"), ("a{", "9", "}"), ("\\", "1", ""), (r"\u{", "0", "41}"), ("a{1,", "0", "2}?"), (r"\p{", "L", "}"), ("(?", "i", ":)"), ("(?<", "a", ">)")])
    return opener + digit * size + closer


def huge_line(source):
    """A line of some kilobytes up to more than a line may have; some have just as many bytes as they may, or one more or less."""
    mode = source.choice(list(MODES))
    size = int(2 ** source.uniform(11, 20.1))
    pattern = source.choice([nested, nested, repeated, repeated, long_class, numbered, long_digits])(source, mode, size)
    if source.random() < 0.2:
        pattern += source.choice(WRONG)
    line = request(source, source.choice("LLLLC"), mode, pattern)
    if source.random() < 0.2:
        line = line[:LINE_LIMIT - 2].ljust(LINE_LIMIT + source.choice([-1, 0, 0, 1]), b"a")
    return line


def some_lines(source):
    """The lines of an input: many small ones, a few huge ones, or bytes; none has an LF in it."""
    kind = source.choice([small_line] * 6 + [binary_line, huge_line])
    most = 3 if kind is huge_line else 600
    lines = [kind(source) for _ in range(int(2 ** source.uniform(0, math.log2(most))))]
    if kind is huge_line or source.random() < 0.3:
        lines += [small_line(source) for _ in range(source.randint(0, 5))]
    return [line.replace(b"\n", b"") for line in lines] if source.random() < 0.98 else []
