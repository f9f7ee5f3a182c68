"""Generated patterns and texts for the scripts that compare searches with node, and how node searches."""
import collections
import re

# How node searches, for the scripts that it is asked by. Under `u` and `v` it may find a match that begins inside a character (`/(?!.)/u` at place 1 of `😀`), which is wrong: it
# is asked at each character, by `y`.
SEARCH = r"""
// How many characters end at or before each place of a text in code units.
const characters = (text) => {
    const found = [0];
    let count = 0;
    for (const character of text) {
        if (character.length === 2) found.push(count);
        found.push(++count);
    }
    return found;
};
// The first match that begins at a character or at the end.
const first = (pattern, flags, text) => {
    if (!/[uv]/.test(flags)) return new RegExp(pattern, flags + "d").exec(text);
    const places = characters(text);
    const tried = new RegExp(pattern, flags + "dy");
    for (let at = 0; at <= text.length; at++) {
        if (at > 0 && places[at] === places[at - 1]) continue;
        tried.lastIndex = at;
        const found = tried.exec(text);
        if (found !== null) return found;
    }
    return null;
};
"""

LIMIT = 14

# The letters of a text and of the patterns that it is matched with. Digits stand in texts only, since one after a reference would belong to it.
LETTERS = ["ab", "ab", "abc", "abc", "aab", "a1 b", "a\nb", "ab\r\n", "a_-b2", "ab\u2028\u2029", "aé\u00a0", "a😀", "a😀🙏b", "ab😀\n", "x.y$", "(a)*"]
SYNTAX = "^$\\.*+?()[]{}|/"
CLASS_SYNTAX = "()[]{}/-|\\^&!#%,:;<=>@`~"
ENDS = r"[\n\r\u2028\u2029]"
BUFFER_BOUNDARIES = {r"\A": r"(?<![\s\S])", r"\z": r"(?![\s\S])", r"\Z": rf"(?=(?:\r\n|{ENDS})?(?![\s\S]))"}
SETTING_OF = {"^": "m", "$": "m", ".": "s"}
BY_SETTING = {"^": f"(?:^|(?<={ENDS}))", "$": f"(?:$|(?={ENDS}))", ".": r"[\s\S]"}
QUANTIFIERS = ["*", "*", "*", "+", "+", "?", "?", "{2}", "{0}", "{1,2}", "{0,2}", "{2,}", "{1,}", "{2,3}"]
LOOKAHEADS, LOOKBEHINDS = ["(?=", "(?=", "(?!"], ["(?<=", "(?<=", "(?<!"]
MODIFIERS = ["m", "s", "ms", "-m", "-s", "-ms", "m-s", "s-m"]
FLAGS = ["", "", "u", "u", "v", "v", "m", "s", "mu", "su", "msv", "ms"]

# A text as the program reads it, and as node does.
Both = collections.namedtuple("Both", "ours nodes")


def both(text):
    return Both(text, text)


def joined(parts, between=""):
    parts = list(parts)
    return Both(between.join(part.ours for part in parts), between.join(part.nodes for part in parts))


class Pattern:
    """A pattern of given letters under given flags. References are drawn as numbers without bound, since the groups are counted only when all are there."""

    def __init__(self, source, letters, flags):
        self.source, self.letters, self.flags = source, letters, flags
        self.groups = []
        self.is_past_node = False
        self.size = source.choice([2, 3, 4, 4, 6, 6, 8, 10])
        self.tree = self.disjunction(0)

    def letter(self):
        return self.source.choice([it for it in self.letters if not it.isdigit()])

    def terms(self, depth):
        """Some terms, fewer in groups. Each takes away from the size that is left."""
        if not depth and self.source.random() < 0.4:
            return self.source.choice(SHAPES)(self) + [self.term(0)]
        count = self.source.choice([0, 1, 1, 1, 2, 2, 3] if depth else [1, 2, 2, 3, 3, 4, 5])
        return [self.term(depth) for _ in range(count)]

    def disjunction(self, depth):
        return [self.terms(depth) for _ in range(self.source.choice([1, 1, 1, 2, 2, 3] if self.size > 0 else [1]))]

    def term(self, depth):
        self.size -= 1
        atom = self.group(depth) if self.size > 0 and depth < 4 and self.source.random() < 0.45 else self.leaf()
        is_assertion = atom[0] in ("boundary", "behind") or atom[0] == "ahead" and self.flags[-1:] in ("u", "v")
        if is_assertion or self.source.random() < 0.6:
            return atom
        return "repeat", atom, self.source.choice(QUANTIFIERS) + self.source.choice(["", "", "?"])

    def leaf(self):
        pick = self.source.random()
        if pick < 0.5:
            return "letter", self.letter()
        if pick < 0.58:
            return "set", self.source.choice([r"\d", r"\D", r"\w", r"\W", r"\s", r"\S"])
        if pick < 0.66:
            return "set", self.some_class(0)
        if pick < 0.73:
            return "setting", "."
        if pick < 0.87:
            return self.source.choice(["reference", "reference", "named"]), self.source.randrange(720720)
        boundary = self.source.choice(["^", "$", r"\b", r"\B"] + list(BUFFER_BOUNDARIES))
        self.is_past_node |= boundary in BUFFER_BOUNDARIES
        return "boundary", boundary

    def class_letter(self):
        letter = self.letter()
        return "\\" + letter if letter in CLASS_SYNTAX else spelled(letter)

    def class_item(self, depth):
        pick = self.source.random()
        if pick < 0.2:
            return self.source.choice([r"\d", r"\D", r"\w", r"\W", r"\s", r"\S"])
        if pick < 0.4:
            return self.source.choice(["a-z", "0-9", r"\0-z", "b-b"])
        if pick < 0.5 and self.flags.endswith("v") and depth < 2:
            return self.some_class(depth + 1)
        return self.class_letter()

    def some_class(self, depth):
        between = self.source.choice(["", "", "&&", "--"]) if self.flags.endswith("v") else ""
        items = [self.class_item(depth) for _ in range(self.source.choice([0, 1, 2, 2, 3]))]
        if between:
            items = [f"[{item}]" if item[1:2] == "-" or item.startswith(r"\0-") else item for item in items]
        return "[" + self.source.choice(["", "", "^"]) + between.join(items) + "]"

    def group(self, depth):
        pick = self.source.random()
        if pick < 0.45:
            return self.capturing(depth, self.source.random() < 0.2)
        if pick < 0.6:
            return "group", "(?:", self.disjunction(depth + 1)
        if pick < 0.7:
            self.is_past_node = True
            return "modified", self.source.choice(MODIFIERS), self.disjunction(depth + 1)
        if pick < 0.77:
            name = f"n{len(self.groups)}"
            return "group", "(?:", [[self.named(name, depth)], [self.named(name, depth)]]
        if pick < 0.89:
            return "ahead", self.source.choice(LOOKAHEADS), self.disjunction(depth + 1)
        return "behind", self.source.choice(LOOKBEHINDS), self.disjunction(depth + 1)

    def capturing(self, depth, has_name):
        return self.named(f"n{len(self.groups)}" if has_name else None, depth)

    def named(self, name, depth):
        self.groups.append(name)
        return "capturing", name, self.disjunction(depth + 1)

    def piece(self):
        return ("letter", self.letter()) if self.source.random() < 0.75 else ("setting", ".")

    def some_pieces(self):
        return [self.piece() for _ in range(self.source.choice([1, 1, 1, 2, 2, 3]))]

    def captured(self, alternatives, name=None):
        """A group of these alternatives, in which no other group opens, and its number less 1."""
        self.groups.append(name)
        return ("capturing", name, alternatives), len(self.groups) - 1

    def groups_in_turns(self):
        """Turns of which each sets another group."""
        (first, number), (second, _) = self.captured([self.some_pieces()]), self.captured([self.some_pieces()])
        turn = "group", "(?:", [[first], [second], [self.piece(), ("reference", number)]]
        return [("repeat", turn, self.source.choice(["*", "+", "{2}", "{2,3}", "*?", "+?"]))]

    def first_outcome(self):
        """A look-around that could have several outcomes, and what tells them apart."""
        lengths = self.source.sample([1, 2, 3, 4], 3)
        group, number = self.captured([[("setting", ".")] * length for length in lengths])
        return [(*self.source.choice([("ahead", "(?="), ("behind", "(?<=")]), [[group]]), ("reference", number), self.piece()]

    def same_before(self):
        """A reference in a lookbehind, on either side of its group."""
        group, number = self.captured([self.some_pieces(), self.some_pieces()])
        terms = [group, ("reference", number)]
        self.source.shuffle(terms)
        return [("behind", self.source.choice(LOOKBEHINDS), [terms])]

    def one_name(self):
        """A reference by a name that two groups have."""
        name = f"n{len(self.groups)}"
        (first, _), (second, _) = self.captured([self.some_pieces()], name), self.captured([self.some_pieces()], name)
        return [("group", "(?:", [[first], [second]]), ("repeat", self.piece(), self.source.choice(["?", "*?", "{0}"])), ("named", name)]

    def in_modifiers(self):
        """What the flags `m` and `s` say, under modifiers."""
        self.is_past_node = True
        terms = [("boundary", "^"), self.piece(), ("setting", "."), ("boundary", "$")][self.source.choice([0, 1]):self.source.choice([2, 3, 4])]
        inner = "modified", self.source.choice(MODIFIERS), [terms]
        return [("modified", self.source.choice(MODIFIERS), [[inner, self.piece()]])] if self.source.random() < 0.5 else [inner]


# What single terms seldom come to.
SHAPES = [Pattern.groups_in_turns, Pattern.first_outcome, Pattern.same_before, Pattern.one_name, Pattern.in_modifiers]


def spelled(letter):
    """A letter in a pattern, outside classes and in them."""
    numbers = {"\n": r"\n", "\r": r"\r", "\u2028": r"\u2028", "\u2029": r"\u2029"}
    return numbers.get(letter) or ("\\" + letter if letter in SYNTAX else letter)


class Speller:
    """Spells a pattern for the program and for node. Where it has modifiers or buffer boundaries, node gets neither them nor the flags `m` and `s`."""

    def __init__(self, pattern):
        self.groups, self.flags, self.is_plain = pattern.groups, pattern.flags, pattern.is_past_node
        self.nodes_flags = re.sub("[ms]", "", self.flags) if self.is_plain else self.flags
        self.names = sorted({name for name in self.groups if name})
        self.text = self.disjunction(pattern.tree, {it: it in self.flags for it in "ms"})

    def disjunction(self, alternatives, settings):
        return joined((joined(self.term(term, settings) for term in terms) for terms in alternatives), "|")

    def term(self, term, settings):
        kind, first = term[:2]
        if kind == "repeat":
            return self.repeated(self.term(first, settings), term[2])
        if kind == "letter":
            return both(spelled(first))
        if kind == "set":
            is_asked_plainly = first.startswith("[^") and self.flags.endswith("v")
            return Both(first, rf"(?:(?![{first[2:]})[\s\S])" if is_asked_plainly else first)
        if kind in ("setting", "boundary"):
            return self.by_setting(first, settings)
        if kind in ("reference", "named"):
            return self.reference(kind, first)
        return self.group(kind, first, term[2], settings)

    def repeated(self, atom, quantifier):
        """Without `u` and `v` a character past FFFF is two units, of which the last is repeated by both."""
        return Both(atom.ours + quantifier, atom.nodes + quantifier)

    def by_setting(self, text, settings):
        """A boundary or a dot."""
        if text in BUFFER_BOUNDARIES:
            return Both(text, BUFFER_BOUNDARIES[text] if self.flags[-1:] in ("u", "v") else text)
        is_set = self.is_plain and settings.get(SETTING_OF.get(text), False)
        return Both(text, BY_SETTING[text] if is_set else text)

    def reference(self, kind, number):
        if not self.groups or kind == "named" and not self.names:
            return both("a")
        if kind == "reference":
            return both(f"\\{number % len(self.groups) + 1}")
        name = number if isinstance(number, str) else self.names[number % len(self.names)]
        numbers = [at + 1 for at, it in enumerate(self.groups) if it == name]
        return Both(f"\\k<{name}>", "(?:" + "".join(f"\\{it}" for it in numbers) + ")")

    def group(self, kind, first, alternatives, settings):
        if kind == "modified":
            on, _, off = first.partition("-")
            settings = {it: it in on or settings[it] and it not in off for it in "ms"}
            opener = Both(f"(?{first}:", "(?:")
        elif kind == "capturing":
            opener = Both(f"(?<{first}>" if first else "(", "(")
        else:
            opener = both(first)
        return joined([opener, self.disjunction(alternatives, settings), both(")")])


def some_text(source, letters):
    length = source.randint(0, LIMIT)
    if source.random() < 0.3:
        return (source.choice(letters) * source.randint(1, 6) + source.choice(letters)) * source.choice([1, 1, 2])
    return "".join(source.choice(letters) for _ in range(length))
