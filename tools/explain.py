#!/usr/bin/env python3
"""Explains a pattern to people: why it is refused, with a line under the place; or how it is read, with its groups and its tree.

    tools/explain.py PROGRAM PATTERN [FLAGS]

PATTERN is the text between the slashes of a literal, and FLAGS are the letters after them. It asks PROGRAM by the command `json` (docs/JSON.md). The status is 0 where the
pattern is read, 1 where it is refused, 2 where the words are wrong, and else that of the program.
"""
import json
import subprocess
import sys
import unicodedata

STAND_IN = "(?:)"
PREFIX = "Invalid regular expression: "
MARGIN = "  | "
TAB_STOP = 8
MOST_SHOWN = 100
BEFORE = 40
DEPTH = 10000
PLACE = ("start", "end", "start16", "end16")


def visible(c):
    """A character as it is shown: a TAB as it is, and no other that one would not see."""
    if c == "\t" or unicodedata.category(c) not in ("Cc", "Cf", "Cn", "Co", "Cs", "Zl", "Zp"):
        return c
    if ord(c) < 32:
        return chr(0x2400 + ord(c))
    return "\u2421" if c == "\x7f" else f"\\u{{{ord(c):X}}}"


def shown(text):
    return "".join(visible(c) for c in text)


def column_after(text, column):
    """The column of a terminal after this text, which begins at a column."""
    for c in text:
        if c == "\t":
            column += TAB_STOP - column % TAB_STOP
        elif unicodedata.category(c) not in ("Mn", "Me"):
            column += 2 if unicodedata.east_asian_width(c) in "WF" else 1
    return column


def window(text, first, last):
    """The part of a long text that is shown, with where these characters stand in it."""
    if len(text) <= MOST_SHOWN:
        return text, first, last
    begin = max(0, min(first - BEFORE, len(text) - MOST_SHOWN))
    end = begin + MOST_SHOWN
    front, back = "…" if begin else "", "…" if end < len(text) else ""
    moved = len(front) - begin
    return front + text[begin:end] + back, first + moved, min(last, end) + moved


def carets(text, first, last):
    """The columns of the characters of a text from first to before last, or the column of the first where there are none."""
    start = column_after(shown(text[:first]), len(MARGIN))
    end = column_after(shown(text[first:last]), start)
    return range(start, max(end, start + 1))


def underlined(text, places):
    """Two lines: a text, and carets under its characters at these places; or two lines for each place of a long text."""
    if len(text) > MOST_SHOWN and len(places) > 1:
        return [line for place in places for line in underlined(text, [place])]
    cuts = [window(text, *place) for place in places]
    columns = {column for cut in cuts for column in carets(*cut)}
    line = "".join("^" if column in columns else " " for column in range(len(MARGIN), max(columns) + 1))
    return [MARGIN + shown(cuts[0][0]), MARGIN + line]


def place_in(pattern, flags, field, span):
    """Where a span lies in the literal with its slashes, in characters. A place in bytes is one between characters."""
    before = 1 if field == "pattern" else len(pattern) + 2
    text = (pattern if field == "pattern" else flags).encode()
    return [before + len(text[: span[end]].decode()) for end in ("start", "end")]


def refused(pattern, flags, reply):
    """The lines that tell of a refusal."""
    yield f"error[{reply['name']}]: {shown(reply['message'].removeprefix(PREFIX))}"
    yield "  |"
    yield from underlined(f"/{pattern}/{flags}", [place_in(pattern, flags, reply["field"], span) for span in reply["spans"]])
    yield "  |"
    if reply["help"]:
        yield f"  = help: {reply['help']}"
    places = " and ".join(f"{span['start']}..{span['end']}" for span in reply["spans"])
    yield f"  = place: {places} of the {reply['field']}, in bytes"


def own_text(text, it):
    """The text of a node or a group, or its beginning where it is long."""
    own = text[it["start"] : it["end"]].decode()
    return shown(own if len(own) <= MOST_SHOWN else own[: MOST_SHOWN - 1] + "…")


def is_node(value):
    return isinstance(value, dict) and "type" in value


def children(node):
    """The nodes right in a node."""
    for value in node.values():
        yield from [value] if is_node(value) else value if isinstance(value, list) else []


def field_text(name, value):
    """A field of a node, as it is shown."""
    if name == "value" and isinstance(value, int):
        return f"U+{value:04X}"
    text = {None: "none", True: "yes", False: "no"}[value] if value is None or isinstance(value, bool) else value
    return text if name == "kind" else f"{name}={shown(str(text))}"


def node_text(node):
    own = [field_text(name, value) for name, value in node.items() if name not in PLACE and name != "type" and not is_node(value) and not isinstance(value, list)]
    return " ".join([node["type"], *own])


def tree_rows(tree, text):
    """The nodes in order, each indented, with its text."""
    left = [(0, tree)]
    while left:
        depth, node = left.pop()
        yield "  " * depth + node_text(node), own_text(text, node)
        left += [(depth + 1, child) for child in reversed(list(children(node)))]


def aligned(rows):
    """Rows of cells as lines, with two blanks between the columns."""
    rows = list(rows)
    widths = [max(column_after(cell, 0) for cell in column) for column in zip(*rows)]
    for row in rows:
        yield "".join(cell + " " * (width - column_after(cell, 0) + 2) for cell, width in zip(row, widths)).rstrip()


def read(pattern, flags, reply):
    """The lines that tell of a pattern that is read."""
    text = (pattern or STAND_IN).encode()
    yield from aligned([("mode", reply["mode"]), ("spelling", f"/{shown(reply['spelling'])}/{flags}")])
    if reply["groups"]:
        groups = [(str(it["number"]), shown(it["name"] or ""), f"{it['start']}..{it['end']}", own_text(text, it)) for it in reply["groups"]]
        yield from ["", *aligned([("group", "name", "bytes", "text"), *groups])]
    if "tree" in reply:
        yield from ["", *aligned([("tree", "text"), *tree_rows(reply["tree"], text)])]
    else:
        yield from ["", "The tree is too deep to be shown."]


def ask(program, pattern, flags, want):
    """The reply to a literal, as a line."""
    request = json.dumps({"pattern": pattern, "flags": flags, "want": want})
    done = subprocess.run([program, "json"], input=request.encode(), stdout=subprocess.PIPE, check=False)
    if done.returncode > 1:
        print(f"regexp: the program ended with status {done.returncode}", file=sys.stderr)
        sys.exit(done.returncode)
    return done.stdout


def answer(program, pattern, flags):
    """The reply to a literal, without its tree where this is too deep for the reader of JSON."""
    sys.setrecursionlimit(DEPTH)
    try:
        return json.loads(ask(program, pattern, flags, ["spelling", "groups", "tree"]))
    except RecursionError:
        return json.loads(ask(program, pattern, flags, ["spelling", "groups"]))


def is_text(word):
    """Whether a word is UTF-8."""
    return not any(0xD800 <= ord(c) <= 0xDFFF for c in word)


def main(program, pattern, flags=""):
    reply = answer(program, pattern, flags)
    is_read = reply["status"] == "ok"
    if reply["status"] == "bad":
        sys.exit(f"regexp: {reply['why']}")
    sys.stdout.reconfigure(encoding="utf-8")
    for line in (read if is_read else refused)(pattern, flags, reply):
        print(line)
    return 0 if is_read else 1


if __name__ == "__main__":
    if len(sys.argv) not in (3, 4) or not all(map(is_text, sys.argv[2:])):
        print("regexp: after \"explain\" stand PATTERN and, where there are flags, FLAGS, in UTF-8; see ./regexp help", file=sys.stderr)
        sys.exit(2)
    sys.exit(main(*sys.argv[1:]))
