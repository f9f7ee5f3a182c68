#!/usr/bin/env python3
"""Asks each row of the table of rx_replies as JSON, and compares the reply with those of the other commands: status, mode and spelling, or name and spans, with what
the program replies to the row without words, or with `strict` or `standard` where the row begins with it; and of a row without other words, with `display` or with
`support`, also with the row's own reply. Each place in UTF-16 is compared with the code units before it, and each reply with how JSON is written without blanks.

    bench/json_rows.py [PROGRAM]

Without PROGRAM the program of crates/rx_cli/out is asked.
"""
import collections
import itertools
import json
import os
import re
import subprocess
import sys

TOP = os.path.dirname(os.path.dirname(os.path.abspath(__file__)))
FORMS = {"L": "literal", "C": "constructor"}
DIALECTS = {"": {}, "strict": {"duplicateNames": False, "bufferBoundaries": False}, "standard": {"standardStrings": True}}
OF_FLAGS = {"sticky", "unicode", "dot_all", "match_indices", "unicode_sets"}
DEPTH = 100000

# A row of the table: how its line is read, and the other words.
Row = collections.namedtuple("Row", "form flags dialect words pattern reply")


def plain(text):
    return re.sub("«([0-9A-Fa-f]*)»", lambda m: chr(int(m[1], 16)) if m[1] else "", text)


def split_words(words):
    """The word for how lines are read, and the others."""
    first, _, others = words.partition(" ")
    return (first, others) if first in DIALECTS else ("", words)


def rows():
    """The rows of the table."""
    form, flags, words = "L", "u", ""
    with open(os.path.join(TOP, "crates/rx_replies/stdin"), encoding="utf-8", newline="\n") as table:
        for line in table:
            line = line.removesuffix("\n")
            key, _, value = line.partition(":")
            if line.startswith("# "):
                form, flags, words = "L", "u", ""
            elif "\t" in line:
                pattern, _, reply = line.partition("\t")
                yield Row(form, flags, *split_words(words), plain(pattern), plain(reply))
            elif key == "form":
                form = value.strip()
            elif key == "flags":
                flags = plain(value.strip())
            elif key == "words":
                words = value.strip()


def features(row):
    """The features that the row's words name."""
    word, _, names = row.words.partition(" ")
    return names.split(",") if word == "support" else []


def request(number, row):
    """The row as a request. Nobody wants features of a constructor."""
    want = ["spelling", "groups", "tree", "display"] + (features(row) if row.form == "L" else [])
    asked = {"id": number, "form": FORMS[row.form], "pattern": row.pattern, "want": want, **DIALECTS[row.dialect]}
    if row.flags:
        asked["flags"] = row.flags
    return asked


def refusal(reply):
    """The reply to what is refused, as it stands in a line that is no JSON."""
    return f"err\t{reply['name']}\t" + ",".join(f"{span['start']}..{span['end']}" for span in reply["spans"])


def usual(reply):
    """The reply of the default command."""
    return f"ok\t{reply['mode']}\t{reply['spelling']}" if reply["status"] == "ok" else refusal(reply)


def worded(row, reply):
    """The reply that the row is to have by this one, or None where JSON does not tell."""
    word = row.words.partition(" ")[0]
    if word == "support" and row.form == "C":
        return "bad"
    if word not in ("", "display", "support"):
        return None
    if reply["status"] != "ok" or not word:
        return usual(reply)
    if word == "display":
        return f"ok\t{reply['mode']}\t{len(reply['display'].encode())}\t{reply['display']}"
    needed = set(reply["unsupported"])
    return f"ok\t{int(bool(needed & OF_FLAGS))}\t{int(bool(needed - OF_FLAGS))}"


def places(reply):
    """All that has a place in a reply."""
    left = reply.get("spans", []) + reply.get("groups", []) + ([reply["tree"]] if "tree" in reply else [])
    while left:
        node = left.pop()
        yield node
        for value in node.values():
            if isinstance(value, dict):
                left.append(value)
            elif isinstance(value, list):
                left.extend(value)


def units(text):
    """How many code units stand before each byte, and before the end. Those of a character stand before all of its bytes but the first."""
    counts = [0]
    for c in text:
        counts += [counts[-1] + (2 if ord(c) > 0xFFFF else 1)] * len(c.encode())
    return counts


def are_placed(reply, text):
    """Whether each place in UTF-16 is the number of code units before it. Past the end each byte counts as one."""
    counts = units(text)
    last = len(counts) - 1
    at = lambda place: counts[place] if place <= last else counts[last] + place - last
    return all(node["start16"] == at(node["start"]) and node["end16"] == at(node["end"]) for node in places(reply))


def written(value):
    """A value without blanks."""
    return json.dumps(value, ensure_ascii=False, separators=(",", ":"))


def faults(number, row, line, default):
    """What is wrong with the line that a row is answered as JSON."""
    reply = json.loads(line)
    if reply["id"] != number or reply["status"] == "bad":
        return ["no reply to this row"]
    found = [] if usual(reply) == default else [f"the default command: {default}"]
    if worded(row, reply) not in (None, row.reply):
        found.append(f"the row: {row.reply}")
    if not are_placed(reply, row.flags if reply.get("field") == "flags" else row.pattern):
        found.append("other code units")
    return found if written(reply) == line else found + ["not written so"]


def ask(program, words, lines):
    """The replies to some lines."""
    done = subprocess.run([program, *words], input="".join(line + "\n" for line in lines).encode(), stdout=subprocess.PIPE, check=False)
    return done.stdout.decode().split("\n")[:-1]


def defaults(program, table):
    """What the program replies to each row as a line that is no JSON."""
    found = {}
    for dialect in DIALECTS:
        numbers = [number for number, row in enumerate(table) if row.dialect == dialect]
        lines = [f"{table[number].form}\t{table[number].flags}\t{table[number].pattern}" for number in numbers]
        found.update(zip(numbers, ask(program, dialect.split(), lines)))
    return [found.get(number) for number in range(len(table))]


def compare(program, see=lambda line: None):
    """How many rows there are, and what is wrong with them. Each reply is shown to `see`."""
    sys.setrecursionlimit(DEPTH)
    table = list(rows())
    replies = ask(program, ["json"], [json.dumps(request(number, row), ensure_ascii=False) for number, row in enumerate(table)])
    wrong = [] if len(replies) == len(table) else [f"{len(replies)} replies to {len(table)} rows"]
    for number, row, line, default in zip(itertools.count(), table, replies, defaults(program, table)):
        see(line)
        wrong += [f"{row.form} {row.flags} {row.pattern}: {line[:300]}: {fault}" for fault in faults(number, row, line, default)]
    return len(table), wrong


def main():
    program = sys.argv[1] if len(sys.argv) > 1 else os.path.join(TOP, "crates/rx_cli/out/rx_cli")
    count, wrong = compare(program)
    for line in wrong:
        print(f"json_rows: {line}")
    print(f"json_rows: {count} rows asked as JSON, {len(wrong)} wrong")
    return 1 if wrong else 0


if __name__ == "__main__":
    sys.exit(main())
