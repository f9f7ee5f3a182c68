#!/usr/bin/env python3
"""Asks one program many times: for the groups of a pattern, and why another is refused. An argument is the program to ask in place of ./regexp."""
import json
import subprocess
import sys
import unicodedata

WORDS = [sys.argv[1] if len(sys.argv) > 1 else "./regexp", "json"]
PROGRAM = subprocess.Popen(WORDS, stdin=subprocess.PIPE, stdout=subprocess.PIPE, encoding="utf-8")


def ask(pattern, flags):
    print(json.dumps({"pattern": pattern, "flags": flags}), file=PROGRAM.stdin, flush=True)
    return json.loads(PROGRAM.stdout.readline())


def width(text):
    """How many columns a terminal needs."""
    return sum(2 if unicodedata.east_asian_width(c) in "WF" else 1 for c in text)


def show(pattern, flags):
    reply, text = ask(pattern, flags), pattern.encode()  # places in bytes
    for group in reply.get("groups", []):
        span = text[group["start"] : group["end"]].decode()
        print(f"group {group['number']}, {group['name'] or 'no name'}, {group['start']}..{group['end']}: {span}")
    if reply["status"] == "refused" and reply["field"] == "pattern":
        before = text[: reply["spans"][0]["start"]].decode()
        print(pattern, " " * width(before) + "^ " + reply["message"], reply["help"] or "", sep="\n")


show("😀(?<year>\\d{4})-(\\d\\d)", "u")
show("😀(?P<year>\\d{4})", "u")
PROGRAM.stdin.close()
sys.exit(PROGRAM.wait() > 1)
