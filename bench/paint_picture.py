#!/usr/bin/env python3
"""Makes docs/paint.svg: some patterns in the colours in which `paint color` shows them, on dark and on light ground.

    bench/paint_picture.py [--program P] [--output FILE]

P is ./regexp, and FILE docs/paint.svg, where they are not given. Each reply of the program is taken apart at its escapes, so the picture shows what the program writes.
"""
import argparse
import html
import os
import re
import subprocess

HERE = os.path.dirname(os.path.dirname(os.path.abspath(__file__)))

PATTERNS = [
    ("u", r"(?<year>\d{4})-(?<month>0[1-9]|1[0-2])"),
    ("u", r"^\s*(?:[\w.+-]+)@([a-z0-9-]+\.)+[a-z]{2,}$"),
    ("u", r"(?i-m:\bcolou?r\b)(?=:)|(?<!\\)\x23"),
    ("v", r"[\p{L}--[\q{ab|c}A-Z]]*?|[\d&&[^0]]"),
    ("u", r"""(["'])(?<text>.*?)\1\k<text>"""),
]

TOKEN = re.compile(r"\x1b\[([0-9;]*)m([^\x1b]*)\x1b\[0m")
WIDTH = 8.43
HEIGHT = 24
GROUNDS = [("#1e1e1e", "#d4d4d4"), ("#ffffff", "#24292f")]


def color_of(how, text_color):
    """The colour, and whether it is bold, of the parameters of an escape."""
    parts = how.split(";")
    bold = parts[0] == "1"
    if bold:
        parts = parts[1:]
    if parts == ["39"]:
        return text_color, bold
    number = int(parts[2])
    if number >= 232:
        value = 8 + 10 * (number - 232)
        return f"#{value:02x}{value:02x}{value:02x}", bold
    levels = [0, 95, 135, 175, 215, 255]
    number -= 16
    red, green, blue = levels[number // 36], levels[number // 6 % 6], levels[number % 6]
    return f"#{red:02x}{green:02x}{blue:02x}", bold


def line(reply, row, text_color):
    spans = []
    for how, text in TOKEN.findall(reply):
        color, bold = color_of(how, text_color)
        weight = ' font-weight="bold"' if bold else ""
        spans.append(f'<tspan fill="{color}"{weight}>{html.escape(text, quote=False)}</tspan>')
    return f'<text x="16" y="{row}" xml:space="preserve">{"".join(spans)}</text>'


def main():
    words = argparse.ArgumentParser()
    words.add_argument("--program", default=f"{HERE}/regexp")
    words.add_argument("--output", default=f"{HERE}/docs/paint.svg")
    given = words.parse_args()
    asked = "".join(f"L\t{flags}\t{pattern}\n" for flags, pattern in PATTERNS)
    run = subprocess.run([given.program, "paint", "color"], input=asked, stdout=subprocess.PIPE, text=True, check=True)
    replies = run.stdout.splitlines()
    if len(replies) != len(PATTERNS) or not all(reply.startswith("ok\t") for reply in replies):
        raise SystemExit("a pattern is refused")
    wide = max(len(pattern) for _, pattern in PATTERNS) * WIDTH + 32
    high = HEIGHT * len(PATTERNS) + 16
    picture = [f'<svg xmlns="http://www.w3.org/2000/svg" width="{wide:.0f}" height="{high * len(GROUNDS)}" font-family="monospace" font-size="14">']
    for ground, (back, text_color) in enumerate(GROUNDS):
        picture.append(f'<rect y="{ground * high}" width="100%" height="{high}" fill="{back}"/>')
        for row, reply in enumerate(replies):
            picture.append(line(reply[3:], ground * high + HEIGHT * (row + 1), text_color))
    picture.append("</svg>\n")
    with open(given.output, "w", encoding="utf-8") as file:
        file.write("\n".join(picture))


if __name__ == "__main__":
    main()
