#!/usr/bin/env python3
"""Measures `match` beside node's engine: 12 patterns such as code has, each searched for in 1 MB of text.

    bench/match.py [--seed S] [--program P]

P is crates/rx_cli/out/rx_cli where it is not given; `./regexp </dev/null` builds it. The program takes its text as a word, and a word holds at most 128 KiB on Linux. So the text
has SIZE bytes, and the pattern stands on TIMES lines of the input: together 1 MB. What the same lines take in the empty text is taken off. Node runs its engine as often, after a
run that does not count. Of each the fastest of three runs counts. The texts are made from the seed S: of lines that nearly match, and last one that does, so that a search goes over
all of it; that both find this match is checked. Ticks are those of the whole MB, by `steps`. Times depend on the machine.
"""
import random
import subprocess
import sys

sys.dont_write_bytecode = True
import engine
from flat_patterns import HERE, seconds

SIZE = 100_000
TIMES = 10
BUDGET = "9999999999"
MOST = "9999999999999999999"

NODE = r"""
const { pattern, flags, text, times } = JSON.parse(require("fs").readFileSync(0, "utf8"));
const tried = new RegExp(pattern, flags);
let found = null;
const run = () => {
    const began = process.hrtime.bigint();
    for (let time = 0; time < times; time++) found = tried.exec(text);
    return Number(process.hrtime.bigint() - began) / 1e9;
};
run();
const took = Math.min(run(), run(), run());
console.log(JSON.stringify({ took, found: found && [found.index, found.index + found[0].length] }));
"""

WORDS = "lorem ipsum dolor sit amet consectetur adipiscing elit sed do eiusmod tempor incididunt ut labore et dolore magna aliqua".split()
LEVELS = ["DEBUG", "INFO", "NOTICE", "TRACE", "ERRNO", "CRITIC"]
TAGS = ["div", "span", "p", "em", "li", "section"]


def words(source, count):
    return " ".join(source.choice(WORDS) for _ in range(count))


def number(source, digits):
    return str(source.randrange(10 ** (digits - 1), 10 ** digits))


def time_of(source):
    return f"2024-{source.randint(1, 12):02}-{source.randint(1, 28):02}T{source.randint(0, 23):02}:{source.randint(0, 59):02}:{source.randint(0, 59):02}"


def mail_line(source):
    return f"{words(source, 6)} {source.choice(WORDS)}.{source.choice(WORDS)} at example.org, {words(source, 2)}@ {words(source, 2)}"


def url_line(source):
    return f"{words(source, 5)} http:/{source.choice(WORDS)} https {words(source, 3)} www.example.org/{source.choice(WORDS)}"


def date_line(source):
    return f"{number(source, 4)} {number(source, 5)}-{number(source, 2)}x {number(source, 4)}.{number(source, 2)} {words(source, 4)} {number(source, 4)}-{number(source, 3)}"


def stamp_line(source):
    return f"{time_of(source)} {source.choice(LEVELS)} {words(source, 7)}"


def quote_line(source):
    return f"{source.choice(WORDS)} = {words(source, 3)}; say(\"{words(source, 5)}"


def either_line(source):
    return f"{source.choice(WORDS)}('{words(source, 3)} \"{words(source, 3)}"


def tag_line(source):
    opened, closed = source.sample(TAGS, 2)
    return f"<{opened} class=\"{source.choice(WORDS)}\">{words(source, 4)}</{closed}>"


def code_line(source):
    return f"{source.choice(WORDS)} = {number(source, 3)} * {source.choice(WORDS)} / {number(source, 2)}; // {words(source, 4)}"


def amount_line(source):
    return f"{words(source, 4)} {number(source, 3)} {source.choice(WORDS)} {number(source, 2)}, {number(source, 1)} {words(source, 2)}"


def price_line(source):
    return f"{words(source, 3)} {number(source, 4)}.{number(source, 2)} EUR {words(source, 2)} $ {number(source, 2)} {words(source, 2)}"


def row_line(source):
    return f"{number(source, 5)},\"{words(source, 3)}\",{source.choice(WORDS)},\"{words(source, 1)}, {words(source, 1)}\",{number(source, 2)}"


# Each pattern with its flags, what makes a line that nearly matches, and the last line, which matches.
PATTERNS = {
    "e-mail": (r"[\w.+-]+@[\w-]+\.[\w.-]+", "", mail_line, "info.desk@example.org"),
    "URL": (r"https?:\/\/[^\s\/?#]+[^\s?#]*(?:\?[^\s#]*)?", "", url_line, "https://example.org/a/b?c=d"),
    "date": (r"(?:^|\D)(\d{4})[-/](\d{1,2})(?!\d)", "", date_line, "on 2024-11 "),
    "time stamp": (r"\d{4,}-[01]\d-[0-3]\dT[0-2]\d:[0-5]\d:[0-5]\d\.\d+(?:[+-][0-2]\d:[0-5]\d|Z)", "", stamp_line, "2024-11-28T20:40:00.125Z"),
    "level of a log": (r"\b(?:ALERT|CRIT|CRITICAL|EMERG|EMERGENCY|ERR|ERROR|FAILURE|FATAL|SEVERE)\b", "", stamp_line, "2024-11-28T20:40:00 ERROR"),
    "string": (r'"(?:\\.|[^\n\r"\\])*"', "", quote_line, 'say("lorem \\"ipsum\\" dolor")'),
    "string in either quotes": (r"""(["'])(?:(?!\1)[^\\\r\n]|\\.)*\1""", "", either_line, "say('lorem \\' ipsum')"),
    "HTML element": (r"<([a-z]\w*)\b[^>]*>([^<]*)<\/\1>", "", tag_line, '<div class="a">lorem</div>'),
    "comment": (r"\/\*[\s\S]*?\*\/", "", code_line, "lorem */"),
    "digits in threes": (r"(\d)(?=(?:\d{3})+(?!\d))", "", amount_line, "1234567"),
    "price": (r"(?<=\$)\d+(?:\.\d\d)?", "u", price_line, "$12.50"),
    "row of CSV": (r'^(?:"(?:[^"]|"")*"|[^",\n]*)(?:,(?:"(?:[^"]|"")*"|[^",\n]*)){5}$', "m", row_line, '1,"a ""b"" c",d,"e, f",5,6'),
}


def text_of(source, line, last):
    """Lines, of which the last one is given, with SIZE bytes at most. A comment opens with the first line."""
    lines, size = ["/* lorem"] if line is code_line else [], len(last)
    while size < SIZE - 200:
        lines.append(line(source))
        size += len(lines[-1]) + 1
    return "\n".join([*lines, last])


def reply(program, words, line):
    ran = subprocess.run([program, *words], input=line, stdout=subprocess.PIPE, text=True)
    return ran.stdout.rstrip("\n").split("\t")


def is_last(span, line, text):
    """Whether a match ends in the last line, and begins there too, but for a comment."""
    last = text.rindex("\n")
    return span[1] > last and (span[0] >= last or line is code_line)


def measure(program, name, text):
    """Compares both on a text: the Ticks, and the seconds of each."""
    pattern, flags, line, _ = PATTERNS[name]
    asked = f"L\t{flags}\t{pattern}\n"
    node = engine.ask_node(NODE, {"pattern": pattern, "flags": flags, "text": text, "times": TIMES})
    found = reply(program, ["match", BUDGET, text], asked)
    if node["found"] is None or found[:2] != ["ok", "{}..{}".format(*node["found"])] or not is_last(node["found"], line, text):
        sys.exit(f"{name}: the reply is {found}, node finds {node['found']}")
    ticks = int(reply(program, ["steps", text, MOST], asked)[1]) * TIMES
    lines = asked.encode() * TIMES
    took, nothing = (seconds(program, lines, ("match", BUDGET, it))[0] for it in (text, ""))
    return ticks, took - nothing, node["took"]


def main():
    words_of_script = engine.words_of(__doc__)
    words_of_script.set_defaults(program=f"{HERE}/../crates/rx_cli/out/rx_cli")
    given = words_of_script.parse_args()
    source = random.Random(given.seed)
    print(f"{'pattern':<24}{'Ticks':>14}{'program':>12}{'node':>12}{'ratio':>9}{'a Tick':>10}")
    for name, (_, _, line, last) in PATTERNS.items():
        ticks, ours, nodes = measure(given.program, name, text_of(source, line, last))
        print(f"{name:<24}{ticks:>14,}{ours * 1e3:>9.1f} ms{nodes * 1e3:>9.1f} ms{ours / nodes:>9.1f}{ours / ticks * 1e9:>7.1f} ns", flush=True)


if __name__ == "__main__":
    main()
