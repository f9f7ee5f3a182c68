"""What the checks of documents share: which documents there are, what of them is code, which files there are, and how a check ends."""
import os
import re
import subprocess
import sys

TOP = os.path.dirname(os.path.dirname(os.path.abspath(__file__)))
CODE = re.compile(r"``.*?``|`([^`\n]+)`")
FENCED = re.compile(r"^```.*?^```", re.DOTALL | re.MULTILINE)


def text_of(path):
    with open(path, encoding="utf-8") as file:
        return file.read()


def documents():
    """The documents whose code is that of now, by their paths."""
    return ["README.md", "CONTRIBUTING.md"] + sorted(f"docs/{name}" for name in os.listdir("docs") if name.endswith(".md"))


def lines_of(document):
    """The lines of a document with their numbers; those of fenced blocks are empty."""
    text = FENCED.sub(lambda block: "\n" * block[0].count("\n"), text_of(document))
    return enumerate(text.split("\n"), 1)


def code_in(line):
    """The pieces of code in a line."""
    return [found[1] for found in CODE.finditer(line) if found[1]]


def files(*paths):
    """The files of the repository, new ones too, all or those that some paths name."""
    listed = subprocess.run(["git", "ls-files", "--cached", "--others", "--exclude-standard", "--", *paths], stdout=subprocess.PIPE, text=True, check=True)
    return [path for path in listed.stdout.splitlines() if os.path.exists(path)]


def tell(check, counted, wrong, is_nothing=False):
    """Tells what is wrong and what was counted, and gives the status. Where nothing was found to check, that is wrong too."""
    for line in wrong:
        print(f"{check}: {line}")
    print(f"{check}: {counted}, {len(wrong)} wrong")
    return 1 if wrong or is_nothing else 0


def run(main, *arguments):
    """Runs a check at the top of the repository, and ends with its status."""
    os.chdir(TOP)
    sys.exit(main(*arguments))
