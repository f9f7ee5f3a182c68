"""What memory.py and refused_calls.py share: how a program is run that is refused some of its calls for memory, how that is told, and how what is told is compared with
what docs/PROVED.md says."""
import argparse
import contextlib
import fcntl
import os
import shutil
import signal
import subprocess
import sys
import tempfile

TOP = os.path.dirname(os.path.dirname(os.path.realpath(__file__)))
SECONDS = 300
DOCUMENT = "docs/PROVED.md"
# how much a pipe may hold, and so how many reads
ROOM = 1 << 18


def words_of(document, proved):
    """The words of such a script. Where there is no `cc` it ends here, with status 0."""
    words = argparse.ArgumentParser(description=document, formatter_class=argparse.RawDescriptionHelpFormatter)
    words.add_argument("--brief", action="store_true")
    words.add_argument("program", nargs="?", default=proved, type=os.path.abspath)
    given = words.parse_args()
    name = words.prog.removesuffix(".py")
    if not os.access(given.program, os.X_OK):
        sys.exit(f"{name}: {given.program} is not built: run rt ci")
    if not shutil.which("cc"):
        print(f"{name}: NOT CHECKED: there is no C compiler, cc")
        sys.exit()
    signal.signal(signal.SIGALRM, lambda *_: sys.exit(f"{name}: this had not ended after {SECONDS} seconds"))
    signal.alarm(SECONDS)
    return given


@contextlib.contextmanager
def library():
    """The library of bench/refuse.c, as long as it is needed."""
    with tempfile.TemporaryDirectory() as folder:
        made = f"{folder}/refuse.so"
        subprocess.run(["cc", "-O1", "-shared", "-fPIC", "-o", made, f"{TOP}/bench/refuse.c", "-ldl"], check=True)
        yield made


def refusing(loaded, log, first, last):
    """The environment in which a program is refused the calls from first to last, and `log` gets a letter for each call."""
    return {"LD_PRELOAD": loaded, "REFUSE_FIRST": str(first), "REFUSE_LAST": str(last), "REFUSE_LOG": str(log)}


def wide_pipe(flags=0):
    """The two ends of a pipe that holds much."""
    ends = os.pipe2(os.O_CLOEXEC | flags)
    fcntl.fcntl(ends[1], fcntl.F_SETPIPE_SZ, ROOM)
    return ends


def input_of(pieces):
    """The end of a pipe that holds these pieces, each of which is one read."""
    source, sink = wide_pipe(os.O_DIRECT)
    for piece in pieces:
        os.write(sink, piece)
    os.close(sink)
    return source


def cell(text):
    """A text as a cell of a table, its beginning where it is long. A grave accent in it asks for two around it."""
    if not text:
        return "none"
    text = text if len(text) <= 60 else text[:20] + "..."
    quoted = f"`` {text} ``" if "`" in text else f"`{text}`"
    return quoted.replace("|", "\\|")


def compare(script, differences):
    """Runs a script of this folder with the arguments of this program, and passes on what it writes but for the rows of its table. `differences` says how these
    differ from what docs/PROVED.md tells, by both texts. The status is that of the script where it failed or wrote no table, else 1 where there is a difference."""
    ran = subprocess.run([f"{TOP}/bench/{script}.py", *sys.argv[1:]], stdout=subprocess.PIPE, text=True)
    lines = ran.stdout.splitlines()
    print("\n".join(line for line in lines if not line.startswith("|")))
    if ran.returncode or not any(line.startswith("|") for line in lines):
        return ran.returncode
    with open(f"{TOP}/{DOCUMENT}", encoding="utf-8") as file:
        found = differences(ran.stdout, file.read())
    for line in found:
        print(f"{script}: {DOCUMENT}: {line}")
    return 1 if found else 0
