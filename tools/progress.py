"""What `./regexp` tells people while a program is made for it, on standard error: on a terminal in one line that moves, elsewhere in a line for each step. And how it runs
the commands that make the program, so that none of them outlives this process.
"""
import contextlib
import os
import signal
import subprocess
import sys
import time

TICK = 0.2
SHOWN_EACH = 1
PATIENCE = 5
SIGNALS = (signal.SIGINT, signal.SIGTERM, signal.SIGHUP)


class Interrupted(Exception):
    """A signal that ends this process, with its number."""


class Failed(Exception):
    """What is said to people where no program was made."""


class Line:
    """Standard error, with the line that moves at its end where it is a terminal."""

    def __init__(self):
        self.is_terminal = sys.stderr.isatty()
        self.length, self.moved = 0, 0

    def write(self, text):
        # Whoever reads the progress may stop; the work goes on.
        with contextlib.suppress(OSError):
            sys.stderr.write(text)
            sys.stderr.flush()

    def width(self):
        try:
            return os.get_terminal_size(sys.stderr.fileno()).columns or 80
        except OSError:
            return 80

    def move(self, text):
        """Shows the text in the line that moves, on a terminal alone and once a second at most."""
        if not self.is_terminal or time.monotonic() - self.moved < SHOWN_EACH:
            return
        most = self.width() - 1
        text = f"regexp: {text}"[:most]
        self.write("\r" + text + " " * (min(self.length, most) - len(text)))
        self.length, self.moved = len(text), time.monotonic()

    def erase(self):
        if self.length:
            self.write("\r" + " " * min(self.length, self.width() - 1) + "\r")
        self.length, self.moved = 0, 0

    def say(self, text):
        self.erase()
        self.write(f"regexp: {text}\n")


def gone(seconds):
    return f"{int(seconds) // 60}:{int(seconds) % 60:02d} min gone"


def end(process):
    """Ends a command that still runs. `rt` ends what it started itself."""
    if process.poll() is None:
        process.terminate()
        with contextlib.suppress(subprocess.TimeoutExpired):
            process.wait(PATIENCE)
    if process.poll() is None:
        process.kill()
        process.wait()


def run(words, folder, log, each, **others):
    """Runs a command in a folder, with its output into the log, and returns its status. Until it has ended, `each` is called, with the seconds gone; where that returns
    True, the command is ended, and there is no status. It has ended, too, once this is left by an exception.
    """
    parent, began = os.getppid(), time.monotonic()
    try:
        process = subprocess.Popen(words, cwd=folder, **{"stdin": subprocess.DEVNULL, "stdout": log, "stderr": log, **others})
    except OSError as error:
        raise Failed(f"{words[0]} does not start ({error.strerror}): README.md, Build it, says where it comes from") from error
    try:
        while True:
            with contextlib.suppress(subprocess.TimeoutExpired):
                return process.wait(TICK)
            if os.getppid() != parent:
                raise Interrupted(signal.SIGTERM)
            if each(time.monotonic() - began):
                return None
    finally:
        end(process)


def text_in(log):
    """What the log holds, from its start."""
    log.flush()
    with open(log.name, encoding="utf-8", errors="replace") as file:
        return file.read()


def interrupt(number, _frame):
    for it in SIGNALS:
        signal.signal(it, signal.SIG_IGN)
    raise Interrupted(number)


def make(work, interrupted="interrupted"):
    """Makes a program by `work`, which is given the line; returns the status of this process. A signal ends it, after what it started, and then
    `interrupted` is said."""
    for it in SIGNALS:
        if signal.getsignal(it) != signal.SIG_IGN:
            signal.signal(it, interrupt)
    line = Line()
    try:
        work(line)
        line.erase()
        return 0
    except (Failed, OSError) as failed:
        line.say(failed)
        return 1
    except Interrupted as signalled:
        line.say(interrupted)
        number = signalled.args[0]
        signal.signal(number, signal.SIG_DFL)
        os.kill(os.getpid(), number)
        return 128 + number
