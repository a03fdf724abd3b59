"""What the tools behind the launcher `user` share: where things are, what is said to people, and commands that an interrupt ends."""
import ctypes
import os
import pathlib
import signal
import subprocess
import sys
import time

TOP = pathlib.Path(__file__).resolve().parent.parent
CRATES = TOP / "crates"
PROGRAM = CRATES / "user/out/user"
INTERRUPTS = (signal.SIGINT, signal.SIGTERM, signal.SIGHUP, signal.SIGQUIT)
# How long a command has to end once it was asked to, in seconds.
PATIENCE = 10
PAUSE = 0.05
# What makes a process the parent of all below it whose own parent ends (Linux, prctl).
SET_CHILD_SUBREAPER = 36


def say(line):
    """Says a line to people, on standard error."""
    try:
        print(line, file=sys.stderr, flush=True)
    except OSError:
        # nobody listens any more
        pass


def tell(text):
    """Says a line to people in the name of the launcher."""
    say(f"user: {text}")


def asks_for_help(document):
    """Whether the one word of the command is --help or -h; then the docstring is printed."""
    if sys.argv[1:] not in (["--help"], ["-h"]):
        return False
    print(document.strip())
    return True


class Interrupts:
    """The first signal that asked this process to end. It is noted alone, so that no command is begun or forgotten half-way. What commands leave behind becomes this process's own, so that it can be ended."""

    def __init__(self):
        self.number = None
        ctypes.CDLL(None).prctl(SET_CHILD_SUBREAPER, 1, 0, 0, 0)
        for number in INTERRUPTS:
            if signal.getsignal(number) is not signal.SIG_IGN:
                signal.signal(number, self.note)

    def note(self, number, frame):
        self.number = self.number or number

    def end(self):
        """Ends what is left below this process, and then itself by that signal, as it would have ended without the note."""
        end_below()
        signal.signal(self.number, signal.SIG_DFL)
        os.kill(os.getpid(), self.number)


def parent_of(pid):
    """The parent of a process; None where there is none, or it has ended."""
    try:
        fields = pathlib.Path(f"/proc/{pid}/stat").read_text().rsplit(")", 1)[1].split()
    except OSError:
        return None
    return None if fields[0] in "ZX" else int(fields[1])


def family(pid):
    """The processes that one has begun, directly or by others, and that haven't ended."""
    parents = {int(it.name): parent_of(it.name) for it in pathlib.Path("/proc").iterdir() if it.name.isdigit()}
    found, above = set(), {pid}
    while above:
        above = {it for it, parent in parents.items() if parent in above and it not in found}
        found |= above
    return found


def signal_group(process, number):
    """Signals a command and all of its session."""
    try:
        os.killpg(process.pid, number)
    except ProcessLookupError:
        pass


def stop(process):
    """Asks a command to end, and waits for it and for its session."""
    if process.poll() is None:
        process.terminate()
        try:
            process.wait(PATIENCE)
        except subprocess.TimeoutExpired:
            pass
    signal_group(process, signal.SIGKILL)
    process.wait()


def end_below():
    """Ends all processes below this one, and waits until they are gone."""
    limit = time.monotonic() + PATIENCE
    while time.monotonic() < limit:
        left = family(os.getpid())
        if not left:
            return
        for pid in left:
            kill(pid)
        time.sleep(PAUSE)


def kill(pid):
    try:
        os.kill(pid, signal.SIGKILL)
    except ProcessLookupError:
        pass


def run(words, interrupts, watch=None, **how):
    """Runs a command in a session of its own, to its end or until an interrupt, and gives its status. `watch` is called while it runs. Its session has ended by then."""
    if interrupts.number is not None:
        return None
    process = subprocess.Popen(words, start_new_session=True, **how)
    try:
        while process.poll() is None and interrupts.number is None:
            if watch:
                watch()
            time.sleep(PAUSE)
    finally:
        stop(process)
    return process.returncode
