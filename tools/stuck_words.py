"""Why a run is stuck, in words: for each thread that waits, what it waits for and why that can't come.

All of it is read from the log: the last call of each thread, the sends that have no answer, the posts that nobody has
taken and the windows. Nothing is run again. Entries are counted from 1, as in charts.
"""
from typing import NamedTuple

from run_story import Story

ALONE = str(2**64 - 1)


class Window(NamedTuple):
    """A window of the run: its title, its maker, whether it is a child, and the entry that took it away."""
    title: str
    maker: int
    is_child: bool
    gone: int = 0


class Stuck:
    """A run that ends as stuck, and what is told of it."""

    def __init__(self, run):
        self.story = Story(run)
        self.entries = run.entries
        self.waits = [line.split(" ")[1:] for line in run.ending if line.startswith("waits ")]
        self.calls = {int(words[0]): words[1:] for words in self.waits}
        self.last = {entry.who: entry for entry in run.entries}
        self.windows = self.windows_made()

    def windows_made(self):
        """All windows by their numbers, with what became of them."""
        windows = {}
        for entry in self.entries:
            call, answer = entry.call.split(" "), entry.answer.split(" ")
            if call[0] == "new_window" and answer[0] == "window":
                windows[answer[1]] = Window(call[2], entry.who, bool(int(call[4]) & 1 << 30))
            elif call[0] == "drop" and answer[0] == "ok" and call[1] in windows:
                windows[call[1]] = windows[call[1]]._replace(gone=entry.number)
            elif answer[0] == "ended":
                own = {number: it for number, it in windows.items() if it.maker == entry.who and not it.gone}
                windows.update({number: it._replace(gone=entry.number) for number, it in own.items()})
        return windows

    def lines(self):
        """What is said: a line for each thread that waits, and before them one for all."""
        ended = sorted(who for who, entry in self.last.items() if entry.answer == "ended")
        others = f" ({threads_told(ended)} {'has' if len(ended) == 1 else 'have'} ended)" if ended else ""
        yield f"stuck: no thread can go on, and none waits for a time{others}"
        for who, call in self.calls.items():
            yield f"thread {who} {self.waits_for(who, call)} (its last call: {self.place(self.last[who])})"

    @staticmethod
    def place(entry):
        return f"entry {entry.number}, line {entry.line} of the log"

    def waits_for(self, who, call):
        told = {"await": self.answer, "get": self.message, "await_title": self.title}.get(call[0])
        return told(who, *call[1:]) if told else f"waits in '{' '.join(call)}'"

    def window_told(self, number):
        window = self.windows.get(number)
        return f"window {number} '{window.title}' of thread {window.maker}" if window else f"window {number}"

    def answer(self, who, number):
        """A wait for the answer of a send, and how far that send has come."""
        send = self.story.sends[int(number) - 1]
        call = self.entries[send.begun - 1].call.split(" ")
        told = f"waits for the answer of send {number} (entry {send.begun}): {call[2]} to {self.window_told(call[1])}"
        running = self.running(int(number))
        if running:
            thread, frame = running
            name = frame.text.partition(":")[0]
            return f"{told}; its procedure '{name}' has begun in entry {frame.first}, and {self.other(thread, who)}"
        window = self.windows.get(call[1])
        if not window:
            return f"{told}, whose procedure hasn't begun"
        return f"{told}, whose procedure hasn't begun: {self.not_served(window.maker, who)}"

    def running(self, number):
        """The thread whose procedure runs for a send of another thread, and that frame."""
        for thread, stack in self.story.stacks.items():
            for frame in stack:
                if frame.kind == "enter" and frame.send == number:
                    return thread, frame
        return None

    def other(self, thread, who):
        """What another thread does."""
        call = self.calls.get(thread)
        if thread == who:
            return "it waits inside of it"
        if call is None:
            return f"thread {thread} has no line that it waits"
        what = {"await": f"the answer of send {call[-1]}", "get": "a message", "await_title": f"a window '{call[-1]}'"}
        return f"thread {thread} itself waits for {what.get(call[0], ' '.join(call))}"

    def not_served(self, thread, who):
        """Why a thread doesn't begin the procedure of a send."""
        call = self.calls.get(thread, [""])
        if call[0] == "await_title":
            return f"{self.other(thread, who)}, which no window has, and serves no send meanwhile"
        return self.other(thread, who)

    def message(self, who, window, least, most):
        """A wait for a message, with the posts that aren't let through."""
        asked = ["without a window"] if window == ALONE else [f"for {self.window_told(window)}"] if window != "0" else []
        asked += [] if (least, most) == ("0", "0") else [f"of a number from {least} to {most}"]
        told = f"waits for a message{' ' if asked else ''}{' and '.join(asked)}"
        kept = [self.entries[number - 1] for number in self.kept_posts(who)]
        if not kept:
            return f"{told}: none is there, and nobody is left who could post or send one"
        posts = ", ".join(f"'{it.call}' of entry {it.number}" for it in kept[:3])
        more = f" and {len(kept) - 3} more" if len(kept) > 3 else ""
        passed = f"none is there, since its filter passes over {posts}{more}"
        return f"{told}: {passed}, and nobody is left who could post or send one"

    def kept_posts(self, who):
        """The entries whose posts to a thread nobody has taken, those to windows that are gone left out."""
        return [number for number in self.story.standing.values() if self.receiver(self.entries[number - 1]) == who]

    def receiver(self, entry):
        """The thread in whose queue a post stands, or 0 where it went with its window."""
        call = entry.call.split(" ")
        if call[0] == "post_thread":
            return int(call[1])
        if call[0] == "post" and call[1] == "0":
            return entry.who
        window = self.windows.get(call[1])
        return window.maker if window and not window.gone else 0

    def title(self, who, name):
        """A wait for a title, with the windows that had it."""
        told = f"waits for a top-level window with the title '{name}'"
        made = [(number, it) for number, it in self.windows.items() if it.title == name]
        if not made:
            return f"{told}, and no window was made with it"
        number, window = made[-1]
        if window.gone:
            return f"{told}, and {self.window_told(number)} is gone since entry {window.gone}"
        return f"{told}, and {self.window_told(number)} is a child" if window.is_child else told


def threads_told(numbers):
    """Some threads by their numbers."""
    *most, last = map(str, numbers)
    return f"threads {', '.join(most)} and {last}" if most else f"thread {last}"


def is_stuck(run):
    return "end stuck" in run.ending


def stuck_lines(run):
    """What is told to people of a run that ends as stuck."""
    return list(Stuck(run).lines())
