"""What belongs together in a run: procedures from entry to end, posts, input and who takes them, sends and their answers, the clock.

All of it is read from the calls and answers of the entries. The numbers in answers name posts, inputs and sends, and each thread's calls tell its
stack of procedures and waits. Where the entries leave open which one answered, as with a send that is lost or whose time is over, there is
no arrow. A run whose entries contradict one another is refused with the line (`BadLine`).
"""
import re
from typing import NamedTuple, Optional

from log_json import BadLine

NUMBER = re.compile(r"0|[1-9][0-9]{0,19}")
# How many fields an answer has, and which of them are the numbers that are read.
FIELDS = {
    "posted": (1, (0,)), "input": (1, (0,)), "inside": (2, (0,)), "begun": (1, (0,)), "enter": (6, (0,)), "callback": (6, (0,)), "left": (1, (0,)),
    "done": (2, ()), "called": (1, ()), "got": (9, (1,)), "advanced": (1, (0,)), "window": (1, (0,)), "value": (1, (0,)),
}
WAITING_SENDS = ("send", "send_timeout")


class Bar(NamedTuple):
    """A procedure that runs, or a wait for an answer: the entries that began and ended it, and how many others it stands in.

    The kind is `enter` for a send of another thread, `inside` for an own one, `called` for a dispatched message, `callback`, or `wait`."""
    kind: str
    thread: int
    depth: int
    first: int
    last: Optional[int]
    text: str


class Arrow(NamedTuple):
    """From one entry to another: a `post` or an `input` to its retrieval, a `send` to the entry of its procedure, or an `answer` back."""
    kind: str
    source: int
    target: int
    text: str


class Send:
    """A send: where it was begun, whether it goes to another thread, and which entry gave its first answer."""

    def __init__(self, begun, is_inside):
        self.begun, self.is_inside = begun, is_inside
        self.is_entered, self.answered = is_inside, None


class Frame(NamedTuple):
    """A procedure or a wait that isn't over."""
    kind: str
    send: int
    first: int
    text: str


class Story:
    """A run's entries with what belongs together.

    `clocks`, `within` and `depths` have a value for each entry: the clock after it, the procedures and waits in which its thread
    stood before it, and how many these are."""

    def __init__(self, run):
        self.entries, self.ending = run.entries, run.ending
        self.bars, self.arrows, self.clocks, self.within = [], [], [], []
        self.windows, self.clock = {}, 0
        self.posts, self.standing, self.quits = 0, {}, {}
        self.inputs, self.untaken = 0, {}
        self.sends, self.stacks = [], {}
        for entry in run.entries:
            self.within.append(tuple(self.stack(entry)))
            self.take(entry)
            self.clocks.append(self.clock)
        self.depths = [len(frames) for frames in self.within]
        for who, stack in self.stacks.items():
            for depth, frame in enumerate(stack):
                self.bars.append(Bar(frame.kind, who, depth, frame.first, None, frame.text))
        self.bars.sort(key=lambda bar: (bar.first, bar.depth))
        self.arrows.sort(key=lambda arrow: (arrow.source, arrow.target))

    def threads(self):
        return sorted({entry.who for entry in self.entries} - {0})

    def stack(self, entry):
        return self.stacks.setdefault(entry.who, [])

    def take(self, entry):
        """Notes what one entry does."""
        call, answer = entry.call.split(" "), entry.answer.split(" ")
        word, fields = answer[0], fields_of(entry, answer)
        if word == "refused":
            return
        if entry.who == 0 or call[0] == "clock":
            self.take_time(entry, call, word, fields)
        elif word in TAKERS:
            TAKERS[word](self, entry, call, fields)
        elif call[0] == "post_quit" and word == "ok":
            self.quits[entry.who] = entry.number

    def take_time(self, entry, call, word, fields):
        """The clock goes on, or is told."""
        if word not in ("value", "advanced"):
            return
        value = int(fields[0])
        if entry.who and value != self.clock:
            raise BadLine(entry.line, f"the clock is told as {value}, and it is {self.clock}")
        if value < self.clock:
            raise BadLine(entry.line, f"the clock goes back from {self.clock} to {value}")
        self.clock = value

    def take_window(self, entry, call, fields):
        if call[0] == "new_window" and len(call) > 2:
            self.windows[fields[0]] = (call[2], entry.who)

    def take_posted(self, entry, call, fields):
        self.posts += 1
        if fields[0] != str(self.posts):
            raise BadLine(entry.line, f"post {fields[0]} comes where post {self.posts} is the next one")
        self.standing[fields[0]] = entry.number

    def take_input(self, entry, call, fields):
        """An input is injected. A move that another replaces is never taken, so it has no arrow."""
        self.inputs += 1
        if fields[0] != str(self.inputs):
            raise BadLine(entry.line, f"input {fields[0]} comes where input {self.inputs} is the next one")
        self.untaken[fields[0]] = entry.number

    def take_got(self, entry, call, fields):
        """A retrieval: one that removes its message has an arrow from the post, from the input, or from the call that set quit."""
        source, number = fields[:2]
        removes = call[0] == "get" or call[0] == "peek" and call[4:] in (["1"], ["3"])
        if source == "posted":
            if number not in self.standing:
                raise BadLine(entry.line, f"no post {number} stands there")
            if removes:
                self.arrows.append(Arrow("post", self.standing.pop(number), entry.number, f"post {number}"))
        elif source == "input":
            if number not in self.untaken:
                raise BadLine(entry.line, f"no input {number} stands there")
            if removes:
                self.arrows.append(Arrow("input", self.untaken.pop(number), entry.number, f"input {number}"))
        elif source == "quit":
            if entry.who not in self.quits:
                raise BadLine(entry.line, "no quit stands there")
            if removes:
                self.arrows.append(Arrow("post", self.quits.pop(entry.who), entry.number, "quit"))

    def begin_send(self, entry, fields, is_inside):
        self.sends.append(Send(entry.number, is_inside))
        if fields[0] != str(len(self.sends)):
            raise BadLine(entry.line, f"send {fields[0]} comes where send {len(self.sends)} is the next one")

    def take_inside(self, entry, call, fields):
        self.begin_send(entry, fields, True)
        self.push(entry, "inside", int(fields[0]), f"{fields[1]}: {self.message(call[1:5])}")

    def take_begun(self, entry, call, fields):
        self.begin_send(entry, fields, False)
        if call[0] in WAITING_SENDS:
            self.push(entry, "wait", int(fields[0]), f"waits for the answer of send {fields[0]}: {self.message(call[1:5])}")

    def take_enter(self, entry, call, fields):
        send = self.known_send(entry, fields[0])
        if send.is_entered:
            raise BadLine(entry.line, f"send {fields[0]} is entered a second time")
        send.is_entered = True
        self.arrows.append(Arrow("send", send.begun, entry.number, f"send {fields[0]}"))
        self.push(entry, "enter", int(fields[0]), f"{fields[1]}: {self.message(fields[2:])}")

    def take_callback(self, entry, call, fields):
        """The result of a send comes to its sender: right from the procedure that ends, or from another thread."""
        send = self.known_send(entry, fields[0])
        if call[0] == "leave":
            self.pop(entry, ("inside",), fields[0])
        elif send.answered:
            self.arrows.append(Arrow("answer", send.answered, entry.number, f"answer of send {fields[0]}"))
        self.push(entry, "callback", 0, f"{fields[1]}: {self.message(fields[2:])}")

    def take_called(self, entry, call, fields):
        self.push(entry, "called", 0, f"{fields[0]}: {self.message(call[1:5])}")

    def take_left(self, entry, call, fields):
        frame = self.pop(entry, ("called", "callback") if fields[0] == "0" else ("enter", "inside"), fields[0])
        if frame.kind == "enter":
            send = self.sends[frame.send - 1]
            send.answered = send.answered or entry.number

    def take_done(self, entry, call, fields):
        number = "".join(call[1:])
        self.pop(entry, ("wait",), number)
        send = self.known_send(entry, number)
        if fields[1] in ("proc", "reply"):
            if not send.answered:
                raise BadLine(entry.line, f"send {number} has an answer that no entry gave")
            self.arrows.append(Arrow("answer", send.answered, entry.number, f"answer of send {number}"))

    def take_value(self, entry, call, fields):
        """A reply that counts answers the send whose procedure runs."""
        if call[0] != "reply" or fields[0] != "1":
            return
        stack = self.stack(entry)
        if not stack or stack[-1].kind != "enter":
            raise BadLine(entry.line, "a reply counts where no procedure runs for a send of another thread")
        send = self.sends[stack[-1].send - 1]
        if send.answered:
            raise BadLine(entry.line, f"send {stack[-1].send} is answered a second time")
        send.answered = entry.number

    def take_ended(self, entry, call, fields):
        if self.stack(entry):
            raise BadLine(entry.line, f"thread {entry.who} ends, and a procedure or a wait isn't over")

    def known_send(self, entry, number):
        place = int(number) if NUMBER.fullmatch(number) else 0
        if not 1 <= place <= len(self.sends):
            raise BadLine(entry.line, f"there is no send {number}")
        return self.sends[place - 1]

    def message(self, words):
        """A message as it is told on a bar, with the title of its window where that is known."""
        window = words[0] if words else ""
        title = f" {self.windows[window][0]}" if window in self.windows else ""
        return f"window {window}{title}, {' '.join(words[1:])}"

    def push(self, entry, kind, send, text):
        self.stack(entry).append(Frame(kind, send, entry.number, text))

    def pop(self, entry, kinds, number):
        """Ends the newest procedure or wait of the thread, which must be of these kinds and for this send."""
        stack = self.stack(entry)
        if not stack or stack[-1].kind not in kinds or str(stack[-1].send) != number:
            newest = f"{stack[-1].text!r} is the newest one" if stack else "none is open"
            raise BadLine(entry.line, f"thread {entry.who} ends a procedure or a wait that isn't its newest one: {newest}")
        frame = stack.pop()
        self.bars.append(Bar(frame.kind, entry.who, len(stack), frame.first, entry.number, frame.text))
        return frame


TAKERS = {
    "posted": Story.take_posted, "input": Story.take_input, "got": Story.take_got, "inside": Story.take_inside, "begun": Story.take_begun,
    "enter": Story.take_enter, "callback": Story.take_callback, "called": Story.take_called, "left": Story.take_left,
    "done": Story.take_done, "value": Story.take_value, "window": Story.take_window, "ended": Story.take_ended,
}


def fields_of(entry, answer):
    """The fields of an answer, which must be as many as it has, and numbers where they are read as such."""
    count, numbers = FIELDS.get(answer[0], (None, ()))
    fields = answer[1:]
    if count is not None and len(fields) != count or not all(NUMBER.fullmatch(fields[k]) for k in numbers):
        raise BadLine(entry.line, f"the answer `{entry.answer}` hasn't the form of `{answer[0]}`")
    return fields
