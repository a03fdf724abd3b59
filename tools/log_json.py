"""The log of a run as text and as lines of JSON: what the tools that read runs share.

`json_of` makes of a log's text the lines that `./user run --json` writes. `read_run` reads such lines, also with the parts
that tools/fields puts beside their texts, or the log itself, as the entries of a run with their frames; a line that can't
stand there is told by its number and the reason (`BadLine`).
"""
import json
import re
from typing import NamedTuple

WORDS = re.compile(r"[!-~]+(?: [!-~]+)*")
ROW = re.compile(r"[0-9a-f]{1,128}")
PLAIN_HEAD = b"log 1"
PLAIN_ENTRY = re.compile(r"(?P<who>[0-9]{1,2}) (?P<call>.+?) = (?P<answer>.+)")
PLAIN_END = re.compile(r"(?P<name>end|waits) (?P<text>.+)|spent (?P<thread>[0-9]{1,2})|sends (?P<counts>.+)")
COUNTS = ("begun", "entered", "proc", "reply", "loss", "timeout", "open")
ENTRY, FRAME = frozenset(("who", "call", "answer")), frozenset(("frame",))
END, SENDS = frozenset(("end",)), frozenset(("sends",))
EXTRAS = {frozenset(("waits",)), frozenset(("spent",))}
# The keys of the texts of a line, and those of the parts that tools/fields puts beside them.
PARTS = (
    (ENTRY, frozenset(("entry", "name", "arguments", "kind", "fields"))),
    (frozenset(("waits",)), frozenset(("who", "name", "arguments"))),
    (SENDS, frozenset(("counts",))),
)


def compact(**members):
    """An object of JSON on a line of its own, without blanks, its keys in order."""
    return json.dumps(members, separators=(",", ":"), sort_keys=True) + "\n"


def json_of_line(line):
    """A line of a log as a line of JSON."""
    word, _, rest = line.partition(" ")
    if word in ("end", "waits"):
        return compact(**{word: rest})
    if word == "spent":
        return compact(spent=int(rest))
    if word == "sends":
        return compact(sends=[int(count) for count in rest.split()[1::2]])
    call, _, answer = rest.partition(" = ")
    return compact(who=int(word), call=call, answer=answer)


def json_of(text):
    """A log, whose first line only names its form, as lines of JSON. Lines without a blank are the rows of a frame."""
    told, rows = [], []
    for line in text.decode().splitlines()[1:]:
        if " " not in line:
            rows.append(line)
            continue
        if rows:
            told.append(compact(frame=rows))
            rows = []
        told.append(json_of_line(line))
    return "".join(told).encode()


class BadLine(Exception):
    """A line that can't stand where it is, by its number from 1, and why."""

    def __init__(self, number, reason):
        super().__init__(f"line {number}: {reason}")
        self.number, self.reason = number, reason


class Entry(NamedTuple):
    """One entry: its number from 1, its line, and the rows of the frame that it has kept, if any."""
    number: int
    line: int
    who: int
    call: str
    answer: str
    frame: tuple = ()


class Run(NamedTuple):
    """The entries of a run, and the lines of its ending as the log has them."""
    entries: list
    ending: list


class Reader:
    """Takes a run line by line."""

    def __init__(self):
        self.entries, self.ending = [], []
        self.snaps, self.size = 0, None
        self.is_over = False

    def take(self, number, members):
        keys = frozenset(members)
        if self.wants_frame() and keys != FRAME:
            raise BadLine(number, f"the frame of `{self.entries[-1].answer}` must stand here")
        if self.is_over:
            raise BadLine(number, "nothing can follow the line of `sends`")
        if keys == ENTRY:
            self.take_entry(number, **members)
        elif keys == FRAME:
            self.take_frame(number, members["frame"])
        elif keys == END or keys == SENDS or keys in EXTRAS:
            self.take_ending(number, keys, members)
        else:
            raise BadLine(number, f"no line of a run has the keys {', '.join(sorted(keys)) or 'none'}")

    def wants_frame(self):
        """Whether the last entry has kept a frame that hasn't come yet."""
        return bool(self.entries) and self.entries[-1].answer.startswith("snap ") and not self.entries[-1].frame

    def take_entry(self, number, who, call, answer):
        if self.ending:
            raise BadLine(number, "an entry can't follow the end")
        if type(who) is not int or not 0 <= who <= 15:
            raise BadLine(number, "`who` must be a number from 0 to 15")
        for name, text in (("call", call), ("answer", answer)):
            if not isinstance(text, str) or not WORDS.fullmatch(text):
                raise BadLine(number, f"`{name}` must be words with one space between them")
        if answer.startswith("snap "):
            self.snaps += 1
            if answer != f"snap {self.snaps}":
                raise BadLine(number, f"the answer is `{answer}`, and `snap {self.snaps}` is the next one")
        self.entries.append(Entry(len(self.entries) + 1, number, who, call, answer))

    def take_frame(self, number, rows):
        if not self.wants_frame():
            raise BadLine(number, "a frame must follow the entry of a `snap`")
        if not isinstance(rows, list) or not 1 <= len(rows) <= 64:
            raise BadLine(number, "a frame must have 1 to 64 rows")
        for row in rows:
            if not isinstance(row, str) or not ROW.fullmatch(row):
                raise BadLine(number, "a row of a frame must have 1 to 128 digits, 0 to 9 and a to f")
        sizes = {(len(row), len(rows)) for row in rows}
        if len(sizes) > 1:
            raise BadLine(number, "the rows of a frame must have one length")
        size, = sizes
        if self.size not in (None, size):
            raise BadLine(number, f"a frame of {size[0]} by {size[1]} pixels follows one of {self.size[0]} by {self.size[1]}")
        self.size = size
        self.entries[-1] = self.entries[-1]._replace(frame=tuple(rows))

    def take_ending(self, number, keys, members):
        (name, value), = members.items()
        if keys == END and (self.ending or not self.entries):
            raise BadLine(number, "the end must come once, and behind an entry")
        if keys != END and not self.ending:
            raise BadLine(number, f"`{name}` must stand behind the end")
        self.ending.append(ending_text(number, name, value))
        self.is_over = keys == SENDS


def members_of(number, text):
    """The members of a line's object."""
    if not text.strip():
        raise BadLine(number, "the line is empty")
    try:
        value = json.loads(text.decode("utf-8"))
    except (ValueError, RecursionError):
        raise BadLine(number, no_line(text)) from None
    if not isinstance(value, dict):
        raise BadLine(number, "no object of JSON")
    return value


def no_line(text):
    """Why a text is neither a line of JSON nor of a log."""
    if text.startswith(b"refused "):
        return "this is a refusal and no run: the script has a mistake, which `./user run` tells"
    if text.startswith(b"user 1"):
        return "this is a script and no run: `./user run` makes its log"
    return "no JSON; a log of `./user run` is read, or the lines of `./user run --json`"


def lines_of(data):
    """The lines of a text, without an empty one behind the last."""
    lines = data.split(b"\n")
    return lines if lines[-1] else lines[:-1]


def plain_members(data):
    """What the lines of JSON would have for those of a plain log, each with the number of the log's line."""
    rows, first = [], 0
    for number, line in enumerate(lines_of(data)[1:], 2):
        text = line.decode("ascii", errors="replace")
        if ROW.fullmatch(text):
            first = first if rows else number
            rows.append(text)
            continue
        if rows:
            yield first, {"frame": rows}
            rows = []
        yield number, plain_line(number, text)
    if rows:
        yield first, {"frame": rows}


def plain_line(number, text):
    """The members of a line that is no row of a frame."""
    entry, end = PLAIN_ENTRY.fullmatch(text), PLAIN_END.fullmatch(text)
    if entry:
        return {"who": int(entry["who"]), "call": entry["call"], "answer": entry["answer"]}
    if not end:
        reason = "the line is empty" if not text.strip() else "no line of a log, as 'WHO CALL = ANSWER' or 'end ..'"
        raise BadLine(number, reason)
    if end["name"]:
        return {end["name"]: end["text"]}
    if end["thread"]:
        return {"spent": int(end["thread"])}
    words = end["counts"].split(" ")
    if tuple(words[::2]) != COUNTS or not all(re.fullmatch("[0-9]+", word) for word in words[1::2]):
        raise BadLine(number, "`sends` has no value of its form")
    return {"sends": [int(word) for word in words[1::2]]}


def ending_text(number, name, value):
    """A line of the ending as the log has it."""
    if name in ("end", "waits") and isinstance(value, str) and WORDS.fullmatch(value):
        return f"{name} {value}"
    if name == "spent" and is_count(value):
        return f"spent {value}"
    if name == "sends" and isinstance(value, list) and len(value) == 7 and all(map(is_count, value)):
        return "sends " + " ".join(f"{word} {count}" for word, count in zip(COUNTS, value))
    raise BadLine(number, f"`{name}` has no value of its form")


def is_count(value):
    return type(value) is int and value >= 0


def members_of_all(data):
    """The members of each line of a run, with its number, whichever form the run has."""
    if data.split(b"\n", 1)[0] == PLAIN_HEAD:
        return plain_members(data)
    return ((number, without_parts(members_of(number, text))) for number, text in enumerate(lines_of(data), 1))


def without_parts(members):
    """The members of a line without the parts that tools/fields puts beside its texts."""
    keys = frozenset(members)
    texts = next((texts for texts, parts in PARTS if keys == texts | parts), keys)
    return {key: members[key] for key in texts}


def read_run(data):
    """The run whose log or whose lines of JSON these bytes are. A run may be broken off behind any entry."""
    reader = Reader()
    for number, members in members_of_all(data):
        reader.take(number, members)
    if not reader.entries:
        raise BadLine(1, "there is no entry")
    if reader.wants_frame():
        raise BadLine(len(lines_of(data)) + 1, f"the frame of `{reader.entries[-1].answer}` must stand here")
    return Run(reader.entries, reader.ending)
