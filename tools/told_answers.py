"""What the launcher says to people beside an answer of the program, and the forms of answers that it makes of the
program's own.

A stuck run is told in words, the first bad place of `check` by the lines of the log and of the input, and by the
number that charts give to its entry. With --json a refusal becomes an object, and so do the lines of a run by
threads. With --fields a run is written as tools/fields does, and a refusal as with --json.
"""
import re

from log_fields import lines_with_fields
from log_json import BadLine, compact, json_of, read_run
from mistake_words import mistake_lines
from stuck_words import stuck_lines

REFUSED, STUCK, SPENT, ILLEGAL = 3, 4, 5, 6
REFUSAL = re.compile(rb"refused ([0-9]+) ([a-z_]+)\n")
PLACE = re.compile(rb"illegal ([0-9]+) ([a-z]+)\nfound (.*)\nkept .*\n")
# How much of an output is kept to be told of; a log that is longer is told by tools/stuck.
MOST_KEPT = 64 << 20


def program_words(words):
    """The words that the program itself takes."""
    return words[:2] if words[0] == "threads" else [word for word in words if word != "--fields"]


def is_made(words, output):
    """Whether an output that begins so is written in another form than the program's."""
    is_in_json = words[-1] == "--json" and (words[0] == "threads" or output.startswith(b"refused "))
    return is_in_json or words[-1] == "--fields"


def made(words, output):
    """An output with --json or --fields: the object of a refusal, or the lines of a log, of which there may be a front alone."""
    refusal = REFUSAL.fullmatch(output)
    if refusal:
        return compact(line=int(refusal[1]), refused=refusal[2].decode()).encode()
    if words[-1] == "--fields":
        try:
            return "".join(lines_with_fields(read_run(output))).encode()
        except BadLine:
            pass
    return json_of(output)


def more_told(words, status, output, text):
    """The lines that are said beside an answer to an input; an output that is None was too long to keep."""
    if status == REFUSED:
        return refused_told(words[0] == "check", output, text)
    if status == STUCK:
        return in_our_name(stuck_told(output))
    if status == SPENT:
        return in_our_name(spent_told(output or b""))
    return in_our_name(illegal_told(output, text)) if status == ILLEGAL else []


def in_our_name(lines):
    return [f"user: {line}" for line in lines]


def spent_told(output):
    """Which threads have used their budget."""
    threads = re.findall(r"^spent ([0-9]+)$|^\{\"spent\":([0-9]+)\}$", output.decode(), re.MULTILINE)
    who = ", ".join(plain or other for plain, other in threads)
    many = len(threads) != 1
    told = f"threads {who} have" if many else f"thread {who} has"
    return [f"spent: {told} used the budget of entries, which the script's third line tells"]


def stuck_told(output):
    if output is None:
        return ["stuck: no thread can go on; tools/stuck < LOG tells what each of them waits for"]
    try:
        return stuck_lines(read_run(output))
    except (BadLine, IndexError, KeyError, ValueError):
        return ["stuck: no thread can go on; its last lines 'waits' have the call of each thread"]


def lines_of_log(text):
    """The lines of the log behind a script, each with its number in the input, and the number of the script's lines."""
    lines = text.split(b"\n")
    head = lines.index(b"log 1") if b"log 1" in lines else len(lines)
    return list(enumerate(lines[head:], head + 1)), head


def illegal_told(output, text):
    """Where the first bad place of a log stands."""
    place = PLACE.fullmatch(output)
    if not place:
        return []
    number, reason, found = int(place[1]), place[2], place[3]
    log, head = lines_of_log(text)
    entries = [line for line, content in log if b" = " in content]
    if reason == b"end":
        behind = entries[-1] if entries else head + 1
        line = next((line for line, content in log if line > behind and content == found), len(log) + head)
        return [f"the first bad place is behind all entries: {both(line, head)}"]
    if number >= len(entries):
        return []
    frame = ", in the frame behind it" if reason == b"frame" else ""
    return [f"the first bad place is entry {number + 1}, as charts count{frame}: {both(entries[number], head)}"]


def both(line, head):
    return f"line {line - head} of the log, line {line} of the input"


def refused_told(is_check, output, text):
    """What helps at a refusal, and which line of the log it speaks of where it isn't one of the script."""
    refusal = REFUSAL.fullmatch(output)
    if not refusal:
        return []
    line, reason = int(refusal[1]), refusal[2].decode()
    lines, head = lines_of_log(text)
    if not is_check or line <= head and head:
        script = text if not is_check else b"\n".join(text.split(b"\n")[:head]) + b"\n"
        return mistake_lines(script, line, reason) + no_log(is_check and not lines)
    if not head:
        return in_our_name(["the log stands where the script has to: `check SCRIPT LOG`, or the script before the log"])
    return in_our_name([f"line {line} of the input is line {line - head} of the log"])


def no_log(is_missing):
    return in_our_name(["no log stands behind the script; a log begins with the line 'log 1'"] if is_missing else [])
