"""The parts of calls and answers that `tools/fields` tells: every stored log is read by its parts and put together again,
and the words are those of the code's tables."""
import json
import re
import subprocess

from launching import TOP
from log_fields import ANSWER_PARTS, CALL_PARTS, MESSAGES
from log_json import json_of
from stored_runs import stored_runs

TOOL = TOP / "tools/fields"
SECONDS = 60
ROW = re.compile(r'row_of\(\s*b"(\w+)",\s*&(\w+|\[[^\]]*\])', re.DOTALL)
# How many parts the rows have that the code writes by a name.
NAMED_PARTS = {"MESSAGE_FIELDS": 4, "FRAME_FIELDS": 6}
KEYS = {"answer", "call", "who", "entry", "name", "arguments", "kind", "fields"}
FIRST = {"answer": "window 16", "arguments": {"bottom": 1, "class": "c", "extended_style": 0, "left": 0, "parent": 0, "right": 1, "style": 0,
         "title": "shop", "top": 0}, "call": "new_window c shop 0 0 0 0 0 1 1", "entry": 3, "fields": {"window": 16}, "kind": "window",
         "name": "new_window", "who": 1}
SENT = {"answer": "begun 2", "arguments": {"lparam": 0, "message": 1024, "message_name": "WM_USER", "window": 16, "wparam": 41},
        "call": "send 16 WM_USER 41 0", "entry": 6, "fields": {"send": 2}, "kind": "begun", "name": "send", "who": 2}


def together(word, parts, known):
    """A call or an answer put together from its parts."""
    names = {value: name for name, value in MESSAGES.items()}
    values = [names.get(parts[it], parts[it]) if it == "message" else parts[it] for it in known[word]]
    return " ".join([word, *map(str, values)])


def fault(lines, log):
    """What is wrong with the lines of a run, or None."""
    plain = [json.loads(line) for line in json_of(log).splitlines()]
    if len(lines) != len(plain):
        return f"{len(lines)} lines, and {len(plain)} were expected"
    for told, wanted in zip(lines, plain):
        if any(told[key] != value for key, value in wanted.items()):
            return f"{told} for {wanted}"
        if "call" not in wanted:
            continue
        again = (together(told["name"], told["arguments"], CALL_PARTS), together(told["kind"], told["fields"], ANSWER_PARTS))
        if set(told) != KEYS or again != (wanted["call"], wanted["answer"]):
            return f"{told} is {again}"
    return None


def run(text):
    return subprocess.run([TOOL], input=text, capture_output=True, timeout=SECONDS, check=False)


def rows_of(crate):
    """The words of a table of the code, each with how many parts it has."""
    code = "".join(path.read_text() for path in sorted((TOP / "crates" / crate / "src").glob("*.rt")))
    return {word: NAMED_PARTS.get(parts) or len(re.findall(r"\w+(?:::\w+)?", parts)) for word, parts in ROW.findall(code)}


def fields(trial):
    """All of these cases; none needs the built program."""
    for stored in stored_runs():
        ran = run(stored.log)
        lines = [json.loads(line) for line in ran.stdout.splitlines()]
        trial.tell(f"fields of {stored.name}", f"{ran}" if ran.returncode or ran.stderr else fault(lines, stored.log))
    log = (TOP / "examples/first.log").read_bytes()
    for text in (log, json_of(log)):
        lines = [json.loads(line) for line in run(text).stdout.splitlines()]
        trial.tell("fields by hand", None if (lines[2], lines[5]) == (FIRST, SENT) else f"{lines[2]}, {lines[5]}")
        counts = {"begun": 3, "entered": 3, "proc": 3, "reply": 0, "loss": 0, "timeout": 0, "open": 0}
        trial.tell("counts by hand", None if lines[-1] == {"sends": [3, 3, 3, 0, 0, 0, 0], "counts": counts} else f"{lines[-1]}")
    for text in (b"log 1\n1 walk 0 = ok\n", b"log 1\n1 yield 0 = ok\n", b"log 1\n1 post_quit x = ok\n", b"log 1\n1 yield = fine\n"):
        ran = run(text)
        trial.tell(f"fields of {text!r}", None if ran.returncode == 2 and ran.stderr.startswith(b"fields: line 2: ") else f"{ran}")
    for crate, known in (("call_table", CALL_PARTS), ("answer_table", ANSWER_PARTS)):
        wanted = {word: len(parts) for word, parts in known.items()}
        found = rows_of(crate)
        trial.tell(f"words of {crate}", None if found == wanted else f"other than the code's: {set(found.items()) ^ set(wanted.items())}")
