"""The calls and answers of a log by their parts: each argument and each field by its name, as a number or as a text.

A message has its number, and beside it its name where it has one. Numbers go up to 2^64 - 1.
"""
import re

from log_json import BadLine, COUNTS, compact
from tool_modules import loaded

MESSAGE = "window message wparam lparam"
EDGES = "left top right bottom"
CALLS = f"""
peek window least greatest flags
get window least greatest
post {MESSAGE}
post_thread thread message wparam lparam
post_quit code
status flags
dispatch {MESSAGE}
translate {MESSAGE}
send {MESSAGE}
send_timeout {MESSAGE} flags milliseconds
send_notify {MESSAGE}
send_callback {MESSAGE} procedure extra
await send
leave result
reply result
in_send
message registered
register class procedure colour
unregister class
new_window class title parent style extended_style {EDGES}
doom window
unmake window
drop window
place window after {EDGES} flags
show window shown
enable window enabled
find title
await_title title
next_top window
child_after window above
style_of window
window_at x y
is_window window
parent window
set_focus window
set_active window
set_capture window
release_capture
get_focus
get_active
get_capture
attach thread other
detach thread other
mouse message x y
key down key
key_state key
begin_dialog window
dialog_state window
end_dialog window result
invalidate window {EDGES} erase
validate window {EDGES}
update_rect window
begin_paint window
end_paint window
fill window {EDGES} colour
erase window
snap
set_timer window timer milliseconds
kill_timer window timer
end_thread
clock
sleep_until time
yield
tick milliseconds
advance
"""
ANSWERS = f"""
ok
ended
none
wait
stuck
gone
running
result result
value value
window window
was window
posted post
input input
called procedure
inside send procedure
begun send
left send
tell window
last window
advanced time
busy thread
enter send procedure {MESSAGE}
callback send procedure window message extra result
done result cause
update region {EDGES}
painting erase {EDGES}
snap frame
got origin number {MESSAGE} time x y
refused code
"""
TEXTS = {"class", "title", "registered", "procedure", "cause", "origin"}
CODES = {"full", "not_now", "no_target"}
NUMBER = re.compile(r"-?[0-9]+")


def table(text):
    """The parts that each word has behind it."""
    return {words[0]: words[1:] for words in map(str.split, text.strip().splitlines())}


CALL_PARTS, ANSWER_PARTS = table(CALLS), table(ANSWERS)
MESSAGES = {name: value for name, value in loaded("script").VALUES.items() if name.startswith("WM_")}
MESSAGE_NAMES = {value: name for name, value in MESSAGES.items()}


def parts(line, text, known):
    """The first word of a call or an answer, and what stands behind it by names."""
    word, *values = text.split(" ")
    names = known.get(word)
    if names is None or len(names) != len(values):
        raise BadLine(line, f"`{text}` is no call and no answer of the machine")
    told = {}
    for name, value in zip(names, values):
        told.update(part(line, name, value))
    return word, told


def part(line, name, value):
    """One part, with the name of a message beside its number."""
    if name in TEXTS:
        return {name: value}
    if name == "message":
        number = MESSAGES.get(value, int(value) if NUMBER.fullmatch(value) else None)
        if number is not None:
            return {name: number, **({"message_name": MESSAGE_NAMES[number]} if number in MESSAGE_NAMES else {})}
    if NUMBER.fullmatch(value):
        return {name: int(value)}
    if name == "code" and value in CODES:
        return {name: value}
    raise BadLine(line, f"`{name}` is no number: `{value}`")


def entry_line(entry):
    """An entry as a line of JSON with its parts."""
    name, arguments = parts(entry.line, entry.call, CALL_PARTS)
    kind, fields = parts(entry.line, entry.answer, ANSWER_PARTS)
    texts = {"answer": entry.answer, "call": entry.call, "who": entry.who}
    return compact(**texts, entry=entry.number, name=name, arguments=arguments, kind=kind, fields=fields)


def ending_line(text):
    """A line of the ending as a line of JSON with its parts."""
    word, _, rest = text.partition(" ")
    if word == "waits":
        who, _, call = rest.partition(" ")
        name, arguments = parts(0, call, CALL_PARTS)
        return compact(waits=rest, who=int(who), name=name, arguments=arguments)
    if word == "sends":
        counts = [int(count) for count in rest.split(" ")[1::2]]
        return compact(sends=counts, counts=dict(zip(COUNTS, counts)))
    return compact(spent=int(rest)) if word == "spent" else compact(end=rest)


def lines_with_fields(run):
    """The lines of JSON of a run, each entry with its parts."""
    for entry in run.entries:
        yield entry_line(entry)
        if entry.frame:
            yield compact(frame=list(entry.frame))
    yield from map(ending_line, run.ending)
