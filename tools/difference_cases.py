"""The points where Wine 8.0 does otherwise: the rows of docs/WINDOWS.md, their patterns and the tool that tells them.

The scripts themselves are played by tools/try-program.
"""
import re
import subprocess

from difference_patterns import Touched, patterns, rows, touched
from launching import TOP
from log_json import json_of, read_run
from run_story import Story

TOOL, CHART = TOP / "tools/differences", TOP / "tools/chart"
PAGE, README = TOP / "docs/WINDOWS.md", TOP / "README.md"
SCRIPTS = TOP / "examples/differences"
RULES = TOP / "examples/rules"
NAMED = re.compile(r"`(rules/)?([a-z_]+)`")
BOLD_ROW = re.compile(r"^\| \*\*([^*]+)\*\*( \*)? \| ", re.MULTILINE)
COUNTED = re.compile(r"\bat (\d+) of (\d+)\s+points\b")
SECONDS = 60
# Logs in a few lines for points that no stored script shows, and what is told of each.
WORKED = (
    ("posts in one queue", "1 post_thread 2 WM_USER 0 0 = refused 1816"),
    ("DispatchMessage for another thread's window", "1 dispatch 16 WM_USER 0 0 = refused 5"),
    ("WindowFromPoint over a disabled child",
     "1 new_window c t 16 1073741824 0 0 0 1 1 = window 17\n1 enable 17 0 = value 0\n1 window_at 0 0 = window 17"),
    ("a topmost window put at the bottom or below one that isn't topmost",
     "1 new_window c t 0 0 8 0 0 1 1 = window 16\n1 place 16 1 0 0 0 0 3 = value 0"),
    ("an owner becomes topmost", "1 new_window c t 16 0 0 0 0 1 1 = window 17\n1 place 16 -1 0 0 0 0 3 = value 0"),
    ("AttachThreadInput of a thread with itself", "1 attach 1 1 = refused 87"),
)
# Logs of which nothing may be told.
UNTOUCHED = (
    "1 yield = ok", "1 attach 1 2 = refused 5", "1 post_thread 2 WM_USER 0 0 = posted 1\n2 yield = ok",
    "2 yield = ok\n1 post_thread 2 WM_USER 0 0 = posted 1",
    "1 new_window c t 16 0 0 0 0 1 1 = window 17\n1 place 17 -1 0 0 0 0 3 = value 0",
    "1 new_window c t 16 2147483648 0 0 0 1 1 = window 17\n1 parent 17 = window 16",
    "1 set_active 16 = was 0\n1 set_focus 16 = was 0", "1 in_send = value 0",
)
UNTOUCHED_BUT = {"a new child", "messages to a new window", "PostThreadMessage to a thread that has made no call yet"}


def story_of(text):
    return Story(read_run(f"log 1\n{text}\n".encode()))


def logs_of(row):
    """The logs of the scripts that a row names."""
    return [(RULES if rule else SCRIPTS) / f"{name}.log" for rule, name in NAMED.findall(row.script)]


def fits(pattern, path):
    """Whether an entry of a log is one of the pattern's."""
    story = Story(read_run(path.read_bytes()))
    finder = Touched(story, [pattern])
    return any(finder.points(entry) for entry in story.entries)


def each_point(trial):
    """Each row has a pattern and each pattern a row; each fits an entry of a log of its row's script, or a worked one."""
    table, known = rows(), patterns()
    worked = {point for point, _ in WORKED}
    for point in sorted(set(table) | {it.point for it in known}):
        parts = [it for it in known if it.point == point]
        paths = logs_of(table[point]) if point in table else []
        is_met = any(fits(part, path) for part in parts for path in paths if path.is_file()) or point in worked
        why = "it has no pattern" if not parts else "docs/WINDOWS.md has no such row" if point not in table else None
        trial.tell(f"pattern of '{point}'", why or (None if is_met else "no entry of its script's log fits"))


def worked_logs(trial):
    """Some entries in few lines, by hand."""
    for point, text in WORKED:
        told = touched(story_of(text))
        why = None if told and told[-1][1] == [point] else f"{[points for _, points in told]} are told"
        trial.tell(f"worked log of '{point}'", why)
    for text in UNTOUCHED:
        told = {point for _, points in touched(story_of(text)) for point in points} - UNTOUCHED_BUT
        trial.tell(f"nothing is told of {text[-40:]!r}", f"{told} are told" if told else None)


def against_both(trial):
    """The rows in which the documentation agrees with Wine stand first and are bold, no others, and README counts them."""
    table = rows()
    wanted = [point for point, row in table.items() if row.is_against()]
    bold = [f"{point}{star}" for point, star in BOLD_ROW.findall(PAGE.read_text()) if f"{point}{star}" in table]
    trial.tell("rows that are bold", None if bold == wanted else f"{set(bold) ^ set(wanted)}")
    trial.tell("rows that stand first", None if list(table)[: len(wanted)] == wanted else "another one stands before them")
    for path in (README, PAGE):
        counts = COUNTED.findall(path.read_text())
        right = [(str(len(wanted)), str(len(table)))]
        trial.tell(f"the count in {path.name}", None if counts == right else f"it has {counts}, and {right} is right")


def run(words, text=b""):
    return subprocess.run(words, input=text, capture_output=True, timeout=SECONDS, check=False)


def command(trial):
    """The tool and the chart with its marks, on a log and on its lines of JSON."""
    log = (SCRIPTS / "reply_twice.log").read_bytes()
    story = Story(read_run(log))
    marked = [entry.number for entry, _ in touched(story)]
    for text in (log, json_of(log)):
        ran = run([TOOL], text)
        told = [int(number) for number in re.findall(rb"^entry (\d+), line ", ran.stdout, re.MULTILINE)]
        is_told = b"\n  ! a second ReplyMessage to one send: here 0; " in ran.stdout
        right = ran.returncode == 0 and told == marked and marked and is_told
        trial.tell("tools/differences on reply_twice", None if right else f"{ran}")
        ran = run([CHART, "--differences"], text)
        titles = re.findall("<title>entry (\\d+),[^<]*\n≠ ", ran.stdout.decode())
        why = None if [*map(int, titles)] == marked else f"it marks {titles}, and {marked} was expected"
        trial.tell("chart --differences", why)
        trial.tell("chart without marks", None if "≠" not in run([CHART], text).stdout.decode() else "it has marks")
    ran = run([TOOL], b"log 1\n1 yield = ok\n")
    last = f"{len(rows())} of {len(rows())} points have a pattern\n".encode()
    right = (ran.returncode, ran.stdout, ran.stderr) == (0, last, b"")
    trial.tell("tools/differences on a plain run", None if right else f"{ran}")


def told_differences(trial):
    """All of these cases; none needs the built program."""
    for part in (each_point, worked_logs, against_both, command):
        part(trial)
