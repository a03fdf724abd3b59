"""What is said to people beside an answer: of stuck runs, of first bad places, and the objects of --json; tried with a
built program."""
import json
import subprocess
import tempfile

from launching import TOP
from log_fields import lines_with_fields
from log_json import json_of, read_run
from stuck_words import stuck_lines
from tool_modules import loaded

TOOLS = TOP / "tools"
SECONDS = 60
QUIET = "proc p\nreturn 1\nend\nthread\nregister c p\ncreate c shop 0 0 0 0 0 1 1\n"
NOBODY = "none is there, and nobody is left who could post or send one"
# Scripts of the kinder form that get stuck, and what is said of the run: of all, and of each thread that waits.
STUCK = (
    ("a message that nobody posts", "thread\nget\nend\n", (
        "stuck: no thread can go on, and none waits for a time",
        f"thread 1 waits for a message: {NOBODY} (its last call: entry 1, line 2 of the log)")),
    ("a filter that passes over posts",
     QUIET + "get r 1024 1025\nend\nthread\nawait_title shop\npost r WM_APP\npost_thread 1 WM_COMMAND\nend\n", (
        "stuck: no thread can go on, and none waits for a time (thread 2 has ended)",
        "thread 1 waits for a message for window 16 'shop' of thread 1 and of a number from 1024 to 1025: none is there, since its"
        " filter passes over 'post 16 WM_APP 0 0' of entry 6, 'post_thread 1 WM_COMMAND 0 0' of entry 8, and nobody is left who"
        " could post or send one (its last call: entry 12, line 13 of the log)")),
    ("messages without a window", "thread\nget -1\nend\nthread\nend\nthread\nend\n", (
        "stuck: no thread can go on, and none waits for a time (threads 2 and 3 have ended)",
        f"thread 1 waits for a message without a window: {NOBODY} (its last call: entry 1, line 2 of the log)")),
    ("a procedure that waits for a title",
     QUIET.replace("return", "if msg = WM_USER\nawait_title nowhere\nend\nreturn")
     + "get\nend\nthread\nawait_title shop\nsend r WM_USER\nend\n", (
        "stuck: no thread can go on, and none waits for a time",
        "thread 1 waits for a top-level window with the title 'nowhere', and no window was made with it"
        " (its last call: entry 12, line 13 of the log)",
        "thread 2 waits for the answer of send 2 (entry 6): WM_USER to window 16 'shop' of thread 1; its procedure 'p' has begun in"
        " entry 11, and thread 1 itself waits for a window 'nowhere' (its last call: entry 8, line 9 of the log)")),
    ("titles of a window that is gone and of a child", QUIET + "destroy r\ncreate c other 0 0 0 0 0 1 1\n"
     "create c kid r WS_CHILD 0 0 0 1 1\nawait_title kid\nend\nthread\nsleep 5\nawait_title shop\nend\n", (
        "stuck: no thread can go on, and none waits for a time",
        "thread 1 waits for a top-level window with the title 'kid', and window 18 'kid' of thread 1 is a child"
        " (its last call: entry 28, line 29 of the log)",
        "thread 2 waits for a top-level window with the title 'shop', and window 16 'shop' of thread 1 is gone since entry 16"
        " (its last call: entry 31, line 32 of the log)")),
)
STORED = (
    "stuck: no thread can go on, and none waits for a time (thread 3 has ended)",
    "thread 1 waits for the answer of send 2 (entry 8): WM_USER to window 16 'target' of thread 2, whose procedure hasn't begun:"
    " thread 2 itself waits for a window 'missing', which no window has, and serves no send meanwhile"
    " (its last call: entry 10, line 11 of the log)",
    "thread 2 waits for a top-level window with the title 'missing', and no window was made with it"
    " (its last call: entry 13, line 14 of the log)",
)


def answered(program, words, text, **streams):
    """What `tools/answer-told` makes of an input, which comes on its descriptor 3."""
    with tempfile.TemporaryFile() as given:
        given.write(text)
        given.seek(0)
        streams = {"stdout": subprocess.PIPE, "stderr": subprocess.PIPE, **streams}
        how = ["bash", "-c", 'exec 3<&0 </dev/null; exec "$@"', "", TOOLS / "answer-told", program, *words]
        return subprocess.run(how, stdin=given, timeout=SECONDS, check=False, **streams)


def said(lines):
    return "".join(f"user: {line}\n" for line in lines).encode()


def fault(ran, status, output, told):
    """What is wrong with an answer, or None."""
    if ran.returncode != status:
        return f"status {ran.returncode}, and {status} was expected; {ran.stderr[-200:]!r}"
    if output is not None and ran.stdout != output:
        return f"it wrote {ran.stdout[:200]!r}"
    return None if ran.stderr == told else f"it said {ran.stderr.decode()!r}"


def strict(source):
    tool = loaded("script")
    return tool.strict_text(tool.translated(source)[0])


def stuck(trial):
    """Stuck runs: what is said of them by the launcher's tool, in both forms, and by `tools/stuck`."""
    for name, source, lines in STUCK:
        ran = answered(trial.program, ["run"], strict(source))
        trial.tell(f"stuck: {name}", fault(ran, 4, None, said(lines)))
        in_json = stuck_lines(read_run(json_of(ran.stdout)))
        trial.tell(f"stuck, of JSON: {name}", None if len(in_json) == len(lines) else f"it says {in_json}")
    path = TOP / "examples/rules/stuck_run"
    log = path.with_suffix(".log").read_bytes()
    ran = answered(trial.program, ["run"], path.with_suffix(".script").read_bytes())
    trial.tell("stuck: the rule stuck_run", fault(ran, 4, log, said(STORED)))
    for where in ([path.with_suffix(".log")], []):
        ran = subprocess.run([TOOLS / "stuck", *where], input=log, capture_output=True, check=False)
        trial.tell(f"tools/stuck {where}", fault(ran, 0, "".join(f"{line}\n" for line in STORED).encode(), b""))
    ran = subprocess.run([TOOLS / "stuck", TOP / "examples/first.log"], capture_output=True, check=False)
    trial.tell("tools/stuck of a run that is done", fault(ran, 2, b"", b"stuck: the run isn't stuck: end done\n"))


def illegal(trial):
    """First bad places, told by the lines of the log and of the input, and by the number of charts."""
    script, log = ((TOP / f"examples/{name}").read_bytes() for name in ("colours.script", "colours.log"))
    lines, head = log.split(b"\n"), script.count(b"\n")
    first = next(k for k, line in enumerate(lines) if b" = snap " in line)
    entry = sum(b" = " in line for line in lines[: first + 1])
    damages = (
        ("an answer", first, lines[first].replace(b"snap 1", b"snap 2"), "", first + 1, entry),
        ("a frame", first + 1, lines[first + 1][::-1].replace(b"0", b"f"), ", in the frame behind it", first + 1, entry),
    )
    for name, place, line, frame, told, number in damages:
        text = script + b"\n".join([*lines[:place], line, *lines[place + 1 :]])
        ran = answered(trial.program, ["check"], text)
        wanted = f"the first bad place is entry {number}, as charts count{frame}: line {told} of the log"
        wanted += f", line {head + told} of the input"
        trial.tell(f"illegal: {name}", fault(ran, 6, None, said([wanted])))
    end = log.replace(b"\nsends begun ", b"\nsends begun 1")
    ran = answered(trial.program, ["check"], script + end)
    place = log.count(b"\n")
    wanted = f"the first bad place is behind all entries: line {place} of the log, line {head + place} of the input"
    trial.tell("illegal: the last line", fault(ran, 6, None, said([wanted])))
    ran = answered(trial.program, ["check"], script + log.replace(b"\n", b"\n\n", 1))
    wanted = said([f"line {head + 2} of the input is line 2 of the log"])
    trial.tell("refused: a line of the log", None if ran.returncode == 3 and ran.stderr.endswith(wanted) else f"{ran}")


def objects(trial):
    """Answers with --json that the program itself gives in another form."""
    script = (TOP / "examples/posts.script").read_bytes()
    ran = answered(trial.program, ["threads", "2", "--json"], script)
    lines = [json.loads(line) for line in ran.stdout.splitlines()]
    right = ran.returncode == 0 and lines[-2] == {"end": "done"} and not ran.stderr
    trial.tell("threads --json", None if right else f"{ran}")
    right = len(read_run(ran.stdout).entries) == len(lines) - 2
    trial.tell("threads --json as a run", None if right else "it is another one")
    fields_told(trial, script)
    for words in (["run", "--json"], ["threads", "2", "--json"], ["run", "--fields"], ["threads", "2", "--fields"]):
        ran = answered(trial.program, words, b"user 1\n")
        right = (ran.returncode, ran.stdout) == (3, b'{"line":2,"refused":"end"}\n') and ran.stderr.startswith(b"line 2: ")
        trial.tell(f"no script for {' '.join(words)}", None if right else f"{ran}")


def fields_told(trial, script):
    """Runs with --fields: their lines are those that tools/fields makes of the run."""
    ran = answered(trial.program, ["run", "--fields"], script)
    wanted = "".join(lines_with_fields(read_run((TOP / "examples/posts.log").read_bytes()))).encode()
    trial.tell("run --fields", None if (ran.returncode, ran.stdout, ran.stderr) == (0, wanted, b"") else f"{ran}")
    ran = answered(trial.program, ["threads", "2", "--fields"], script)
    again = "".join(lines_with_fields(read_run(ran.stdout))).encode()
    names = [json.loads(line).get("name") for line in again.splitlines()]
    right = ran.returncode == 0 and ran.stdout == again and names.count("end_thread") == 3
    trial.tell("threads --fields", None if right else f"{ran}")


def histories(trial):
    """The log of what a program has printed, and lines that are none of a machine's."""
    printed, kept = TOP / "crates/key_examples/stdout", TOP / "examples/keys.log"
    ran = subprocess.run([TOP / "tools/history-log", printed], capture_output=True, timeout=SECONDS, check=False)
    trial.tell("history-log of keys", None if (ran.returncode, ran.stdout) == (0, kept.read_bytes()) else f"{ran}")
    cases = (
        ("3: SendTimeout(17, 1024, 1, 2, 1, 50) = Begun(SendId(4))", "3 send_timeout 17 WM_USER 1 2 1 50 = begun 4"),
        ("3: Await(4) = Done { result: 0, cause: Timeout }", "3 await 4 = done 0 timeout"),
        ("2: Get(0, 0, 0) = Enter { send: SendId(2), proc_no: 5, hwnd: Hwnd(16), number: 15, wparam: 0, lparam: 7 }", "2 get 0 0 0 = enter 2 5 16 WM_PAINT 0 7"),
        ("1: Fill(16, -1, 0, 5, 3, 4) = Refused(Win(87))", "1 fill 16 -1 0 5 3 4 = refused 87"),
        ("1: Mouse(512, 3, 2) = Refused(NoTarget)", "1 mouse WM_MOUSEMOVE 3 2 = refused no_target"),
        ("1: BeginPaint(16) = Painting { erase: 1, l: 0, t: -2, r: 5, b: 3 }", "1 begin_paint 16 = painting 1 0 -2 5 3"),
        ("0: Advance = Stuck", "0 advance = stuck"),
    )
    for line, wanted in cases:
        ran = subprocess.run([TOP / "tools/history-log"], input=f"told\n{line}\n".encode(), capture_output=True, timeout=SECONDS, check=False)
        trial.tell(f"history-log of {line}", None if (ran.returncode, ran.stdout.decode()) == (0, f"log 1\n{wanted}\n") else f"{ran}")
    for line in ("1: Walk(3) = Okay", "1: Yield(3) = Okay", "1: Yield = Fine", "no line"):
        ran = subprocess.run([TOP / "tools/history-log"], input=f"{line}\n".encode(), capture_output=True, timeout=SECONDS, check=False)
        trial.tell(f"history-log of {line}", None if ran.returncode == 2 and ran.stderr.startswith(b"history-log: ") else f"{ran}")


def streams(trial):
    """The answer's output can't be written, or nobody takes it."""
    long = b"user 1\nscreen 8 4\nbudget 65536\norder\nthread\nwhile a < 60000\nlet a a + 1\nyield\nend\nend\n"
    for words, text in ((["run"], long), (["run"], long.replace(b"6000", b"")), (["threads", "1", "--json"], long), (["check"], b"")):
        with open("/dev/full", "wb") as device:
            ran = answered(trial.program, words, text, stdout=device)
        told = ran.stderr.endswith(b"user: standard output can't be written; its text was cut off\n")
        trial.tell(f"a full device, {words}, {len(text)} bytes", None if ran.returncode == 8 and told else f"{ran}")
    plain = (TOP / "examples/first.script").read_bytes()
    ran = answered(trial.program, ["run"], plain)
    trial.tell("an answer that needs no words", fault(ran, 0, (TOP / "examples/first.log").read_bytes(), b""))


def told_answers(trial):
    """All of these cases."""
    for part in (stuck, illegal, objects, histories, streams):
        part(trial)
