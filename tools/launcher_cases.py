"""The launcher `user`, tried with a stand-in for `rt` in a small repository of its own: not built, built, its sources newer, interrupted, with wrong words."""
import os
import pathlib
import shutil
import signal
import subprocess
import tempfile
import time

TOP = pathlib.Path(__file__).resolve().parent.parent
TOOLS = ("answer-told", "answer-unproved", "build-program", "crate-seconds", "crate_graph.py", "launching.py", "log_fields.py", "log_json.py",
         "mistake_words.py", "play-examples", "run_story.py", "script", "stored_runs.py", "stuck_words.py", "told_answers.py", "tool_modules.py", "trial.py", "unproved_run.py")
FILES = {
    "crates.txt": "low: \nuser: low\nother: low\n",
    "HANDLES": "Handles allowed: none.\n",
    "crates/low/src/lib.rt": "low\n",
    "crates/low/must-fail/one.edit": "edit\n",
    "crates/user/src/main.rt": "main\n",
    "crates/other/src/lib.rt": "other\n",
    "examples/one.script": "one\n",
    "examples/one.log": "log 1\nrun 4 bytes\nend done\n",
    "examples/rules/two.script": "stuck\n",
    "examples/rules/two.log": "log 1\nrun 6 bytes\nend stuck\n",
    "examples/differences/three.script": "three\n",
    "examples/differences/three.log": "log 1\nrun 6 bytes\nend done\n",
}
NEVER, NEWER = "not proved on this machine yet", "sources changed after the build"
SECONDS = 60
# How long after its beginning a run is interrupted, in seconds; None is once `rt` is at work. The stand-in takes longer.
MOMENTS = (0.0, 0.05, 0.2, None)
LONG = "30"
WRONG = ("", "walk", "run one two", "run nowhere", "run .", "check one", "check one nowhere", "threads", "threads 0", "threads 16", "threads 01", "threads 2 nowhere",
         "make", "make 0", "make 60001", "make 3 one", "build now", "test all", "version 1", "--json", "help me")
TEXT = b"some text\n"
# A script of the kinder form, its strict form, one with a word that the stand-in refuses, which stands in line 3, and one with two mistakes.
SOURCE, STRICT = b"# one\n\nthread\n    yield # once\nend\n", b"user 1\nscreen 8 4\nbudget 100\norder\nthread\nyield\nend\n"
REFUSED_SOURCE = b"# one\n\nthread\n    find refused\nend\n"
WRONG_SOURCE = b"thread\n    walk\n    sleep 01\nend\n"


def log(words, size, end="done"):
    return f"log 1\n{words} {size} bytes\nend {end}\n".encode()


class Repository:
    """A small repository with the launcher, and a place for what its tools leave behind."""

    def __init__(self, folder):
        self.top = pathlib.Path(folder) / "repository"
        self.left = pathlib.Path(folder) / "left"
        self.bin = pathlib.Path(folder) / "bin"
        self.calls, self.pids = pathlib.Path(folder) / "calls", pathlib.Path(folder) / "pids"
        for place in (self.left, self.bin, self.top / "tools"):
            place.mkdir(parents=True)
        shutil.copy2(TOP / "tools/stand-in-rt", self.bin / "rt")
        shutil.copy2(TOP / "user", self.top / "user")
        for name in TOOLS:
            shutil.copy2(TOP / "tools" / name, self.top / "tools" / name)
        for name, text in FILES.items():
            (self.top / name).parent.mkdir(parents=True, exist_ok=True)
            (self.top / name).write_text(text)
        (self.top / "one").write_bytes(TEXT)
        (self.top / "two").write_bytes(b"log 1\n")
        for name, text in (("good.us", SOURCE), ("refused.us", REFUSED_SOURCE), ("wrong.us", WRONG_SOURCE)):
            (self.top / name).write_bytes(text)
        self.program = self.top / "crates/user/out/user"

    def environment(self, **more):
        told = {"PATH": f"{self.bin}:{os.environ['PATH']}", "TMPDIR": str(self.left), "RT_CALLS": str(self.calls), "RT_PIDS": str(self.pids)}
        return {**os.environ, **told, **more}

    def begin(self, words, **how):
        how = {"stdin": subprocess.PIPE, "stdout": subprocess.PIPE, "stderr": subprocess.PIPE, **how}
        environment = self.environment(**how.pop("more", {}))
        return subprocess.Popen([self.top / "user", *words.split()], cwd=self.top, env=environment, preexec_fn=take_signals, **how)

    def run(self, words, text=TEXT, **how):
        """A run to its end: its status, its output and the lines that it said on standard error."""
        process = self.begin(words, **how)
        output, told = process.communicate(text if "stdin" not in how else None, timeout=SECONDS)
        return process.returncode, output, told.decode().splitlines()

    def wait_for_rt(self):
        """Until `rt` is at work."""
        began = time.monotonic()
        while not self.pids.exists() and time.monotonic() - began < SECONDS:
            time.sleep(0.02)

    def called(self):
        """The calls of `rt` since the last look."""
        lines = self.calls.read_text().splitlines() if self.calls.exists() else []
        self.calls.unlink(missing_ok=True)
        return lines

    def remains(self):
        """What a run has left behind: processes, or files."""
        pids = self.pids.read_text().split() if self.pids.exists() else []
        self.pids.unlink(missing_ok=True)
        alive = [it for it in pids if is_alive(it)]
        files = sorted(it.name for it in self.left.iterdir())
        return f"processes {alive} and files {files} are left" if alive or files else None

    def touch(self, name):
        """A source that is newer than the program."""
        later = self.program.stat().st_mtime + 10
        os.utime(self.top / name, (later, later))

    def age(self):
        """All sources are older than the program."""
        for path in [self.top / "crates.txt", *self.top.glob("crates/*/src/**/*"), *self.top.glob("crates/*/src")]:
            os.utime(path, (1, 1))


def take_signals():
    """In a process that was just made: what the trial itself was told to ignore isn't ignored there."""
    for number in (signal.SIGINT, signal.SIGTERM, signal.SIGHUP):
        signal.signal(number, signal.SIG_DFL)


def is_alive(pid):
    try:
        return pathlib.Path(f"/proc/{pid}/stat").read_text().rsplit(")", 1)[1].split()[0] != "Z"
    except OSError:
        return False


def run_fault(ran, status, output, first=None, last=None, count=None):
    """What is wrong with a run, or None: `first` and `last` begin and end what it said, in so many lines."""
    if ran[0] != status:
        return f"status {ran[0]}, and {status} was expected; it said {ran[2][-3:]}"
    if ran[1] != output:
        return f"it wrote {ran[1][:80]!r}, and {output[:80]!r} was expected"
    if first and not (ran[2] and first in ran[2][0]):
        return f"it said first {ran[2][:1]}"
    if last and not (ran[2] and last in ran[2][-1]):
        return f"it said last {ran[2][-1:]}"
    return None if count is None or len(ran[2]) == count else f"it said {ran[2]}"


# The words, the input, and what comes of it: a status, an output. Beside the program's own line a line helps at a refusal.
ANSWERS = (
    ("run", TEXT, 0, log("run", 10)),
    ("run --json", TEXT, 0, log("run --json", 10)),
    ("run one", b"", 0, log("run", 10)),
    ("run --json one", b"", 0, log("run --json", 10)),
    ("check", TEXT, 0, log("check", 10)),
    ("check one two", b"", 0, log("check", 16)),
    ("threads 3", TEXT, 0, log("threads 3", 10)),
    ("threads 15 one", b"", 0, log("threads 15", 10)),
    ("make 60000", TEXT, 0, log("make 60000", 0)),
    ("run", b"stuck\n", 4, log("run", 6, "stuck")),
    ("run", b"refused\n", 3, b"refused 1 words\n"),
    ("run", b"", 0, log("run", 0)),
    ("run --json", b"refused\n", 3, b'{"line":1,"refused":"words"}\n'),
    ("threads 2 --json", b"refused\n", 3, b'{"line":1,"refused":"words"}\n'),
    ("run --fields", b"refused\n", 3, b'{"line":1,"refused":"words"}\n'),
    ("threads 2 --fields", b"refused\n", 3, b'{"line":1,"refused":"words"}\n'),
)


def answers(trial, repository, name, first, own_lines):
    """Each form of words, answered with the program's output and status; beside the program's own line so many are said."""
    for words, text, status, output in ANSWERS:
        ran = repository.run(words, text)
        trial.tell(f"{name}: {words}, {len(text)} bytes", run_fault(ran, status, output, first, count=own_lines + {3: 2, 4: 1}.get(status, 0)))
        trial.tell(f"{name}: what {words} leaves behind", repository.remains())


# The words, and what comes of a script of the kinder form: a status, an output, and the last line that is said if there is one.
SOURCES = (
    ("run good.us", 0, log("run", len(STRICT)), None),
    ("run --json good.us", 0, log("run --json", len(STRICT)), None),
    ("threads 3 good.us", 0, log("threads 3", len(STRICT)), None),
    ("check good.us two", 0, log("check", len(STRICT) + 6), None),
    ("run refused.us", 3, b"refused 1 words\n", "refused.us:3: refused"),
)


def sources(trial, repository, name, is_built):
    """Scripts of the kinder form: translated first, refused by the source's line, and never run where they have mistakes."""
    for words, status, output, told in SOURCES:
        ran = repository.run(words)
        fault = run_fault(ran, status, output, count=(told is not None) + 2 * (not is_built))
        trial.tell(f"{name}: {words}", fault or (None if told is None or told in ran[2] else f"it said {ran[2]}") or repository.remains())
    repository.called()
    ran = repository.run("run wrong.us")
    wanted = ["wrong.us:2:5: no statement begins with 'walk'", "wrong.us:3:11: '01' has a leading zero", "script: 2 mistakes; nothing was run"]
    fault = run_fault(ran, 2, b"") or (None if ran[2] == wanted else f"it said {ran[2]}")
    trial.tell(f"{name}: run wrong.us", fault or (f"it asked rt for {repository.called()}" if repository.calls.exists() else None))
    with open("/dev/full", "wb") as device:
        process = repository.begin("run good.us", stdout=device)
        process.communicate(TEXT, timeout=SECONDS)
    trial.tell(f"{name}: good.us to a full device", None if is_built or process.returncode == 8 else f"status {process.returncode}")


def not_built(trial, repository):
    answers(trial, repository, "not built", NEVER, 2)
    told = repository.run("run")[2]
    trial.tell("not built: what is said before and after", None if "./user build" in told[0] and "before its proof" in told[-1] else f"{told}")
    trial.tell("not built: the line of the program", None if repository.run("run", b"refused\n")[2][1] == "line 1: refused" else "it is lost")
    fault = run_fault(repository.run("run", b"fault\n"), 1, b"", NEVER, "./user build")
    trial.tell("not built: no answer", fault)
    with tempfile.TemporaryDirectory() as folder:
        place = os.open(folder, os.O_RDONLY)
        trial.tell("not built: a folder as input", run_fault(repository.run("run", stdin=place), 7, b""))
        os.close(place)
    with open("/dev/full", "wb") as device:
        process = repository.begin("run", stdout=device)
        process.communicate(TEXT, timeout=SECONDS)
        trial.tell("not built: a full device", None if process.returncode == 8 else f"status {process.returncode}")
    for redirection, text, status in (("<&-", b"", 7), (">&-", TEXT, 8), ("2>&-", TEXT, 0)):
        trial.tell(f"not built: with {redirection}", closed_fault(repository, redirection, text, status))
    trial.tell("not built: version", run_fault(repository.run("version"), 0, repository.run("version")[1]) or version_fault(repository, "not proved on this machine yet"))


def closed_fault(repository, redirection, text, status):
    """What is wrong with a run that has a closed stream, or None."""
    words = ["bash", "-c", f'exec "$0" run {redirection}', repository.top / "user"]
    ran = subprocess.run(words, input=text, capture_output=True, env=repository.environment(), timeout=SECONDS, check=False)
    output = b"" if status else log("run", len(text))
    return None if (ran.returncode, ran.stdout) == (status, output) else f"status {ran.returncode}, {ran.stdout[:80]!r} written"


def version_fault(repository, how):
    told = repository.run("version")[1].decode().splitlines()
    heads = [line.partition(": ")[0] for line in told]
    return None if heads == ["answers", "commit", "kit"] and how in told[0] and told[2] == "kit: stand-in" else f"it is {told}"


def two_at_a_time(trial, repository):
    texts = [b"x" * size for size in (10, 200, 3000)]
    runs = [repository.begin("run", more={"RT_SECONDS_OF": "0.5"}) for _ in texts]
    told = [process.communicate(text, timeout=SECONDS)[0] for process, text in zip(runs, texts)]
    trial.tell("three at a time", None if told == [log("run", len(text)) for text in texts] else f"they wrote {told}")


def wrong_words(trial, repository, name):
    repository.called()
    for words in WRONG:
        ran = repository.run(words)
        told = any(line.startswith("user: ") for line in ran[2])
        fault = run_fault(ran, 2, b"") or (None if told else "nothing is said") or (f"it asked rt for {repository.called()}" if repository.calls.exists() else None)
        trial.tell(f"{name}: wrong words '{words}'", fault)
    for words in ("help", "--help", "-h"):
        ran = repository.run(words)
        trial.tell(f"{name}: {words}", None if ran[0] == 0 and b"./user run examples/first.script" in ran[1] and not ran[2] else f"{ran}")


def interrupted_run(trial, repository, words, number, moment):
    """A run that is interrupted after a moment ends by that, writes nothing and leaves nothing behind."""
    with open(repository.top / "one", "rb") as text:
        process = repository.begin(words, stdin=text, more={"RT_SECONDS_OF": LONG})
        if moment is None:
            repository.wait_for_rt()
        else:
            time.sleep(moment)
        process.send_signal(number)
        began = time.monotonic()
        output = process.communicate(timeout=SECONDS)[0]
    name = f"{words} interrupted by {signal.Signals(number).name} {'at work' if moment is None else f'after {moment} s'}"
    fault = None if process.returncode == -number and not output else f"status {process.returncode}, {output[:80]!r} written"
    trial.tell(name, fault or (f"it ended after {time.monotonic() - began:.0f} s" if time.monotonic() - began > 8 else None) or repository.remains())


def interrupts(trial, repository):
    for number in (signal.SIGINT, signal.SIGTERM, signal.SIGHUP):
        for moment in MOMENTS:
            interrupted_run(trial, repository, "run", number, moment)
    for words in ("test", "threads 2 one", "run good.us"):
        for moment in (0.2, None):
            interrupted_run(trial, repository, words, signal.SIGINT, moment)


def builds(trial, repository):
    """Builds that are interrupted and that fail, which leave all as it was, and one that ends well."""
    for number in (signal.SIGINT, signal.SIGTERM):
        interrupted_run(trial, repository, "build", number, None)
        trial.tell("a program after an interrupted build", "there is one" if repository.program.exists() else None)
    ran = repository.run("build", more={"RT_UNPROVED": "low"})
    fault = run_fault(ran, 1, b"", "proving and building 2 crates", "could not be built")
    trial.tell("a build of what isn't proved", fault or (None if "error: a goal of low" in ran[2] else "what isn't proved is not told") or repository.remains())
    ran = repository.run("build")
    fault = run_fault(ran, 0, b"", "proving and building 2 crates", "proved and built")
    lines = [line for line in ran[2] if " gone, " in line]
    trial.tell("a build", fault or (None if len(lines) == 2 and "1 of 2 crates" in lines[0] and " left" in lines[0] else f"its progress is {lines}") or repository.remains())
    trial.tell("a build without the edits", None if repository.called()[-1:] == ["ci"] else "rt ci was not called last")


def built(trial, repository):
    repository.age()
    repository.called()
    answers(trial, repository, "built", None, 0)
    asked = repository.called()
    trial.tell("built: rt isn't asked", None if not asked else f"it was asked for {asked}")
    trial.tell("built: version", version_fault(repository, "the proved program, built"))
    wrong_words(trial, repository, "built")
    trial.tell("built: a folder as a file", run_fault(repository.run("run examples"), 2, b"", "'examples' is a folder", count=1))


def sources_newer(trial, repository):
    for name in ("crates/low/src/lib.rt", "crates.txt"):
        repository.touch(name)
        trial.tell(f"{name} is newer: run", run_fault(repository.run("run"), 0, log("run", 10), NEWER, count=2))
        trial.tell(f"{name} is newer: version", version_fault(repository, "sources changed after the build"))
        repository.age()
    repository.touch("crates/other/src/lib.rt")
    trial.tell("a crate that the program isn't made of is newer", run_fault(repository.run("run"), 0, log("run", 10), count=0))
    repository.remains()
    process = repository.begin("build", more={"RT_SECONDS_OF": "1"})
    repository.wait_for_rt()
    os.utime(repository.top / "crates/low/src/lib.rt")
    process.communicate(timeout=SECONDS)
    trial.tell("a source that is changed during the build", run_fault(repository.run("run"), 0, log("run", 10), NEWER))


def plays(trial, repository, name):
    """All stored scripts are played, and one that writes another log is counted."""
    ran = repository.run("test")
    trial.tell(f"{name}: test", run_fault(ran, 0, b"3 passed, 0 failed\n") or repository.remains())
    (repository.top / "examples/one.log").write_text("log 1\nend done\n")
    (repository.top / "examples/rules/two.log").write_text(FILES["examples/rules/two.log"].replace("stuck", "done"))
    ran = repository.run("test")
    told = ran[1].decode().splitlines()
    fault = None if ran[0] == 1 and told[-1:] == ["1 passed, 2 failed"] and told[0].startswith("FAILED example one: ") and told[1].startswith("FAILED rule two: status 4") else f"{ran}"
    trial.tell(f"{name}: test of other logs", fault)
    for path in ("examples/one.log", "examples/rules/two.log"):
        (repository.top / path).write_text(FILES[path])


def no_toolchain(trial, repository):
    (repository.bin / "rt").rename(repository.bin / "tr")
    path = ":".join(it for it in os.environ["PATH"].split(":") if not (pathlib.Path(it) / "rt").exists())
    if shutil.which("python3", path=path) and shutil.which("bash", path=path):
        trial.tell("no toolchain", run_fault(repository.run("run", more={"PATH": path}), 1, b"", NEVER, "`rt` isn't there"))
    (repository.bin / "tr").rename(repository.bin / "rt")


def launcher(trial):
    """All of these cases."""
    with tempfile.TemporaryDirectory() as folder:
        repository = Repository(folder)
        not_built(trial, repository)
        sources(trial, repository, "not built", is_built=False)
        two_at_a_time(trial, repository)
        wrong_words(trial, repository, "not built")
        plays(trial, repository, "not built")
        interrupts(trial, repository)
        no_toolchain(trial, repository)
        builds(trial, repository)
        built(trial, repository)
        sources(trial, repository, "built", is_built=True)
        plays(trial, repository, "built")
        sources_newer(trial, repository)
