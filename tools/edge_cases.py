"""The tools at their edges: closed streams, a full device, files that aren't there, another locale, control characters,
links, errors half-way. Each answers with a sentence and status 2, and never with a traceback.

No built program is needed."""
import ast
import os
import pathlib
import subprocess
import tempfile

from launching import TOP

TOOLS = TOP / "tools"
LOG = TOP / "examples/rules/frames_keep_colours.log"
STUCK = TOP / "examples/rules/stuck_run.log"
PRINTED = TOP / "crates/key_examples/stdout"
FRAMES = 3
SECONDS = 60
# The tools that read a run, each with words and a run that it takes.
READERS = (
    ("chart", [], LOG), ("chart", ["--differences"], LOG), ("frames", ["--to", "FOLDER"], LOG), ("stuck", [], STUCK),
    ("order", [], LOG), ("differences", [], LOG), ("fields", [], LOG), ("history-log", [], PRINTED),
)
# All tools that people call.
ALL = """
all-edits answer-told answer-unproved build-program chart compare compare-dde compare-explored differences fields frames
gate-times history-log on-windows order play-examples proof-times script stuck try-memory try-on-windows try-pictures try-program
""".split()
# Words with files that aren't there and with empty ranges.
NOTHING = (
    ("compare", "/nowhere", "1", "2"), ("compare", "/bin/true", "2", "1"), ("compare", "1"), ("compare-dde", "/nowhere"),
    ("compare-dde", "--lists", "0", "/bin/true"), ("compare-explored", "2", "1"),
    ("compare-explored", "1", "2", "--program", "/nowhere"), ("gate-times", "/nowhere"),
    ("on-windows", "--random", "5..1", "--runner", "/nowhere"), ("on-windows", "/nowhere"), ("play-examples", "walk"),
    ("try-memory", "/nowhere"), ("try-on-windows", "/nowhere"), ("try-program", "/nowhere"), ("build-program", "0"),
    ("all-edits", "nowhere"), ("chart", "--from", "99", LOG), ("chart", "--threads", "9", LOG),
    ("chart", "--from", "3", "--to", "2", LOG), ("frames", TOP / "examples/first.log"),
    ("frames", "--to", "/dev/null/x", LOG), ("order", "--script", "/nowhere", LOG),
    ("stuck", TOP / "examples/first.log"), ("answer-told", "run"),
)
ASCII = {**os.environ, "PYTHONUTF8": "0", "PYTHONCOERCECLOCALE": "0", "LC_ALL": "C"}
BAD_RUNS = ("log 1\n1 \x1b[31m\u00e9 = ok\n".encode(), b"\x1b]0;x\x07\n", b"refused 3 \x1b[2J\n", b"\xff\xfe\n", b"", b"log 1\n",
            b"log 1\n1 yield = ok\n\n")


def run(words, redirection="", text=b"", folder=".", **how):
    """A tool's run with its streams as the shell's words say."""
    words = [str(word).replace("FOLDER", str(folder)) for word in words]
    command = ["bash", "-c", f'exec "$@" {redirection}', "", TOOLS / words[0], *words[1:]]
    return subprocess.run(command, input=text, capture_output=True, timeout=SECONDS, check=False, **how)


def fault(ran, status=2):
    """What is wrong with a run that has to say a sentence, or None."""
    said = ran.stderr.decode(errors="replace")
    if ran.returncode != status:
        return f"status {ran.returncode}: {said[-200:]!r}"
    if not said.endswith("\n") or "Traceback" in said or "Exception" in said:
        return f"it said {said[-200:]!r}"
    return None if all(" " <= it <= "~" or it == "\n" for it in said) else f"it said {said!r}, which isn't plain"


def streams(trial):
    for name, words, path in READERS:
        data = path.read_bytes()
        with tempfile.TemporaryDirectory() as place:
            folder = pathlib.Path(place, "new")
            good = run([name, *words], text=data, folder=folder)
            told = f"{name} {' '.join(words)}"
            right = good.returncode == 0 and good.stdout and not good.stderr
            trial.tell(f"{told} on standard input", None if right else f"{good}")
            for closed, given in (("<&-", b""), (">&-", data), (">/dev/full", data)):
                ran = run([name, *words], closed, given, pathlib.Path(place, "other"))
                trial.tell(f"{told} with {closed}", fault(ran))
            left = [it.name for it in pathlib.Path(place, "other").glob("*")]
            trial.tell(f"what {told} leaves behind", f"{left} are left" if left else None)
            ran = run([name, *words], "2>&-", b"?", folder)
            trial.tell(f"{told} that nobody hears", None if ran.returncode == 2 and not ran.stdout else f"{ran}")
            ran = run([name, *words], text=data, folder=folder, env=ASCII)
            right = (ran.returncode, ran.stdout) == (0, good.stdout)
            trial.tell(f"{told} in an ASCII locale", None if right else f"{ran.stderr[-200:]}")


def texts(trial):
    """Files that aren't there, and inputs with control characters, which never come to standard error."""
    for name, words, _ in READERS:
        for path, why in (("/nowhere/\x1b[31m", "a file that isn't there"), (TOP / "examples", "a folder")):
            trial.tell(f"{name} on {why}", fault(run([name, *words, path])))
        for text in BAD_RUNS:
            trial.tell(f"{name} on {text!r}", fault(run([name, *words], text=text)))
        trial.tell(f"{name} with a word of control characters", fault(run([name, "--\x1b[31m"])))
    for source in ("thread\n\x1b[31m\nend\n", "thread\n\u009b31m\nend\n", "\x07"):
        trial.tell(f"script on {source!r}", fault(run(["script"], text=source.encode())))
    trial.tell("script on a file that isn't there", fault(run(["script", "/nowhere/\x1b[31m"])))


def pictures(trial):
    """Links in the place of a picture, and errors half-way."""
    with tempfile.TemporaryDirectory() as place:
        folder, kept = pathlib.Path(place, "to"), pathlib.Path(place, "kept")
        folder.mkdir()
        kept.write_text("kept")
        (folder / "frame-002.png").symlink_to(kept)
        (folder / "frame-003.png").symlink_to(pathlib.Path(place, "nowhere"))
        ran = run(["frames", LOG, "--to", folder])
        whole = [it.name for it in folder.iterdir() if it.read_bytes().startswith(b"\x89PNG") and not it.is_symlink()]
        is_kept = kept.read_text() == "kept" and not pathlib.Path(place, "nowhere").exists()
        right = ran.returncode == 0 and len(whole) == FRAMES and is_kept
        trial.tell("frames where links have the names", None if right else f"{ran}, {whole}")
        other = pathlib.Path(place, "other")
        (other / "frame-002.png/below").mkdir(parents=True)
        why = fault(run(["frames", LOG, "--to", other]))
        left = sorted(it.name for it in other.iterdir())
        trial.tell("frames with an error half-way", why or (None if left == ["frame-002.png"] else f"{left} are left"))


def helps(trial):
    """The help of each tool has its docstring, and words that name nothing are refused."""
    for name in ALL:
        ran = run([name, "--help"])
        document = ast.get_docstring(ast.parse((TOOLS / name).read_text()), clean=False)
        right = ran.returncode == 0 and document.strip().splitlines()[0] in ran.stdout.decode() and not ran.stderr
        trial.tell(f"{name} --help", None if right else f"{ran}")
    for words in NOTHING:
        trial.tell(" ".join(map(str, words)), fault(run(words)))


def tool_edges(trial):
    """All of these cases."""
    for part in (streams, texts, pictures, helps):
        part(trial)
