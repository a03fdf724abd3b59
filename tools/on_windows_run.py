"""How `tools/on-windows` plays a script: the runner's program, Wine with a prefix of its own, and what `check` says of a history."""
import os
import pathlib
import shlex
import shutil
import subprocess
import tempfile
from typing import NamedTuple

from known_differences import Place, name_of

TOP = pathlib.Path(__file__).resolve().parent.parent
SOURCES = sorted((TOP / "windows").glob("*.c"))
COMPILERS = {64: "x86_64-w64-mingw32-gcc", 32: "i686-w64-mingw32-gcc"}
FLAGS = ["-std=c11", "-O2", "-Wall", "-Wextra"]
# What the runner needs beyond its own limit to begin and to end, in seconds.
BEYOND_LIMIT = 40
# Words of a script whose windows others could see, or that move the one mouse of a desktop.
SEEN = ("WS_VISIBLE", "show_window", "set_window_pos", "mouse", "key", "window_at", "set_focus", "set_active", "set_capture")


class Missing(Exception):
    """Something isn't there that is needed: a sentence for people."""


class Outcome(NamedTuple):
    """What became of a script: a kind (legal, known, differs, unplayable), a name or a place, and the three lines."""
    script: str
    kind: str
    names: tuple
    place: Place
    told: str
    log: str


def build_runner(bits=64):
    """The runner's program, which is compiled where its sources are newer."""
    compiler, path = COMPILERS[bits], TOP / f"windows/out/runner{bits}.exe"
    newest = max(source.stat().st_mtime for source in [*SOURCES, TOP / "windows/runner.h"])
    if path.exists() and path.stat().st_mtime > newest:
        return path
    if not shutil.which(compiler):
        raise Missing(f"no {compiler}: on Debian it is in the package gcc-mingw-w64-{'x86-64' if bits == 64 else 'i686'}")
    path.parent.mkdir(exist_ok=True)
    built = subprocess.run([compiler, *FLAGS, "-o", path, *SOURCES, "-lgdi32"], capture_output=True, text=True, check=False)
    if built.returncode:
        raise Missing(f"the runner doesn't compile:\n{built.stderr}")
    return path


class Wine:
    """Wine with a prefix of its own, the null graphics driver, and so without a screen. The prefix goes with it."""

    def __init__(self, folder):
        if not shutil.which("wine"):
            raise Missing("no wine: on Debian it is in the packages wine and wine64")
        self.environment = {**os.environ, "WINEPREFIX": str(pathlib.Path(folder) / "prefix"), "WINEDEBUG": "-all", "WINEARCH": "win64",
                            "WINEDLLOVERRIDES": "mscoree,mshtml="}
        self.environment.pop("DISPLAY", None)
        self.call(["wineboot", "-i"])
        self.call(["wine", "reg", "add", r"HKCU\Software\Wine\Drivers", "/v", "Graphics", "/d", "null", "/f"])
        self.call(["wineserver", "-k"])
        self.call(["wineserver", "-w"])
        # a server that stays, and a first program that makes it begin the desktop, so that no script waits for them
        self.call(["wineserver", "-p"])
        self.call(["wine", "explorer", "/desktop=root", "cmd", "/c", "exit"])

    def call(self, words):
        subprocess.run(words, env=self.environment, stdin=subprocess.DEVNULL, stdout=subprocess.DEVNULL, stderr=subprocess.DEVNULL,
                       timeout=300, check=False)

    def version(self):
        return subprocess.run(["wine", "--version"], env=self.environment, capture_output=True, text=True, check=False).stdout.strip()

    def end(self):
        self.call(["wineserver", "-k"])
        self.call(["wineserver", "-w"])


class Player:
    """Plays scripts by a command, and asks `check` about their histories."""

    def __init__(self, command, environment, program, known, limit):
        self.command, self.environment, self.program, self.known, self.limit = command, environment, program, known, limit

    def history(self, text):
        """The log of a script, or None, and the line of the runner that says why there is none."""
        # files, since what Wine leaves running would hold pipes open
        with tempfile.TemporaryFile() as script, tempfile.TemporaryFile() as out, tempfile.TemporaryFile() as said:
            script.write(text.encode())
            script.seek(0)
            try:
                status = subprocess.run(self.command, env=self.environment, stdin=script, stdout=out, stderr=said,
                                        timeout=self.limit + BEYOND_LIMIT, check=False).returncode
            except subprocess.TimeoutExpired:
                return None, f"no end after {self.limit + BEYOND_LIMIT} seconds"
            log, words = read_back(out), read_back(said).strip().splitlines()
        if status == 0 and log.startswith("log 1\n"):
            return log, ""
        return None, words[-1] if words else log.splitlines()[0] if log else f"no log, status {status}"

    def check(self, text, log):
        """The first bad place of a history, or None where it is legal."""
        words = shlex.split(str(self.program))
        ran = subprocess.run([*words, "check"], input=(text + log).encode(), capture_output=True, timeout=300, check=False)
        lines = ran.stdout.decode().splitlines()
        if ran.returncode == 0:
            return None
        if ran.returncode != 6 or len(lines) != 3:
            raise Missing(f"`{self.program} check` ended with status {ran.returncode}: {' '.join(lines)[:200]}")
        _, number, reason = lines[0].split(" ", 2)
        return Place(int(number), reason, lines[1].partition(" ")[2], lines[2].partition(" ")[2])

    def play(self, name, text):
        """The outcome of a script. One that brings no log is played once more, where it isn't the runner that refuses it."""
        log, told = self.history(text)
        if log is None and not told.startswith("line "):
            log, told = self.history(text)
        if log is None:
            return Outcome(name, "unplayable", (), None, told, "")
        return self.judge(name, text, log)

    def judge(self, name, text, log):
        place = self.check(text, log)
        if not place:
            return Outcome(name, "legal", (), None, "", log)
        names = tuple(name_of(self.known, place, log))
        return Outcome(name, "known" if names else "differs", names, place, "", log)


def read_back(file):
    """What was written to a file, without carriage returns."""
    file.seek(0)
    return file.read().replace(b"\r", b"").decode(errors="replace")


def alone(text):
    """Whether a script is played by itself, since its windows could be seen, or it moves the mouse."""
    words = set(text.split())
    styled = any(line.startswith("create ") and not line.split()[4].startswith(("0", "WS_")) for line in text.splitlines())
    return styled or any(word in words for word in SEEN)


def temporary_folder():
    return tempfile.TemporaryDirectory(prefix="on_windows_")
