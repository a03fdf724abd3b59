"""The scripts that are stored with their logs: the examples, the pack of rules, and the differences from Windows."""
from launching import TOP

EXAMPLES = TOP / "examples"
FOLDERS = (("example", EXAMPLES), ("rule", EXAMPLES / "rules"), ("difference", EXAMPLES / "differences"))
STATUS_OF_END = {"done": 0, "stuck": 4, "spent": 5}


def end_of(text):
    """The word of a log's line `end`, or None."""
    return next((line[4:] for line in text.decode().split("\n") if line.startswith("end ")), None)


class StoredRun:
    """A script, the log that it makes, and the status that the log's end calls for."""

    def __init__(self, kind, path):
        self.name, self.path = f"{kind} {path.stem}", path
        self.log = path.with_suffix(".log").read_bytes()
        self.status = STATUS_OF_END.get(end_of(self.log))


def stored_runs():
    """All of them, by kind and name."""
    return [StoredRun(kind, path) for kind, folder in FOLDERS for path in sorted(folder.glob("*.script"))]
