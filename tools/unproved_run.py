"""Runs of the program before its proof: `rt try` compiles it with checks, and runs it.

What such a run reports stands in lines on its standard error, the last of which ends in `proved=no`.
"""
import re
import tempfile

from launching import CRATES, run

# The report behind what the program said itself, where the program ended.
ENDED = re.compile(rb"(?:^interpreter: .*\n)?^checked: .*\n(?:^races: .*\n)?^run=ended status=(\d+) .*proved=no\n\Z", re.MULTILINE)


class Report:
    """What a run came to: its output, what was said on standard error, and the program's status and own words there, where it ended."""

    def __init__(self, output, told):
        self.output, self.told, self.status, self.said = output, told, None, b""
        ended = ENDED.search(told)
        if ended:
            self.status, self.said = int(ended[1]), told[: ended.start()]


def try_program(words, interrupts, text=b"", flags=()):
    """Runs the program with these words on this standard input."""
    with tempfile.TemporaryFile() as given, tempfile.TemporaryFile() as output, tempfile.TemporaryFile() as told:
        given.write(text)
        given.seek(0)
        command = ["rt", "try", *flags, "--", *words]
        run(command, interrupts, cwd=CRATES / "user", stdin=given, stdout=output, stderr=told)
        output.seek(0)
        told.seek(0)
        return Report(output.read(), told.read())
