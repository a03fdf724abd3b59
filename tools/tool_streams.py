"""What the tools share at their edges: standard input and output as bytes, and faults that end a tool with a sentence
and status 2.

Text that is written is UTF-8 whatever the locale. What is said on standard error has its control characters escaped,
so that nothing of an input reaches a terminal as a command.
"""
import argparse
import os
import sys

from log_json import BadLine, read_run

WELL, WRONG = 0, 2
CONTROLS = {number: f"\\x{number:02x}" for number in (*range(32), 127)}


class ToolError(Exception):
    """A fault that is told to people: a sentence."""


def printable(text):
    """A text whose control characters, and whatever isn't ASCII, are escaped."""
    return text.encode("ascii", errors="backslashreplace").decode().translate(CONTROLS)


def say(name, text):
    """Says a line to people, on standard error."""
    try:
        sys.stderr.write(f"{name}: {printable(text)}\n")
        sys.stderr.flush()
    except (OSError, AttributeError, ValueError):
        # nobody listens
        pass


class Parser(argparse.ArgumentParser):
    """The words of a tool's command. Its help is the tool's docstring."""

    def __init__(self, name, document, **more):
        form = argparse.RawDescriptionHelpFormatter
        super().__init__(prog=f"tools/{name}", description=document, formatter_class=form, **more)

    def print_help(self, file=None):
        write_out(self.format_help().encode())

    def error(self, message):
        say(self.prog, message)
        say(self.prog, "--help tells its words")
        sys.exit(WRONG)


def read_in(path=None):
    """The bytes of a file, or of standard input where none is named."""
    try:
        if path is not None:
            with open(path, "rb") as source:
                return source.read()
        return sys.stdin.buffer.read()
    except (OSError, ValueError) as error:
        reason = getattr(error, "strerror", None) or error
        raise ToolError(f"{path or 'standard input'} can't be read: {reason}") from None
    except AttributeError:
        raise ToolError("standard input can't be read: it is closed") from None


def read_input(path):
    """The run in a file, or on standard input where none is named."""
    return read_run(read_in(path))


def write_out(data):
    """Writes bytes to standard output, all of them."""
    try:
        sys.stdout.flush()
        sys.stdout.buffer.write(data)
        sys.stdout.buffer.flush()
    except AttributeError:
        raise ToolError("standard output can't be written: it is closed") from None
    except OSError as error:
        # so that Python itself doesn't try again when it ends
        os.dup2(os.open(os.devnull, os.O_WRONLY), 1)
        raise ToolError(f"standard output can't be written: {error.strerror}") from None


def run_tool(name, main):
    """Runs a tool; a fault of its input or output becomes a sentence and status 2."""
    try:
        return main() or WELL
    except ToolError as why:
        say(name, str(why))
    except BadLine as why:
        say(name, str(why))
    except OSError as why:
        say(name, f"{why.filename or 'input or output'}: {why.strerror}")
    except (ValueError, RecursionError, MemoryError) as why:
        say(name, str(why) or type(why).__name__)
    except KeyboardInterrupt:
        say(name, "interrupted")
    return WRONG
