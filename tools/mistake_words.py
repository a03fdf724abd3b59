"""What helps at a script that was refused, beside the program's own line: a form, a word that is meant, an open block.

The knowledge is that of tools/script, which reads the same text in its kinder form. Lines begin with 'line N: ' where
they speak of one.
"""
import re

from tool_modules import loaded

NO_COMMENTS = "there are no comments in this form; a file whose name ends in .us may have them, behind '#'"
HEADS = ("a script begins with the lines 'user 1', 'screen W H', 'budget N' and 'order';"
         " a file whose name ends in .us may leave them out")
KINDER = "the kinder form takes this text: let the file's name end in .us, or translate it by tools/script"
MARKS = ((b"\xef\xbb\xbf", "a byte order mark of UTF-8, which an editor has put there: save the text without it"),
         (b"\xff\xfe", "a byte order mark of UTF-16: save the text as ASCII"),
         (b"\xfe\xff", "a byte order mark of UTF-16: save the text as ASCII"))
COMMENT = re.compile(rb"(^| )(#|;|//)")
WRITTEN = re.compile(r" is written '([a-z_]+ [^']*)'$")
# What the program's own line says already.
TOLD = re.compile(r"behind '(?:user|screen|budget|order)'|stands in procedures alone|a comment begins|"
                  r"behind this nothing more|no block is open|a script has at most|is no name: |"
                  r"no procedure '.*' begins above$|can't stand here|stands before all threads$|^no statement begins with '[^']*'$")


def mistake_lines(text, number, reason):
    """What is told of a script that was refused at a line, with the program's word for why."""
    lines = text.split(b"\n")
    line = lines[number - 1] if 0 < number <= len(lines) else b""
    mark = next((told for start, told in MARKS if text.startswith(start)), None)
    if mark:
        return [f"line 1: the text begins with {mark}"]
    if number == 1 and line != b"user 1" and reason in ("words", "end"):
        return [head_told(line)]
    if reason in ("long", "limit"):
        return []
    if COMMENT.search(line):
        return [f"line {number}: {NO_COMMENTS}"]
    return told_by_kinder(text, number, line.decode("ascii", errors="replace"), reason)


def head_told(line):
    """What a text begins with that isn't a script's first line."""
    if line == b"log 1":
        return "line 1: this is a log; `run` takes a script, and `check` a script and behind it a log"
    return f"line 1: the text is empty: {HEADS}" if not line else f"line 1: {HEADS}"


def told_by_kinder(text, number, line, reason):
    """The form of the line's statement, and what the reader of the kinder form says."""
    tool = loaded("script")
    strict, mistakes = tool.translated(tool.decoded(text))
    if reason == "end":
        return [f"line {it.place[0]}: {it.text}" for it in mistakes if "isn't closed" in it.text][:1]
    here = [it.text for it in mistakes if it.place[0] == number and not TOLD.search(it.text)]
    told = [f"line {number}: {strictly(text)}" for text in here[:1]]
    word, *words = line.split(" ")
    names = tool.STATEMENTS.get(word)
    if reason == "words" and names is not None and len(words) != len(names):
        told = [f"line {number}: the form is '{form_of(word, names)}'"]
    if not mistakes and tool.strict_text(strict) != text:
        told.append(f"user: {KINDER}")
    return told


def form_of(word, names):
    """The form of a statement, in which none of its arguments may be left out."""
    return " ".join([word, *(name.rstrip("?").upper() for name in names)])


def strictly(text):
    """What is said of a word for which another is written, with the form of this one."""
    match = WRITTEN.search(text)
    if not match:
        return text
    word, *names = match[1].split(" ")
    return f"{text[: match.start()]} is written '{form_of(word, names)}'"
