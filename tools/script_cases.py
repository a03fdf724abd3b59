"""The kinder form of scripts, `tools/script`: what it is translated to, what is told of mistakes, the way back, and its table of statements against the manual's.

`python3 tools/script_cases.py` tries these cases alone, without the built program."""
import pathlib
import re
import subprocess
import sys
import tempfile

from tool_modules import loaded
from trial import Tally

TOP = pathlib.Path(__file__).resolve().parent.parent
TOOL = TOP / "tools/script"
MANUAL = TOP / "docs/SCRIPTS.md"
SECONDS = 60
RANDOM_SCRIPTS = 100
HEAD = "user 1\nscreen 8 4\nbudget 100\norder\n"
KINDER = re.compile(r"^```us\n(.*?)^```\n((?:(?!```)[^\n]*\n)*)^```script\n(.*?)^```\n", re.MULTILINE | re.DOTALL)
STATEMENT_ROW = re.compile(r"`([a-z_]+(?: [A-Z]+)*)`")
VALUE = re.compile(r"\b([A-Z]+_[A-Z_]+)\s(-?[0-9]+)\b")


tool, compare = loaded("script"), loaded("compare")


# What a source is translated to, in one line each: / stands for a line feed, and the four first lines are left out of the second text.
TRANSLATED = (
    ("a strict script", "thread/post 0 WM_APP r -1/let a WS_CHILD | WS_VISIBLE/let b 1 + 2/end", "thread/post 0 WM_APP r -1/let a WS_CHILD | WS_VISIBLE/let b 1 + 2/end"),
    ("comments, indentation, empty lines", "# a script//thread   # the first/    yield#now/\t//  end", "thread/yield/end"),
    ("line ends of Windows, no last one", "thread\r/  yield\r/end\r", "thread/yield/end"),
    ("an empty first character", "\ufeffthread/end", "thread/end"),
    ("hexadecimal", "thread/sleep 0x10/sleep 0XfF/sleep -0x10/sleep 0xFFFFFFFFFFFFFFFF/end", "thread/sleep 16/sleep 255/sleep -16/sleep 18446744073709551615/end"),
    ("sums of constants", "thread/post 0 WM_USER + 1 WS_CHILD|WS_VISIBLE 0-1/end", "thread/post 0 1025 1342177280 18446744073709551615/end"),
    ("& before |, + before &", "thread/sleep 1 | 2 + 2 & 6/end", "thread/sleep 5/end"),
    ("brackets", "thread/sleep 8 - (4 - 1)/end", "thread/sleep 5/end"),
    ("a sign and a difference", "thread/post 0 WM_USER r - 1 -1/post 0 WM_USER r-1 -1/end", "thread/let a r - 1/post 0 WM_USER a -1/let a r - 1/post 0 WM_USER a -1/end"),
    ("sums of variables", "proc p/return wp + lp + 1/end/thread/end", "proc p/let a wp + lp/let a a + 1/return a/end/thread/end"),
    ("two sums in a line", "thread/post 0 WM_USER gwp + 1 glp + 2/end", "thread/let a gwp + 1/let b glp + 2/post 0 WM_USER a b/end"),
    ("a bracket of variables", "thread/sleep (gwp + 1) & (glp | 2)/end", "thread/let a gwp + 1/let b glp | 2/let a a & b/sleep a/end"),
    ("a test with a sum", "thread/if gwp + 1 = 2/yield/else/snap/end/end", "thread/let a gwp + 1/if a = 2/yield/else/snap/end/end"),
    ("a loop with a sum", "thread/while gwp + 1 < 3/get/end/end", "thread/let a gwp + 1/while a < 3/get 0 0 0/let a gwp + 1/end/end"),
    ("> and ==", "thread/if r > 1/yield/end/if r == 1/yield/end/end", "thread/if 1 < r/yield/end/if r = 1/yield/end/end"),
    ("names", "thread/let count 1/let other = count + 1/sleep other/end", "thread/let a 1/let b a + 1/sleep b/end"),
    ("names beside letters", "thread/let a 1/let count a/sleep count/end", "thread/let a 1/let b a/sleep b/end"),
    ("a name of a procedure is the threads'", "proc p/let n n + 1/end/thread/let m 1/sleep m + n/end/thread/let k 2/sleep k/end",
     "proc p/let a a + 1/end/thread/let b 1/let c b + a/sleep c/end/thread/let b 2/sleep b/end"),
    ("a sum in a procedure keeps off the threads' variables", "proc p/sleep wp + 1/end/thread/let m 1/end", "proc p/let b wp + 1/sleep b/end/thread/let a 1/end"),
    ("print", "thread/print WM_USER/end", "thread/is_window WM_USER/end"),
    ("print of r and err", "thread/get/print r err gwp + 1/end", "thread/get 0 0 0/let a err/let b gwp + 1/is_window r/is_window a/is_window b/end"),
    ("arguments by name", "thread/send message=WM_USER window=16 lParam=2/send 16 message = WM_USER/end", "thread/send 16 WM_USER 0 2/send 16 WM_USER 0 0/end"),
    ("arguments that are left out", "thread/get/send 16 WM_USER/peek flags=PM_REMOVE/end", "thread/get 0 0 0/send 16 WM_USER 0 0/peek 0 0 0 PM_REMOVE/end"),
    ("names of classes by name", "proc p/end/thread/register class=c procedure=p/create c t style=WS_VISIBLE left=0 top=0 right=2 bottom=1/end",
     "proc p/end/thread/register c p 0/create c t 0 WS_VISIBLE 0 0 0 2 1/end"),
    ("words that are names", "proc r/end/thread/register end r 1/find order/message print/end", "proc r/end/thread/register end r 1/find order/message print/end"),
)

# Mistakes, and all that is told of them, in the same form.
MISTAKES = (
    ("posst 0 WM_USER", "6:1: no statement begins with 'posst'; is it 'post'?"),
    ("GetMessageW 0 0 0", "6:1: 'GetMessageW' is written 'get window? min? max?'"),
    ("show 16 1", "6:1: 'show' is a call that the statement 'show_window' makes; it is no statement itself"),
    ("post 0 WM_PINT", "6:8: 'WM_PINT' is no message and no constant; is it 'WM_PAINT'?"),
    ("post 0 wm_paint", "6:8: 'wm_paint' is written 'WM_PAINT'"),
    ("sleep wParam", "6:7: 'wParam' is written 'wp'"),
    ("post NULL WM_USER", "6:6: 'NULL' is written '0'"),
    ("send 16", "6:8: 'message' is missing: send window message wparam? lparam?"),
    ("yield now", "6:7: a word too many: yield"),
    ("sleep r -1", "6:9: a word too many: sleep ms; a difference is written with a space on both sides of '-', or on none"),
    ("send window=16 mesage=WM_USER", "6:16: 'send' has no 'mesage': send window message wparam? lparam?"),
    ("send window=16 window=17 message=0", "6:16: 'window' stands twice"),
    ("send window=16 WM_USER", "6:16: behind an argument by name all have their names"),
    ("sleep 010", "6:7: '010' has a leading zero"),
    ("sleep 0x1g", "6:7: '0x1g' is no number"),
    ("sleep 18446744073709551616", "6:7: '18446744073709551616' isn't 0 to 18446744073709551615 or -1 to -9223372036854775808"),
    ("sleep (1 + 2", "6:7: this bracket isn't closed"),
    ("sleep 1 +", "6:10: an operand is missing"),
    ("sleep " + "(" * 33 + "1" + ")" * 33, "6:39: brackets nest at most 32 deep"),
    ("sleep 2 * 3", "6:9: '*' can't stand here"),
    ("sleep \u00e9", "6:7: the character U+00E9 can't stand here"),
    ("yield ; waits", "6:7: a comment begins with '#'"),
    ("yield // waits", None),
    ("let r 1", "6:5: 'r' can't be set; 'let' sets a to h and names of your own"),
    ("let Count 1", "6:5: 'Count' is no name: a lower-case letter, and at most 31 of a to z, 0 to 9 and _"),
    ("let count 1/sleep cuont", "7:7: no 'let' sets a variable 'cuont'; is it 'count'?"),
    ("let x 1/end/thread/sleep x", "9:7: 'x' is set in another thread alone; a thread has variables of its own"),
    ("print r/sleep r", "7:7: 'r' is what 'print' has made of it; keep it by 'let' before, or print it in the same line"),
    ("get/while r = 1/get/print gmsg/end", "7:7: 'r' is what 'print' has made of it; keep it by 'let' before, or print it in the same line"),
    ("if a <= 3/end", "6:6: '<=' isn't there: write '<' with the operands changed over, and what is to be done behind 'else'"),
    ("if a/end", "6:5: a comparison, one of = != < >, has to stand here"),
    ("if a = 1/else if a = 2/end", "7:6: nothing stands behind 'else'; an 'if' has a line of its own, and an 'end' of its own"),
    ("else", "6:1: an 'else' stands in an 'if' that has none yet"),
    ("return 0", "6:1: 'return' stands in procedures alone"),
    ("end/end/thread", "7:1: no block is open that this 'end' could end"),
    ("if r = 1/yield/end/thread", "9:1: the 'thread' of line 5 isn't closed before this 'thread': an 'end' is missing"),
    ("  if r = 1/    yield", "5:1: this 'thread' isn't closed: an 'end' is missing; the 'end' of line 8 ends the 'if' of line 6, which is indented otherwise"),
    ("register c p", "6:12: no procedure 'p' begins above"),
    ("end/proc p", "7:1: a procedure stands before all threads"),
    ("budget 3", "6:1: no statement begins with 'budget'"),
    ("/".join(f"let n{k} {k}" for k in range(9)), "14:5: 'n8' is one variable too many: a thread has eight, together with those of all procedures"),
    ("/".join(f"let n{k} {k}" for k in range(8)) + "/sleep n1 + n2", "14:1: no variable is left for what this line works out first; all of a to h are in use"),
    ("/".join(["if 0 = 0"] * 33 + ["end"] * 33), "38:1: 'if' and 'while' nest at most 32 deep"),
    ("/".join(["end/thread"] * 15), "35:1: a script has at most 15 threads"),
    ("posst 1/sleep 010/if a ? b/sleep q/end/let w/yield", "6:1: no statement begins with 'posst'; is it 'post'?/7:7: '010' has a leading zero/8:6: '?' can't stand here/9:7: no 'let' sets a variable 'q'/11:6: an operand is missing"),
)


def lines_of(text):
    return text.replace("//", "\n\n").replace("/", "\n") + "\n"


def translations(trial):
    for name, source, strict in TRANSLATED:
        text = source.replace("//", "\n\n").replace("/", "\n")
        lines, mistakes = tool.translated(tool.decoded(text.encode()))
        found = tool.strict_text(lines).decode()
        wanted = HEAD + lines_of(strict)
        trial.tell(f"kinder form: {name}", None if found == wanted else f"it gives {found!r} {[it.text for it in mistakes]}")


def mistakes(trial):
    for body, told in MISTAKES:
        text = f"{HEAD}thread\n{body if told is None else body.replace('/', chr(10))}\nend\n"
        found = [f"{it.place[0]}:{it.place[1]}: {it.text}" for it in tool.translated(text)[1]]
        wanted = told.split("/") if told else ["6:7: a comment begins with '#'"]
        trial.tell(f"kinder form, mistake '{body[:40]}'", None if found == wanted else f"it is told as {found}")
    trial.tell("kinder form, mistakes", None if len(MISTAKES) >= 20 else "there are fewer than 20")


def back_and_forth(trial):
    """Each stored script, and random ones, give the same bytes again from the kinder form, and as they stand."""
    texts = [(str(path.relative_to(TOP)), path.read_bytes()) for path in sorted((TOP / "examples").rglob("*.script"))]
    texts += [(f"random script {seed}", compare.Writer(seed).text()) for seed in range(1, RANDOM_SCRIPTS + 1)]
    for name, text in texts:
        trial.tell(f"kinder form of {name}", back_fault(text))


def back_fault(text):
    try:
        kinder = tool.kinder(text)
    except tool.Unusable as why:
        return str(why)
    again = [tool.strict_text(tool.translated(tool.decoded(it))[0]) for it in (kinder, text)]
    return None if again == [text, text] else "it gives another script"


def tables(trial):
    """The statements, their counts of arguments, the messages and the constants are those of the manual."""
    text = MANUAL.read_text()
    rows = [line.split(" | ")[0] for line in text[text.index("\n## Statements") : text.index("\n## Mistakes")].splitlines() if line.startswith("| `")]
    told = {words[0]: len(words) - 1 for row in rows for words in map(str.split, STATEMENT_ROW.findall(row))}
    told = {word: count for word, count in told.items() if word not in tool.FLOW}
    known = {word: len(names) for word, names in tool.STATEMENTS.items()}
    trial.tell("statements of tools/script", None if told == known else f"other than the manual's: {set(told.items()) ^ set(known.items())}")
    section = text[text.index("\nMessages: WM_NULL") : text.index("\n### Answers")]
    values = {name: int(value) for name, value in VALUE.findall(section)}
    trial.tell("constants of tools/script", None if values == tool.VALUES else f"other than the manual's: {set(values.items()) ^ set(tool.VALUES.items())}")


def manual_examples(trial):
    """Each example of the kinder form in the manual gives the strict script below it."""
    found = KINDER.findall(MANUAL.read_text())
    for number, (source, _, strict) in enumerate(found, 1):
        lines, wrong = tool.translated(source)
        wanted = strict if strict.startswith("user 1\n") else HEAD + strict
        trial.tell(f"kinder example {number} of docs/SCRIPTS.md", None if tool.strict_text(lines).decode() == wanted else f"it gives another script {[it.text for it in wrong]}")
    trial.tell("kinder examples of docs/SCRIPTS.md", None if found else "there are none")


def ran(*words, text=b"", **how):
    how = {"input": text, "stdout": subprocess.PIPE, "stderr": subprocess.PIPE, **how}
    return subprocess.run([TOOL, *words], timeout=SECONDS, check=False, **how)


def command(trial):
    """The tool itself: its streams, its files and its status."""
    good, bad = b"# one\nthread\n  yield\nend\n", b"thread\nwalk\nsleep 01\nend\n"
    strict = f"{HEAD}thread\nyield\nend\n".encode()
    with tempfile.TemporaryDirectory() as folder:
        source, place = pathlib.Path(folder, "one.us"), pathlib.Path(folder, "map")
        source.write_bytes(good)
        it = ran(source, "--map", place)
        trial.tell("tools/script with a map", None if (it.returncode, it.stdout, it.stderr) == (0, strict, b"") and place.read_text().split() == ["2"] * 5 + ["3", "4"] else f"{it}")
        it = ran("--back", text=strict)
        trial.tell("tools/script --back", None if (it.returncode, it.stdout) == (0, HEAD.encode() + b"\nthread\n    yield\nend\n") else f"{it}")
        source.write_bytes(bad)
        it = ran(source, "--map", place.with_name("other"))
        told = f"{source}:2:1: no statement begins with 'walk'\n{source}:3:7: '01' has a leading zero\nscript: 2 mistakes; nothing was run\n"
        trial.tell("tools/script with mistakes", None if (it.returncode, it.stdout, it.stderr.decode()) == (2, b"", told) and not place.with_name("other").exists() else f"{it}")
        for name, words, text, said in (("a file that isn't there", [f"{folder}/none"], b"", "can't be read: No such file"), ("a folder", [folder], b"", "can't be read: Is a directory"),
                                        ("a map in no folder", ["--map", f"{folder}/none/map"], good, "can't be written: No such file"), ("no strict script", ["--back"], bad, "no strict script")):
            it = ran(*words, text=text)
            trial.tell(f"tools/script: {name}", None if it.returncode == 2 and not it.stdout and said in it.stderr.decode() and it.stderr.count(b"\n") == 1 else f"{it}")
    with open("/dev/full", "wb") as device:
        it = ran(text=good, stdout=device)
    trial.tell("tools/script to a full device", None if it.returncode == 2 and b"standard output can't be written" in it.stderr and b"Traceback" not in it.stderr else f"{it}")
    it = ran("--help")
    trial.tell("tools/script --help", None if it.returncode == 0 and tool.__doc__.splitlines()[0].encode() in it.stdout else f"{it}")


def kinder_form(trial):
    """All of these cases; none needs the built program."""
    for part in (translations, mistakes, back_and_forth, tables, manual_examples, command):
        part(trial)


if __name__ == "__main__":
    tally = Tally()
    kinder_form(tally)
    sys.exit(tally.ended())
