"""What a new user does wrong, and what is said: scripts as one would write them, and words of the command.

Each was looked at on both streams. A script is in one line, with / for a line feed and HEAD for the four first lines; then
come the status and how the last line on standard error begins. The words are the launcher's; none reaches the program.
"""
import subprocess

from launching import TOP
from told_cases import answered

HEAD = "user 1\nscreen 8 4\nbudget 100\norder\n"
SECONDS = 60
KINDER = "user: the kinder form takes this text: let the file's name end in .us"
HEADS = "line 1: a script begins with the lines 'user 1', 'screen W H', 'budget N' and 'order'"
SCRIPTS = (
    ("empty", "", 3,
     "line 1: the text is empty: a script begins with the lines 'user 1', 'screen W H', 'budget N'"),
    ("only header", "HEAD/", 3,
     "line 5: the text ends here; each 'proc', 'thread', 'if' and 'while' has its 'end', and there is"),
    ("no last newline", "HEAD/thread/end", 3, KINDER),
    ("CRLF", "user 1\r/screen 8 4\r/budget 100\r/order\r/thread\r/end\r/", 3, KINDER),
    ("BOM", "\ufeffuser 1/screen 8 4/budget 100/order/thread/end/", 3,
     "line 1: the text begins with a byte order mark of UTF-8, which an editor has put there: save"),
    ("comment #", "HEAD/# hello/thread/end/", 3,
     "line 5: there are no comments in this form; a file whose name ends in .us may have them, behind"),
    ("comment ;", "HEAD/; hello/thread/end/", 3,
     "line 5: there are no comments in this form; a file whose name ends in .us may have them, behind"),
    ("blank line", "HEAD//thread/end/", 3, KINDER),
    ("indent", "HEAD/thread/    yield/end/", 3, KINDER),
    ("tab", "HEAD/thread/\tyield/end/", 3, KINDER),
    ("two spaces", "HEAD/thread/get 0  0 0/end/", 3, KINDER),
    ("trailing space", "HEAD/thread/yield /end/", 3, KINDER),
    ("user 2", "user 2/screen 8 4/budget 100/order/thread/end/", 3, "line 1: 'user 2': 'user 1' stands here"),
    ("User 1", "User 1/screen 8 4/budget 100/order/thread/end/", 3, HEADS),
    ("screen 800 600", "user 1/screen 800 600/budget 100/order/thread/end/", 3,
     "line 2: 'screen 800 600': 'screen W H' stands here, W from 1 to 128 and H from 1 to 64"),
    ("screen 8x4", "user 1/screen 8x4/budget 100/order/thread/end/", 3, "line 2: '8x4' is no number"),
    ("budget 0", "user 1/screen 8 4/budget 0/order/thread/end/", 3,
     "line 3: 'budget 0': 'budget N' stands here, N from 1 to 65536"),
    ("budget big", "user 1/screen 8 4/budget 100000/order/thread/end/", 3,
     "line 3: 'budget 100000': 'budget N' stands here, N from 1 to 65536"),
    ("order with 0", "user 1/screen 8 4/budget 100/order 0 1/thread/end/", 3,
     "line 4: 'order 0 1': 'order' stands here, and behind it at most 65536 numbers from 1 to 15"),
    ("order commas", "user 1/screen 8 4/budget 100/order 1,2/thread/end/", 3,
     "line 4: 'order 1,2': 'order' stands here, and behind it at most 65536 numbers from 1 to 15"),
    ("header order", "screen 8 4/user 1/budget 100/order/thread/end/", 3, HEADS),
    ("no header", "thread/yield/end/", 3, HEADS),
    ("GetMessage", "HEAD/thread/GetMessage 0 0 0/end/", 3, "line 6: 'GetMessage' is written 'get WINDOW MIN MAX'"),
    ("get_message", "HEAD/thread/get_message 0 0 0/end/", 3,
     "line 6: 'get_message' is written 'get WINDOW MIN MAX'"),
    ("gte typo", "HEAD/thread/gte 0 0 0/end/", 3, "line 6: no statement begins with 'gte'; is it 'get'?"),
    ("too few words", "HEAD/thread/get/end/", 3, KINDER),
    ("too many words", "HEAD/thread/get 0 0 0 0/end/", 3, "line 6: the form is 'get WINDOW MIN MAX'"),
    ("wm_paint", "HEAD/thread/post 0 wm_paint 0 0/end/", 3, "line 6: 'wm_paint' is written 'WM_PAINT'"),
    ("WM_PANT", "HEAD/thread/post 0 WM_PANT 0 0/end/", 3,
     "line 6: 'WM_PANT' is no message and no constant; is it 'WM_PAINT'?"),
    ("wParam", "HEAD/proc p/return wParam/end/thread/end/", 3, "line 6: 'wParam' is written 'wp'"),
    ("WM_USER+1", "HEAD/thread/post 0 WM_USER+1 0 0/end/", 3, KINDER),
    ("0x400", "HEAD/thread/post 0 0x400 0 0/end/", 3, KINDER),
    ("a|b", "HEAD/thread/let a WS_CHILD|WS_VISIBLE/end/", 3, KINDER),
    ("leading zero", "HEAD/thread/sleep 010/end/", 3, "line 6: '010' has a leading zero"),
    ("float", "HEAD/thread/sleep 1.5/end/", 3,
     "line 6: 'sleep 1.5': '1.5' is no number, no name of a message or a constant, and no variable"),
    ("negative big", "HEAD/thread/sleep -99999999999999999999/end/", 3,
     "line 6: 'sleep -99999999999999999999': '-99999999999999999999' isn't 0 to 18446744073709551615"),
    ("let =", "HEAD/thread/let a = 1/end/", 3, KINDER),
    ("let i", "HEAD/thread/let i 1/end/", 3, KINDER),
    ("if ==", "HEAD/thread/if a == 1/end/end/", 3, KINDER),
    ("if <=", "HEAD/thread/if a <= 1/end/end/", 3,
     "line 6: '<=' isn't there: write '<' with the operands changed over, and what is to be done"),
    ("else if", "HEAD/thread/if a = 1/else if a = 2/end/end/", 3,
     "line 7: nothing stands behind 'else'; an 'if' has a line of its own, and an 'end' of its own"),
    ("missing end", "HEAD/thread/if a = 1/yield/end/", 3,
     "line 5: this 'thread' isn't closed: an 'end' is missing"),
    ("end too many", "HEAD/thread/end/end/", 3, "line 7: 'end': no block is open that it could end"),
    ("proc after thread", "HEAD/thread/end/proc p/end/", 3,
     "line 7: 'proc p': a procedure stands before all threads, and in no other block"),
    ("register unknown proc", "HEAD/thread/register c nowhere 0/end/", 3,
     "line 6: 'register c nowhere 0': 'nowhere' is no procedure that begins above"),
    ("return in thread", "HEAD/thread/return 0/end/", 3, "line 6: 'return 0': it stands in procedures alone"),
    ("default in thread", "HEAD/thread/default/end/", 3, "line 6: 'default': it stands in procedures alone"),
    ("capital name", "HEAD/thread/find Shop/end/", 3,
     "line 6: 'find Shop': 'Shop' is no name: a lower-case letter, and at most 31 of a to z, 0 to 9"),
    ("quoted title", "HEAD/thread/find \"shop\"/end/", 3,
     "line 6: 'find \"shop\"': '\"shop\"' is no name: a lower-case letter, and at most 31 of a to z, 0 to"),
    ("non-ascii", "HEAD/thread/find \u00e9/end/", 3, "line 6: 'find ??': a byte that is no printable ASCII"),
    ("thread numbered", "HEAD/thread 1/end/", 3, "line 5: 'thread 1': words behind 'thread': 0"),
    ("no thread", "HEAD/proc p/end/", 3,
     "line 7: the text ends here; each 'proc', 'thread', 'if' and 'while' has its 'end', and there is"),
    ("semicolon end", "HEAD/thread;/end/", 3, "line 5: 'thread;': no statement begins with this word"),
    ("braces", "HEAD/thread {/}/", 3, "line 5: 'thread {': words behind 'thread': 0"),
    ("loop for", "HEAD/thread/for a 1 3/end/end/", 3, "line 6: 'for a 1 3': no statement begins with this word"),
    ("break", "HEAD/thread/while 0 = 0/break/end/end/", 3, "line 7: 'break': no statement begins with this word"),
    ("WM_TIMER arg", "HEAD/thread/set_timer 16 1 100 0/end/", 3, "line 6: the form is 'set_timer WINDOW ID MS'"),
    ("ERROR const", "HEAD/thread/if err = ERROR_TIMEOUT/end/end/", 3, "line 6: 'ERROR_TIMEOUT' is written '1460'"),
    ("TRUE", "HEAD/thread/enable_window 16 TRUE/end/", 3, "line 6: 'TRUE' is written '1'"),
    ("NULL", "HEAD/thread/get NULL 0 0/end/", 3, "line 6: 'NULL' is written '0'"),
    ("new_window", "HEAD/thread/new_window c t 0 0 0 0 0 1 1/end/", 3,
     "line 6: 'new_window' is a call that the statement 'create' makes; it is no statement itself"),
    ("no budget", "user 1/screen 8 4/budget 3/order/thread/while 0 = 0/end/end/", 5,
     "user: spent: thread 1 has used the budget of entries, which the script's third line tells"),
    ("waits forever", "HEAD/thread/get 0 0 0/end/", 4,
     "user: thread 1 waits for a message: none is there, and nobody is left who could post or send"),
    ("nccreate 0", "HEAD/proc p/return 0/end/thread/register c p 0/create c t 0 0 0 0 0 1 1/end/", 0, ""),
    ("class before register", "HEAD/proc p/return 1/end/thread/create c t 0 0 0 0 0 1 1/end/", 0, ""),
    ("find too early", "HEAD/proc p/return 1/end/thread/register c p 0/create c t 0 0 0 0 0 1 1/"
     "get 0 0 0/end/thread/find t/send r WM_USER 0 0/end/", 4,
     "user: thread 1 waits for a message: none is there, and nobody is left who could post or send"),
    ("post to self without get", "HEAD/thread/post 0 WM_USER 0 0/end/", 0, ""),
)
WORDS = (
    ("", "user: which word?"),
    ("run nofile", "user: there is no file 'nofile'"),
    ("run .", "user: '.' is a folder"),
    ("run a b", "user: 'run' takes one file"),
    ("Run x", "user: no word 'Run'"),
    ("-run", "user: no word '-run'"),
    ("--version", "user: no word '--version'"),
    ("run --jsn x", "user: 'run' has no word '--jsn'"),
    ("check examples/first.script", "user: 'check' takes a script and a log"),
    ("threads examples/first.script", "user: 'threads' takes a number of groups, 1 to 15"),
    ("threads 0 examples/first.script", "user: 'threads' takes a number of groups, 1 to 15"),
    ("threads two", "user: 'threads' takes a number of groups, 1 to 15"),
    ("make", "user: 'make' takes a number of posts, 1 to 60000"),
    ("make 1e3", "user: 'make' takes a number of posts, 1 to 60000"),
    ("make -1", "user: 'make' takes a number of posts, 1 to 60000"),
    ("test fast", "user: 'test' takes no other word"),
    ("help run", "user: 'help' takes no other word"),
    ("run -- examples/first.script", "user: 'run' has no word '--'"),
    ("run examples/first.script --json", "user: '--json' stands before the file, directly behind 'run'"),
    ("run examples/first.script --fields", "user: '--fields' stands before the file, directly behind 'run'"),
    ("examples/first.script", "user: no word 'examples/first.script', but a file; './user run examples/first.script' runs a script"),
    ("explore examples/first.script", "user: no word 'explore'"),
)


def told_fault(ran, status, told):
    """What is wrong with a run that has to say this in its last line, or None."""
    said = ran.stderr.decode(errors="replace").splitlines() or [""]
    if ran.returncode != status or bool(ran.stdout) == (status == 2):
        return f"status {ran.returncode}, {ran.stdout[:80]!r} written, {said} told"
    if not said[-1].startswith(told) or bool(said[-1]) != bool(told):
        return f"it said {said}"
    return None if all(" " <= it <= "~" for line in said for it in line) else f"it said {said}, which isn't plain"


def new_user(trial):
    """All of these cases."""
    for name, text, status, told in SCRIPTS:
        source = text.replace("HEAD/", HEAD, 1).replace("/", "\n").encode()
        trial.tell(f"a new user's {name}", told_fault(answered(trial.program, ["run"], source), status, told))
    for words, told in WORDS:
        command = [TOP / "user", *words.split()]
        ran = subprocess.run(command, cwd=TOP, input=b"", capture_output=True, timeout=SECONDS, check=False)
        said = ran.stderr.decode().split("\n")
        right = (ran.returncode, ran.stdout, said[0]) == (2, b"", told)
        fault = None if right else f"status {ran.returncode}, it said {said}"
        trial.tell(f"a new user's words '{words}'", fault)
