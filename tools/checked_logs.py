"""Logs for `user check`: logs of runs, which are legal, and logs damaged by hand, with the three lines that tell the first bad place."""

HEAD = "user 1\nscreen 8 4\nbudget {budget}\norder\n"
NO_SENDS = "sends begun 0 entered 0 proc 0 reply 0 loss 0 timeout 0 open 0"
BLANK = ["00000000"] * 4


class Case:
    """A script with the lines of the log of one of its runs, from that of the first entry on."""

    def __init__(self, script, lines, budget=100):
        self.script = HEAD.format(budget=budget) + "".join(f"{line}\n" for line in script)
        self.lines = lines

    def text(self, *changes):
        """The input: the script and its log. A change is a place in the log's lines, how many lines go, and what comes there."""
        lines = list(self.lines)
        for place, count, new in changes:
            lines[place : place + count] = new
        return (self.script + "".join(f"{line}\n" for line in ["log 1", *lines])).encode()


def threads(*bodies):
    return [line for body in bodies for line in ("thread", *body, "end")]


POSTS = Case(
    threads(
        ["post_thread 3 1024 1 0", "post_thread 3 1025 2 0"],
        ["post_thread 3 1024 3 0"],
        ["get 0 0 0"] * 3,
    ),
    [
        "1 post_thread 3 WM_USER 1 0 = posted 1",
        "2 post_thread 3 WM_USER 3 0 = posted 2",
        "3 get 0 0 0 = got posted 1 0 WM_USER 1 0 0 0 0",
        "1 post_thread 3 1025 2 0 = posted 3",
        "2 end_thread = ended",
        "3 get 0 0 0 = got posted 2 0 WM_USER 3 0 0 0 0",
        "1 end_thread = ended",
        "3 get 0 0 0 = got posted 3 0 1025 2 0 0 0 0",
        "3 end_thread = ended",
        "end done",
        NO_SENDS,
    ],
)

WAITS = Case(
    threads(["get 0 0 0"], ["get 0 0 0"]),
    [
        "1 get 0 0 0 = wait",
        "2 get 0 0 0 = wait",
        "0 advance = stuck",
        "end stuck",
        "waits 1 get 0 0 0",
        "waits 2 get 0 0 0",
        NO_SENDS,
    ],
)

SPINS = Case(
    threads(["while 1 = 1", "end"], []),
    ["1 yield = ok", "1 yield = ok", "2 end_thread = ended", "1 yield = ok", "end spent", "spent 1", NO_SENDS],
    budget=3,
)

SLEEPS = Case(
    threads(["sleep 5"]),
    [
        "1 clock = value 0",
        "1 sleep_until 5 = wait",
        "0 advance = advanced 5",
        "1 sleep_until 5 = ok",
        "1 end_thread = ended",
        "end done",
        NO_SENDS,
    ],
)

FRAMES = Case(
    threads(["snap", "snap"]),
    ["1 snap = snap 1", *BLANK, "1 snap = snap 2", *BLANK, "1 end_thread = ended", "end done", NO_SENDS],
)

CLICKS = Case(
    [
        "proc p",
        "default",
        "end",
        *threads(
            [
                "register c p 0",
                "create c t 0 WS_VISIBLE 0 1 0 7 4",
                "mouse WM_MOUSEMOVE 1 1",
                "mouse WM_LBUTTONDOWN 3 2",
                "get 0 0 0",
                "get 0 0 0",
                "key_state 1",
                "mouse WM_LBUTTONUP 0 0",
            ]
        ),
    ],
    [
        "1 register c p 0 = value 1",
        "1 new_window c t 0 268435456 0 1 0 7 4 = window 16",
        "1 send 16 WM_NCCREATE 0 0 = inside 1 p",
        "1 leave 1 = left 1",
        "1 send 16 WM_CREATE 0 0 = inside 2 p",
        "1 leave 0 = left 2",
        "1 mouse WM_MOUSEMOVE 1 1 = input 1",
        "1 mouse WM_LBUTTONDOWN 3 2 = input 2",
        "1 get 0 0 0 = got input 1 16 WM_MOUSEMOVE 0 65536 0 1 1",
        "1 get 0 0 0 = got input 2 16 WM_LBUTTONDOWN 0 131074 0 3 2",
        "1 key_state 1 = value 32768",
        "1 mouse WM_LBUTTONUP 0 0 = refused no_target",
        "1 end_thread = ended",
        "end done",
        NO_SENDS.replace("begun 0 entered 0 proc 0", "begun 2 entered 2 proc 2"),
    ],
)

# Another order of the entries, a run that is cut, and one that is cut before its first entry.
OTHER_RUNS = [
    ("entries 3 and 4 exchanged", POSTS.text((3, 2, POSTS.lines[4:2:-1])), 9),
    ("a run that is cut", POSTS.text((3, 7, ["end cut"])), 3),
    ("a run without entries", POSTS.text((0, 10, ["end cut"])), 0),
    ("a run that is cut before the clock goes on", SLEEPS.text((2, 4, ["end cut"])), 2),
    ("a run that is cut where only budgets are left", SPINS.text((2, 4, ["end cut"])), 2),
]

# Where each damage stands, what is found there, and what is kept in its place.
DAMAGES = [
    ("an entry of a thread that has ended", POSTS.text((9, 0, ["3 get 0 0 0 = wait"])), "9 over", "3 get 0 0 0 = wait", "ended"),
    ("an entry of an ended thread among others", POSTS.text((5, 0, ["2 end_thread = ended"])), "5 over", "2 end_thread = ended", "ended"),
    ("an entry of a thread that isn't there", POSTS.text((0, 0, ["4 yield = ok"])), "0 over", "4 yield = ok", "none"),
    ("an entry of actor 15", POSTS.text((8, 0, ["15 yield = ok"])), "8 over", "15 yield = ok", "none"),
    ("the clock after all have ended", POSTS.text((9, 0, ["0 advance = stuck"])), "9 over", "0 advance = stuck", "stop"),
    ("the clock after it is stuck", WAITS.text((3, 0, ["0 advance = stuck"])), "3 over", "0 advance = stuck", "stop"),
    ("an entry over the budget", SPINS.text((4, 0, ["1 yield = ok"])), "4 over", "1 yield = ok", "spent"),
    ("an entry of an idle thread", WAITS.text((1, 0, ["1 get 0 0 0 = wait"])), "1 barred", "1 get 0 0 0 = wait", "idle"),
    ("an entry of an idle thread after the clock is stuck", WAITS.text((3, 0, ["2 get 0 0 0 = wait"])), "3 barred", "2 get 0 0 0 = wait", "idle"),
    ("the clock before all", POSTS.text((0, 0, ["0 advance = busy 1"])), "0 barred", "0 advance = busy 1", "busy 1"),
    ("the clock while only thread 2 is busy", WAITS.text((1, 0, ["0 advance = stuck"])), "1 barred", "0 advance = stuck", "busy 2"),
    ("another wParam", POSTS.text((0, 1, ["1 post_thread 3 WM_USER 9 0 = posted 1"])), "0 call", "1 post_thread 3 WM_USER 9 0 = posted 1", "post_thread 3 WM_USER 1 0"),
    ("another call of a thread", POSTS.text((6, 1, ["1 get 0 0 0 = wait"])), "6 call", "1 get 0 0 0 = wait", "end_thread"),
    ("another call of the clock", SLEEPS.text((2, 1, ["0 tick 5 = value 5"])), "2 call", "0 tick 5 = value 5", "advance"),
    ("entries 0 and 1 exchanged", POSTS.text((0, 2, POSTS.lines[1::-1])), "0 answer", "2 post_thread 3 WM_USER 3 0 = posted 2", "posted 1"),
    ("another message", POSTS.text((2, 1, ["3 get 0 0 0 = got posted 2 0 WM_USER 3 0 0 0 0"])), "2 answer", "3 get 0 0 0 = got posted 2 0 WM_USER 3 0 0 0 0", "got posted 1 0 WM_USER 1 0 0 0 0"),
    ("another answer of the last entry", POSTS.text((8, 1, ["3 end_thread = refused not_now"])), "8 answer", "3 end_thread = refused not_now", "ended"),
    ("another time of the clock", SLEEPS.text((2, 1, ["0 advance = advanced 6"])), "2 answer", "0 advance = advanced 6", "advanced 5"),
    ("another number of a frame", FRAMES.text((5, 1, ["1 snap = snap 1"])), "1 answer", "1 snap = snap 1", "snap 2"),
    ("another pixel in a row", FRAMES.text((3, 1, ["00000f00"])), "0 frame", "00000f00", "00000000"),
    ("other pixels in the last row of the second frame", FRAMES.text((9, 1, ["10000001"])), "1 frame", "10000001", "00000000"),
    ("other pixels in two rows", FRAMES.text((6, 1, ["20000000"]), (9, 1, ["10000001"])), "1 frame", "20000000", "00000000"),
    ("a click at another pixel", CLICKS.text((7, 1, ["1 mouse WM_LBUTTONDOWN 4 2 = input 2"])), "7 call", "1 mouse WM_LBUTTONDOWN 4 2 = input 2", "mouse WM_LBUTTONDOWN 3 2"),
    ("another number of an input", CLICKS.text((7, 1, ["1 mouse WM_LBUTTONDOWN 3 2 = input 1"])), "7 answer", "1 mouse WM_LBUTTONDOWN 3 2 = input 1", "input 2"),
    ("inputs in another order", CLICKS.text((8, 2, [CLICKS.lines[9]])), "8 answer", CLICKS.lines[9], CLICKS.lines[8].partition(" = ")[2]),
    ("a click beside a window that is taken", CLICKS.text((11, 1, ["1 mouse WM_LBUTTONUP 0 0 = input 3"])), "11 answer", "1 mouse WM_LBUTTONUP 0 0 = input 3", "refused no_target"),
    ("another end", POSTS.text((9, 1, ["end cut"])), "9 end", "end cut", "end done"),
    ("the end of a run that isn't over", POSTS.text((8, 2, ["end done"])), "8 end", "end done", "end cut"),
    ("a waiting thread too few", WAITS.text((5, 1, [])), "3 end", NO_SENDS, "waits 2 get 0 0 0"),
    ("a waiting thread too many", WAITS.text((6, 0, ["waits 2 get 0 0 0"])), "3 end", "waits 2 get 0 0 0", NO_SENDS),
    ("the call of another wait", WAITS.text((4, 1, ["waits 1 get 0 0 1"])), "3 end", "waits 1 get 0 0 1", "waits 1 get 0 0 0"),
    ("another spent thread", SPINS.text((5, 1, ["spent 2"])), "4 end", "spent 2", "spent 1"),
    ("another count of sends", POSTS.text((10, 1, [NO_SENDS.replace("open 0", "open 1")])), "9 end", NO_SENDS.replace("open 0", "open 1"), NO_SENDS),
]

# Texts that are no script with a log.
REFUSED = [
    ("no text", b"", "1 end"),
    ("a script without a log", POSTS.script.encode(), "17 end"),
    ("a log without a script", POSTS.text()[len(POSTS.script) :], "1 words"),
    ("a log cut short", POSTS.text()[:-1], "28 bytes"),
    ("a log with another first line", POSTS.text().replace(b"log 1\n", b"log 2\n"), "17 operand"),
    ("a log with a word that is no call", POSTS.text((0, 1, ["1 walk = ok"])), "18 operand"),
    ("a log with a class that the script doesn't have", POSTS.text((0, 1, ["1 unregister c = ok"])), "18 name"),
    ("a script that is none, with its log", POSTS.text().replace(b"budget 100\n", b"budget 0\n"), "3 limit"),
    ("a log twice", POSTS.text() + POSTS.text()[len(POSTS.script) :], "29 words"),
]
