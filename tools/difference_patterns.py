"""The points where Wine 8.0 does otherwise, as the rows of docs/WINDOWS.md, and which entries of a run may touch them.

tools/differences.txt has the patterns and says what they are made of.
"""
import ast
import re
from typing import NamedTuple

from known_differences import holds
from launching import TOP

PAGE, PATTERNS = TOP / "docs/WINDOWS.md", TOP / "tools/differences.txt"
PART = re.compile(r"^## Where Wine 8\.0 does otherwise\n(.*?)^## ", re.MULTILINE | re.DOTALL)
CELLS = 5
USE = re.compile(r"\{([a-z_]+)\}")
WORDS = ("inside", "top", "before", "never", "where")


class Row(NamedTuple):
    """A row of the page: its point, what it says of this machine, of Wine and of the documentation, and its script."""
    point: str
    here: str
    wine: str
    documentation: str
    script: str

    def is_against(self):
        """Whether the documentation agrees with Wine against this machine."""
        return self.documentation.startswith("as Wine")


def rows():
    """The rows of the page where Wine does otherwise, by their points."""
    part = PART.search(PAGE.read_text(encoding="utf-8"))
    if not part:
        raise ValueError("docs/WINDOWS.md has no part 'Where Wine 8.0 does otherwise'")
    lines = [line.strip("| ").replace("**", "").split(" | ") for line in part[1].splitlines() if line.startswith("| ")]
    return {cells[0]: Row(*cells) for cells in lines if len(cells) == CELLS and cells[0] != "point"}


class Pattern(NamedTuple):
    """A part of a point: what an entry has to be, and what has to hold beside, in its order."""
    point: str
    entry: re.Pattern
    more: list


class Condition:
    """A line `before` or `never`: the entries of a run that it fits, by what stands for its names."""

    def __init__(self, text):
        self.names = list(dict.fromkeys(USE.findall(text)))
        self.pattern = re.compile(self.with_groups(text))

    def with_groups(self, text):
        """The expression with a group for each name, and at a name's second place what the first has found."""
        seen = set()

        def put(match):
            name = match[1]
            told = f"(?P=use_{name})" if name in seen else f"(?P<use_{name}>\\S+)"
            seen.add(name)
            return told

        return USE.sub(put, text)

    def places(self, lines):
        """The places of the lines that it fits, with what their groups found, by what stands for the names."""
        found = {}
        for place, line in enumerate(lines):
            match = self.pattern.fullmatch(line)
            if match:
                groups = match.groupdict()
                key = tuple(groups.pop(f"use_{name}") for name in self.names)
                found.setdefault(key, []).append((place, groups))
        return found

    def key(self, bound):
        return tuple(bound.get(name) for name in self.names)


def condition(word, text):
    """What stands behind a word of the data file, ready to be tried."""
    if word == "where":
        return ast.parse(text, mode="eval").body
    return Condition(text) if word in ("before", "never") else text


def pattern_of(block):
    """The pattern that some lines of the data file have."""
    lines = [line.partition(": ")[::2] for line in block.splitlines() if not line.startswith("#")]
    if [word for word, _ in lines[:2]] != ["point", "entry"] or any(word not in WORDS for word, _ in lines[2:]):
        words = ", ".join(WORDS)
        raise ValueError(f"tools/differences.txt: a pattern has 'point', 'entry' and then {words}: {block!r}")
    return Pattern(lines[0][1], re.compile(lines[1][1]), [(word, condition(word, text)) for word, text in lines[2:]])


def patterns():
    """All patterns of the data file."""
    blocks = re.split(r"\n\n+", PATTERNS.read_text(encoding="utf-8").strip())
    return [pattern_of(block) for block in blocks if not all(line.startswith("#") for line in block.splitlines())]


def frame_text(frame, entry):
    """A procedure that runs, as the lines `inside` and `top` see it."""
    call, answer = entry.call.split(" "), entry.answer.split(" ")
    if frame.kind == "inside":
        return " ".join([*answer[:3], *call[1:5]])
    return " ".join(["called", "0", answer[1], *call[1:5]] if frame.kind == "called" else answer)


class Touched:
    """Finds the points that the entries of a run may touch."""

    def __init__(self, story, known):
        self.story, self.known = story, known
        self.lines = [f"{it.who} {it.call} = {it.answer}" for it in story.entries]
        self.found = {}

    def points(self, entry):
        """The points of one entry, in the order of the data file."""
        text = f"{entry.call} = {entry.answer}"
        return list(dict.fromkeys(it.point for it in self.known if self.fits(it, entry, text)))

    def fits(self, pattern, entry, text):
        match = pattern.entry.fullmatch(text)
        bounds = ((name, value) for name, value in match.groupdict().items() if is_bound(name)) if match else ()
        if not match or not all(is_met(name, int(value)) for name, value in bounds):
            return False
        return self.holds(pattern.more, entry, {**match.groupdict(), "who": str(entry.who)})

    def holds(self, more, entry, bound):
        """Whether all further lines of a pattern hold, with what groups have found so far."""
        if not more:
            return True
        (word, what), rest = more[0], more[1:]
        if word == "where":
            return holds(what, bound) and self.holds(rest, entry, bound)
        if word == "never":
            return not any(True for _ in self.earlier(what, entry, bound)) and self.holds(rest, entry, bound)
        ways = self.earlier(what, entry, bound) if word == "before" else self.frames(what, entry, bound, word == "top")
        return any(self.holds(rest, entry, {**bound, **groups}) for groups in ways)

    def earlier(self, what, entry, bound):
        """What the groups of a condition find in the earlier entries that it fits, the last one first."""
        if what not in self.found:
            self.found[what] = what.places(self.lines)
        for place, groups in reversed(self.found[what].get(what.key(bound), [])):
            if place < entry.number - 1:
                yield groups

    def frames(self, text, entry, bound, is_top):
        """What the groups of an expression find in the procedures that run in the entry's thread."""
        pattern = re.compile(USE.sub(lambda name: re.escape(bound.get(name[1]) or ""), text))
        frames = [it for it in self.story.within[entry.number - 1] if it.kind != "wait"]
        for frame in frames[-1:] if is_top else frames:
            match = pattern.fullmatch(frame_text(frame, self.story.entries[frame.first - 1]))
            if match:
                yield match.groupdict()


def is_bound(name):
    return name.startswith(("over_", "bits_"))


def is_met(name, value):
    """Whether a number is above the one that the name of its group has, or has its bits."""
    kind, _, bound = name.partition("_")
    return value > int(bound) if kind == "over" else value & int(bound) == int(bound)


def touched(story):
    """The entries that may touch points, each with these."""
    finder = Touched(story, patterns())
    found = ((entry, finder.points(entry)) for entry in story.entries)
    return [(entry, points) for entry, points in found if points]
