"""Known differences as data: files that tell one from the first bad place of a history.

A file has lines `word: text`. `documentation`, `here` and `wine` are for people, `script` names a script that shows the difference, and
`pattern` is a regular expression for the whole of

    REASON | CALL = ANSWER | KEPT

of the first bad place: the reason of `check`, the entry that was found without its thread, and what was kept. Each line `before` is a
regular expression that the whole of some earlier entry of the history has to fit, and each line `never` one that none may fit; {who}
stands there for the thread of the bad place, and {NAME} for the group NAME of the pattern. Each line `where` compares groups of the pattern as
numbers, as `left <= least` or `here & 32 != there & 32`; one whose groups the pattern hasn't is passed over. Lines `pattern` may be several.
"""
import ast
import operator
import pathlib
import re
from typing import NamedTuple

WORDS = {"documentation", "here", "wine", "script", "pattern", "before", "never", "where"}
OPERATORS = {ast.Add: operator.add, ast.Sub: operator.sub, ast.BitAnd: operator.and_, ast.BitOr: operator.or_, ast.BitXor: operator.xor,
             ast.Lt: operator.lt, ast.LtE: operator.le, ast.Gt: operator.gt, ast.GtE: operator.ge, ast.Eq: operator.eq, ast.NotEq: operator.ne}


class Known(NamedTuple):
    """A known difference: its name, its patterns, and what has to stand before, and what may not."""
    name: str
    patterns: list
    before: list
    never: list
    where: list
    texts: dict


class Place(NamedTuple):
    """The first bad place of a history: its number, the reason, and the two lines."""
    number: int
    reason: str
    found: str
    kept: str

    def who(self):
        return self.found.partition(" ")[0]

    def text(self):
        found = self.found if self.reason in ("frame", "end") else self.found.partition(" ")[2]
        return f"{self.reason} | {found} | {self.kept}"

    def family(self):
        """What stays the same where a script is made smaller: the reason and the words of call and answers."""
        call, _, answer = self.found.partition(" ")[2].partition(" = ")
        return self.reason, call.partition(" ")[0], answer.partition(" ")[0], self.kept.partition(" ")[0]


def read_known(path):
    """The known difference of a file; ValueError with a sentence where it is none."""
    texts = {word: [] for word in WORDS}
    for number, line in enumerate(path.read_text(encoding="utf-8").splitlines(), 1):
        word, colon, text = line.partition(": ")
        if not colon or word not in WORDS:
            raise ValueError(f"{path}:{number}: a line is 'word: text', the word one of {', '.join(sorted(WORDS))}")
        texts[word].append(text)
    try:
        patterns = [re.compile(text) for text in texts["pattern"]]
        where = [ast.parse(text, mode="eval").body for text in texts["where"]]
    except (re.error, SyntaxError) as error:
        raise ValueError(f"{path}: {error}") from error
    if not patterns:
        raise ValueError(f"{path}: no line 'pattern'")
    return Known(path.name, patterns, texts["before"], texts["never"], where, texts)


def read_folders(folders):
    """All known differences of some folders, by rising name."""
    paths = [path for folder in folders for path in sorted(pathlib.Path(folder).iterdir()) if path.is_file() and not path.name.startswith(".")]
    return [read_known(path) for path in paths]


def fits(known, place, earlier):
    """Whether a first bad place, behind these entries, is this known difference."""
    for pattern in known.patterns:
        match = pattern.fullmatch(place.text())
        if match and all(holds(test, match.groupdict()) for test in known.where) and all(
                stands(text, place, match, earlier) for text in known.before) and not any(
                stands(text, place, match, earlier) for text in known.never):
            return True
    return False


def holds(test, groups):
    """Whether a line `where` holds of the groups, or speaks of others."""
    names = {node.id for node in ast.walk(test) if isinstance(node, ast.Name)}
    return any(groups.get(name) is None for name in names) or bool(value(test, groups))


def value(node, groups):
    """The value of a term or a comparison."""
    if isinstance(node, ast.Name):
        return int(groups[node.id])
    if isinstance(node, ast.Constant):
        return node.value
    if isinstance(node, ast.BinOp):
        return OPERATORS[type(node.op)](value(node.left, groups), value(node.right, groups))
    if isinstance(node, ast.BoolOp):
        values = [value(part, groups) for part in node.values]
        return any(values) if isinstance(node.op, ast.Or) else all(values)
    if isinstance(node, ast.Compare):
        sides = [value(side, groups) for side in (node.left, *node.comparators)]
        return all(OPERATORS[type(test)](one, other) for test, one, other in zip(node.ops, sides, sides[1:]))
    raise ValueError(f"a line 'where' has {ast.unparse(node)!r}")


def stands(text, place, match, earlier):
    """Whether an earlier entry fits one of the lines `before` or `never`."""
    filled = re.sub(r"\{([a-z]+)\}", lambda name: re.escape(place.who() if name[1] == "who" else match.groupdict()[name[1]] or ""), text)
    pattern = re.compile(filled)
    return any(pattern.fullmatch(entry) for entry in earlier)


def name_of(all_known, place, log):
    """The names of the known differences that a first bad place is."""
    entries = [line for line in log.splitlines() if " = " in line][: place.number]
    return [known.name for known in all_known if fits(known, place, entries)]
