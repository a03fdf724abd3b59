"""Makes a script smaller: takes lines and blocks away while the script still differs in the same way."""

OPENERS = ("proc", "thread", "if", "while")
HEAD = 4


def same(outcome, wanted):
    """Whether a smaller script differs as the one at the beginning did."""
    if outcome.kind != wanted.kind or outcome.place is None:
        return False
    return outcome.names == wanted.names if wanted.names else outcome.place.family() == wanted.place.family()


def end_of(lines, at):
    """The place of the `end` of the block that begins here."""
    open_blocks = 0
    for place in range(at, len(lines)):
        word = lines[place].split(" ")[0]
        open_blocks += word in OPENERS
        open_blocks -= word == "end"
        if not open_blocks:
            return place
    return len(lines) - 1


def smaller(lines):
    """Scripts with something taken away, the most first."""
    found = []
    for at in range(HEAD, len(lines)):
        word = lines[at].split(" ")[0]
        if word in OPENERS:
            end = end_of(lines, at)
            found.append((end - at + 1, lines[:at] + lines[end + 1:]))
            if word in ("if", "while"):
                found.append((2, [line for place, line in enumerate(lines) if place not in (at, end) and not (line == "else" and at < place < end)]))
        elif word not in ("end", "else"):
            found.append((1, lines[:at] + lines[at + 1:]))
    if len(lines[3].split()) > 1:
        found.append((0, [*lines[:3], "order", *lines[4:]]))
    return [script for _, script in sorted(found, key=lambda one: -one[0])]


def shrink(text, play, say):
    """The smallest script found, and its outcome; `play` gives the outcome of a text."""
    lines, wanted = text.splitlines(), play(text)
    if wanted.place is None:
        return text, wanted
    best, tried, going = wanted, 0, True
    while going:
        going = False
        for candidate in smaller(lines):
            tried += 1
            outcome = play("".join(f"{line}\n" for line in candidate))
            if same(outcome, wanted):
                lines, best, going = candidate, outcome, True
                say(f"{len(lines)} lines, {tried} tried")
                break
    return "".join(f"{line}\n" for line in lines), best
