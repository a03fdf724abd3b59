"""Damaged histories: an entry dropped, two exchanged, or a number changed. None of them may pass as a known difference."""
import random

from on_windows_run import Missing


def damaged(log, seed):
    """The history with one thing changed, or None where there is nothing to change."""
    chance, lines = random.Random(seed), log.splitlines()
    entries = [place for place, line in enumerate(lines) if " = " in line and not line.endswith("= wait")]
    if len(entries) < 2:
        return None
    kind, place = chance.randrange(3), chance.choice(entries)
    if kind == 0:
        del lines[place]
    elif kind == 1:
        other = chance.choice([entry for entry in entries if entry != place])
        lines[place], lines[other] = lines[other], lines[place]
    else:
        words = lines[place].split(" ")
        numbers = [at for at, word in enumerate(words) if at and word.isdigit()]
        if not numbers:
            return None
        at = chance.choice(numbers)
        words[at] = str(int(words[at]) + chance.choice([1, 2, 16]))
        lines[place] = " ".join(words)
    return "".join(f"{line}\n" for line in lines)


def judge_damaged(player, histories, wanted):
    """How many of so many damaged histories are told as what; those that are legal all the same are counted beside them."""
    told, legal, seed = {"differs": 0, "known": 0}, 0, 0
    wrong = []
    while sum(told.values()) < wanted and histories and seed < 20 * wanted:
        seed += 1
        name, text, log = histories[seed % len(histories)]
        bad = damaged(log, seed)
        try:
            outcome = player.judge(name, text, bad) if bad else None
        except Missing:
            continue  # no log any more: `check` refuses it
        if outcome and outcome.kind == "legal":
            legal += 1
        elif outcome:
            told[outcome.kind] += 1
            if outcome.kind == "known":
                wrong.append((name, seed, outcome))
    return told, legal, wrong
