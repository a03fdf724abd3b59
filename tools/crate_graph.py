"""The crates that one is made of, and an estimate of how long their proofs take."""
import os
import pathlib

from launching import TOP

# For each crate the processor seconds of its proof and its library on one machine; see docs/MEASURED.md.
SECONDS = pathlib.Path(__file__).resolve().parent / "crate-seconds"
# What the first proof of a crate that isn't listed is taken for, in seconds.
UNKNOWN = 60.0
# How much the first crates say of this machine, against the one that was measured: they count as if so many seconds had gone as they did there.
PRIOR = 120.0
# As many proofs side by side as there are processors, where each has so many KB of memory.
ROOM = 3_000_000


def crates_below(name):
    """The crates of the repository that this one is made of, itself among them, each with those of them that it names."""
    uses = {}
    for line in (TOP / "crates.txt").read_text().splitlines():
        head, colon, rest = line.split("#")[0].partition(":")
        if colon:
            uses[head.split()[0]] = rest.split()
    found, open_names = {}, [name]
    while open_names:
        crate = open_names.pop()
        if crate not in found:
            found[crate] = {it for it in uses[crate] if it in uses}
            open_names += found[crate]
    return found


def side_by_side():
    """How many proofs run at a time."""
    most = os.cpu_count() or 1
    for line in pathlib.Path("/proc/meminfo").read_text().splitlines():
        if line.startswith("MemAvailable:"):
            most = min(most, int(line.split()[1]) // ROOM)
    return max(most, 1)


def measured():
    """The seconds of each crate, as listed."""
    rows = (line.split()[:2] for line in SECONDS.read_text().splitlines() if line and not line.startswith("#"))
    return {name: float(seconds) for name, seconds in rows}


class Estimate:
    """How long what is left takes: the proofs of the crates, so many at a time, each after those below it, as on the machine that was measured, times what the first ones took here."""

    def __init__(self, uses, lanes):
        self.uses, self.lanes = uses, lanes
        listed = measured()
        self.seconds = {it: listed.get(it, UNKNOWN) for it in uses}
        self.chains = {}

    def chain(self, crate):
        """The seconds of the longest chain of crates that wait for it, its own among them."""
        if crate not in self.chains:
            above = [self.chain(it) for it in self.uses if crate in self.uses[it]]
            self.chains[crate] = self.seconds[crate] + max(above, default=0.0)
        return self.chains[crate]

    def span(self, done):
        """The seconds until all crates are proved that aren't done, on the machine that was measured."""
        done, ends, now = set(done), {}, 0.0
        while len(done) < len(self.uses):
            ready = [it for it in self.uses if it not in done and it not in ends and self.uses[it] <= done]
            for crate in sorted(ready, key=self.chain, reverse=True)[: self.lanes - len(ends)]:
                ends[crate] = now + self.seconds[crate]
            crate = min(ends, key=ends.get)
            now = ends.pop(crate)
            done.add(crate)
        return now

    def left(self, kept, proved, gone):
        """The seconds that are left here, after so many that are gone. `kept` were proved before, and `proved` since then."""
        whole, rest = self.span(kept), self.span(set(kept) | set(proved))
        return rest * (gone + PRIOR) / (whole - rest + PRIOR)


def in_words(seconds):
    """A time for people."""
    return f"{seconds:.0f} s" if seconds < 120 else f"{seconds / 60:.0f} minutes"
