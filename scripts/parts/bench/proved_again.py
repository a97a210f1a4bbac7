"""prints how many lines are proved again where a crate changes, and how long the longest chain of crates is

usage: scripts/bench proved-again [CRATE..]     all crates, if none is named

A crate is proved over those that crates.txt lists for it. Where one changes, it is proved again, and so is each crate that stands on it,
with its tests: the lines of src/, specs/ and proofs/ of all of them are counted. A path is a way from a crate through crates.txt down to
another: the kit sums a crate's sources once for each path that leads to it."""
from functools import lru_cache

from .. import TOP
from ..check.budget import lines_of


def libraries():
    """The repository's own crates that each crate stands on."""
    rows = {}
    for line in (TOP / "crates.txt").read_text(encoding="utf-8").splitlines():
        name, colon, words = line.split("#")[0].partition(":")
        if colon:
            rows[name.split()[0]] = words.split()
    return {name: [word for word in words if word in rows] for name, words in rows.items()}


def main(*names):
    below = libraries()

    @lru_cache(None)
    def all_below(name):
        return frozenset(below[name]).union(*(all_below(other) for other in below[name]))

    @lru_cache(None)
    def depth(name):
        return 1 + max((depth(other) for other in below[name]), default=0)

    @lru_cache(None)
    def paths(name):
        return 1 + sum(paths(other) for other in below[name])

    lines = {name: lines_of(TOP / "crates" / name) for name in below}
    again = {name: sum(lines[other] for other in below if other == name or name in all_below(other)) for name in below}
    print(f"{'crate':20} {'lines':>7} {'again':>8} {'chain':>6} {'paths':>6}")
    for name in sorted(names or below, key=lambda name: -again[name]):
        print(f"{name:20} {lines[name]:7,} {again[name]:8,} {depth(name):6} {paths(name):6,}")
