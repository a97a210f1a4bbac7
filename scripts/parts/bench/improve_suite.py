"""prints what `ttp improve --workers 1 --seed 1` makes of leagues of all kinds

usage: scripts/bench improve-suite [EFFORT [PROGRAM]]     1

A row has the total of the start, or none where it breaks hard limits, the total that was found, and the seconds that it took. The leagues
are those of scripts/oracle league, plain, with hard rules that can be kept, and in phased mode. Then the same for leagues of wishes alone,
beside what a search of two million steps finds. One search runs at a time. The last line says how many leagues ended without a schedule
that is better than their start and, for wishes, than that of the search; the status is 1 if there is one."""
from .. import leagues
from ..programs import head, improved, program, row, started, total

PLAIN = {"circle": (14, 18, 24, 30, 40), "constant": (14, 18, 24, 30, 40), "plane": (8, 12, 20, 40), "coasts": (8, 12, 20, 40)}
OTHERS = {"circle": (8, 12, 20, 40), "constant": (8, 12, 20, 40), "plane": (12, 20, 40), "coasts": (12, 20, 40)}
SUITE = [
    (kind, teams, extras)
    for sizes_of, extras in ((PLAIN, ()), (OTHERS, ("rules",)), (OTHERS, ("phased",)))
    for kind, sizes in sizes_of.items()
    for teams in sizes
]
WISHES = [(kind, 16, extras) for kind in ("nowhere", "constant") for extras in (("wishes",), ("wishes", "phased"))]
SEARCH = ("search", "--slack", 20, "--steps", 1000000, "--room", 1048576)


def shown(found):
    return "none" if found is None else str(found)


def is_better(found, other):
    return found is not None and (other is None or found < other)


def suite(command, effort, rows, *searches):
    """A table of these leagues, with what each of the searches finds. How many of them end without a better schedule."""
    missing = 0
    head("League", "Start", *["Search"] * len(searches), "Found", "Seconds")
    for kind, teams, extras in rows:
        given = leagues.text(kind, teams, extras=extras)
        others = [started(command, given), *(total(command, *words, given=given) for words in searches)]
        found, seconds = improved(command, given, effort, 1)
        missing += not all(is_better(found, other) for other in others)
        row(" ".join([f"{kind} of {teams}", *extras]), *map(shown, [*others, found]), f"{seconds:.1f}")
    print()
    return missing


def main(effort=1, *words):
    command = program(words)
    missing = suite(command, effort, SUITE) + suite(command, effort, WISHES, SEARCH)
    print(f"{len(SUITE) + len(WISHES)} leagues, {missing} of them without a better schedule")
    return bool(missing)
