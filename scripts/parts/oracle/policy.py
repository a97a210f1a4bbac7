"""prints what crates/policy_tests expects of the policy: some legs of some walks, and sums over all of their legs

usage: scripts/oracle policy

What a leg that heats comes to is made up, by arithmetic on its bout: it becomes feasible after
one to five thousand steps, or never. So of the walks that are no repairs, "heated" and "stuck" ones have a first half without a feasible
version, and the tries after it, if they come, become feasible or never. Those that are "going" have a first chain that goes on from a
given start. Starts of the last walks break hard rules."""
from ..waves import cooled, heats, repair, search

WALKS = (
    (16, 10**6, "no"),
    (8, 10**7, "no"),
    (20, 10**8, "no"),
    (20, 3 * 10**7, "no"),
    (40, 12_345_678, "no"),
    (14, 5 * 10**6, "no"),
    (14, 7 * 10**6, "no"),
    (4, 50, "no"),
    (16, 10**6, "going"),
    (4, 50, "going"),
    (12, 10**6, "feasible"),
    (12, 10**7, "feasible"),
    (18, 3_333_333, "never"),
    (6, 7, "never"),
    (20, 10**7, "heated"),
    (10, 10**7, "heated"),
    (16, 10**6, "stuck"),
    (10, 10**7, "stuck"),
    (4, 50, "stuck"),
    (16, 10**6, "no", True),
    (20, 10**7, "heated", True),
    (20, 3 * 10**7, "stuck", True),
    (16, 10**6, "going", True),
    (12, 10**7, "heated", True),
    (18, 3_333_333, "never", True),
)
SHOWN = ((0, 0, 0), (0, 1, 1), (0, 3, 0), (0, 4, 0), (0, 6, 0), (1, 0, 0), (1, 1, 1), (2, 0, 1), (2, 3, 0), (7, 3, 0), (13, 3, 0))


def legs_of(bout, number, feasible, source):
    """The legs of a bout, and what it came to."""
    leg, *more = bout
    if not heats(leg):
        return [leg, *more], True if feasible == "all" else None
    if feasible == "never":
        return [leg, *cooled(leg, leg[3], source)], None
    moves, _, most, share = leg
    steps, hot = min(share, 1000 * (1 + number % 5)), min(most, 1700) - number % 5 * 100
    return [leg, (moves, hot, 150 if source == "Copies" else 100, share - steps)], hot


def show(n, effort, repairs, breaks_rules=False):
    print(f"{n} teams, {effort} steps, repairs: {repairs}{', breaks rules' if breaks_rules else ''}")
    policy = repair(effort) if repairs in ("feasible", "never") else search(n, effort, repairs == "going", breaks_rules)
    feasible = {"no": "all", "going": "all", "feasible": "heated", "stuck": "never"}.get(repairs, repairs)
    number, legs, of_waves, of_legs, told, wave = 0, 0, 0, 0, [], next(policy)
    while wave:
        source, keep, bouts, _ = wave
        told.append(f"{source} {len(bouts)} {keep}")
        of_waves += (number + 1) * (100 * len(bouts) + 10 * keep + ("Start", "Own", "Copies").index(source))
        came_to = []
        for b, bout in enumerate(bouts):
            taken, end = legs_of(bout, b, feasible, source)
            came_to.append(end)
            for place, leg in enumerate(taken):
                if leg[3] == 0:
                    continue
                legs += 1
                moves, hot, cold, steps = leg
                has = steps + 7 * (cold + 7 * (hot + 7 * moves))
                of_legs = (of_legs + (1 + place + 2 * b + 1_000_000_007 * number) * has) % 2**64
                if (number, b, place) in SHOWN:
                    print("  wave, bout, place:", number, b, place, " moves, from, to, steps:", *leg)
        number += 1
        try:
            wave = policy.send(came_to)
        except StopIteration:
            break
    print("  waves:", ", ".join(told))
    print("  waves, legs, sums of both:", number, legs, of_waves, of_legs)


def main():
    for walk in WALKS:
        show(*walk)
