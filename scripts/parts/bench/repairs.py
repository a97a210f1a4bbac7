"""draws seasons to mend, and prints what `ttp improve` makes of each

usage: scripts/bench repairs [CASES [EFFORT [PROGRAM]]]     20, 10

They have 8 to 20 teams in a plane, a third of the rounds kept, a team that may not be at home in three of the others, and the mean distance
as the price of a game that leaves its round. Each can be mended: the schedule was made by an improvement of one that keeps this rule,
without the rule and with the same rounds kept. A schedule that doesn't break it is drawn again. The last line is 'N of M seasons are
mended'; the status is 1 if over a twentieth of them aren't."""
import json
import pathlib
import random
import tempfile
import time

from .. import leagues, programs


def run(*words):
    return programs.text(*words, lawful=(0, 3))


def write(folder, name, text):
    path = pathlib.Path(folder, name)
    path.write_text(text, encoding="utf-8")
    return path


def breaches(program, league, schedule):
    """How many times the schedule breaks the league's one rule."""
    line = next(line for line in run(program, "report", league, schedule).splitlines() if line.startswith("rule 1 "))
    return int(line.split()[-1])


def season(program, folder, draw):
    """A league, a schedule to mend, how many rounds are kept, and the mean distance; or None where the schedule breaks nothing."""
    teams = draw.randrange(8, 21, 2)
    rounds, kept = 2 * teams - 2, (2 * teams - 2) // 3
    places = [(draw.randint(0, 1000), draw.randint(0, 1000)) for _ in range(teams)]
    far = [[leagues.between(a, b) for b in places] for a in places]
    plain = {"format": 2, "teams": [f"T{team + 1}" for team in range(teams)], "distances": far}
    closed = sorted(draw.sample(range(kept + 1, rounds + 1), 3))
    rule = {"class": "CA1", "kind": "hard", "teams": [draw.randint(1, teams)], "mode": "H", "max": 0, "slots": closed}
    league = write(folder, "league.json", json.dumps({**plain, "rules": [rule]}))
    before = write(folder, "before.json", json.dumps(plain))
    seed = draw.randrange(2**32)
    planted = write(folder, "planted.txt", run(program, "improve", league, "--effort", 1, "--seed", seed))
    if planted.read_text(encoding="utf-8").endswith("best none\n"):
        return None
    words = ("--from", planted, "--keep", f"1-{kept}", "--effort", 1, "--seed", seed)
    last = write(folder, "last.txt", run(program, "improve", before, *words))
    if not breaches(program, league, last):
        return None
    return league, last, kept, sum(map(sum, far)) // (teams * (teams - 1)), teams


def main(cases=20, effort=10, *words):
    program, draw, mended, number, cases = programs.program(words), random.Random(1), 0, 0, int(cases)
    programs.head("Teams", "Rounds kept", "Broken", "Games moved", "Total", "Seconds")
    with tempfile.TemporaryDirectory() as folder:
        while number < cases:
            drawn = season(program, folder, draw)
            if drawn is None:
                continue
            number += 1
            league, last, kept, near, teams = drawn
            began = time.monotonic()
            options = ("--from", last, "--keep", f"1-{kept}", "--near", near, "--effort", effort, "--seed", number)
            lines = run(program, "improve", league, *options).splitlines()
            passed, found = time.monotonic() - began, lines[-1].split()[1]
            moved = next(line for line in lines if line.startswith("moved "))
            mended += found != "none"
            programs.row(teams, kept, breaches(program, league, last), moved.split()[-1], found, f"{passed:.1f}")
    print(f"{mended} of {cases} seasons are mended")
    return 20 * mended < 19 * cases
