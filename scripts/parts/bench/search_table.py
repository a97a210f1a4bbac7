"""prints what searches of 1,000,000 steps find by hard weight and slack

usage: scripts/bench search-table KIND TEAMS.. [PROGRAM]     of a league of scripts/oracle league

A cell has the least total of the seeds 1, 2 and 3, each with one worker. Weights and slacks are in mean distances of two different teams;
in brackets stands the number that was given. One search runs at a time: 48 for each number of teams, of a second or some."""
import json

from .. import leagues
from ..programs import head, program, row, started, total

WEIGHTS = (1, 2, 4, 8)
SLACKS = (0.5, 1, 2, 4)
SEEDS = (1, 2, 3)


def mean(given):
    distances = json.loads(given)["distances"]
    return sum(map(sum, distances)) / (len(distances) * (len(distances) - 1))


def units(means, unit):
    """So many mean distances, to the nearest whole number."""
    return int(means * unit + 0.5)


def least(command, given, slack):
    words = ("search", "--workers", 1, "--steps", 1_000_000, "--slack", slack, "--room", 1048576)
    totals = [total(command, *words, "--seed", seed, given=given) for seed in SEEDS]
    return min((found for found in totals if found is not None), default="none")


def main(kind, *words):
    sizes = [int(word) for word in words if word.isdigit()]
    command = program([word for word in words if not word.isdigit()])
    head("Teams, mean distance", "Start", "`hard_weight`", "slack 1/2", 1, 2, 4)
    for teams in sizes:
        unit = mean(leagues.text(kind, teams))
        slacks = [units(means, unit) for means in SLACKS]
        for means in WEIGHTS:
            weight = units(means, unit)
            given = leagues.text(kind, teams, weight)
            found = [f"{least(command, given, slack)} ({slack})" for slack in slacks]
            row(f"{teams}, {unit:.2f}", started(command, given), f"{means} ({weight})", *found)
