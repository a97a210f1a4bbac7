"""How far a schedule is from keeping a constraint of RobinX, counted in the constraint's own words. The league that scripts/robinx makes
of it is nowhere looked at, so `scripts/check robinx` can hold one to the other."""
from itertools import combinations

from . import model


class Season:
    """A schedule with teams and slots from 0: the slot of each game, home team first, and each team's opponent and side in each slot."""

    def __init__(self, games, teams):
        self.slot_of, self.cells = games, model.cells(games, teams)

    def is_of(self, team, slot, mode):
        """Whether the team's game in the slot is one of the mode."""
        return ("H" if self.cells[team][slot][1] else "A") in mode

    def games(self, team, slots, mode, opponents):
        """In how many of the slots the team has a game of the mode against one of the opponents."""
        return sum(self.is_of(team, slot, mode) and self.cells[team][slot][0] in opponents for slot in slots)

    def breaks(self, team, slots, mode):
        """In how many of the slots the team has a game of the mode, on the side on which it was in the slot before."""
        sides = [is_home for _, is_home in self.cells[team]]
        return sum(slot > 0 and sides[slot - 1] == sides[slot] and self.is_of(team, slot, mode) for slot in slots)

    def home_games(self, team, slot):
        """How many home games the team has had after the slot."""
        return sum(is_home for _, is_home in self.cells[team][: slot + 1])


def above(counts, most):
    """By how much these counts are above the most, all together."""
    return sum(model.over(count, most) for count in counts)


def capacity_1(season, of):
    return above((sum(season.is_of(team, slot, of["mode"]) for slot in of["slots"]) for team in of["teams"]), of["max"])


def capacity_2(season, of):
    parts = [of["teams2"]] if of["mode2"] == "GLOBAL" else [[team] for team in of["teams2"]]
    return above((season.games(team, of["slots"], of["mode1"], part) for team in of["teams1"] for part in parts), of["max"])


def capacity_3(season, of):
    windows = [range(first, first + of["intp"]) for first in range(len(season.cells[0]) - of["intp"] + 1)]
    return above((season.games(team, window, of["mode1"], of["teams2"]) for team in of["teams1"] for window in windows), of["max"])


def capacity_4(season, of):
    parts = [of["slots"]] if of["mode2"] == "GLOBAL" else [[slot] for slot in of["slots"]]
    return above((sum(season.games(team, part, of["mode1"], of["teams2"]) for team in of["teams1"]) for part in parts), of["max"])


def games_1(season, of):
    stand = sum(season.slot_of[game] in of["slots"] for game in of["meetings"])
    return model.over(stand, of["max"]) + model.over(of["min"], stand)


def breaks_1(season, of):
    return above((season.breaks(team, of["slots"], of["mode2"]) for team in of["teams"]), of["intp"])


def breaks_2(season, of):
    return above([sum(season.breaks(team, of["slots"], "HA") for team in of["teams"])], of["intp"])


def fairness_2(season, of):
    at_home = {team: [season.home_games(team, slot) for slot in of["slots"]] for team in of["teams"]}
    return above((max(abs(x - y) for x, y in zip(at_home[a], at_home[b])) for a, b in combinations(of["teams"], 2)), of["intp"])


def separation_1(season, of):
    between = (abs(season.slot_of[a, b] - season.slot_of[b, a]) - 1 for a, b in combinations(of["teams"], 2))
    return sum(model.over(of["min"], slots) for slots in between)


COUNTS = {
    "CA1": capacity_1,
    "CA2": capacity_2,
    "CA3": capacity_3,
    "CA4": capacity_4,
    "GA1": games_1,
    "BR1": breaks_1,
    "BR2": breaks_2,
    "FA2": fairness_2,
    "SE1": separation_1,
}


def deviation(constraint, season):
    return COUNTS[constraint.name](season, constraint.members)


def penalties(instance, season, is_hard):
    """What all hard constraints, or all soft ones, add to the value of the schedule."""
    return sum(of.penalty * deviation(of, season) for of in instance.constraints if of.is_hard == is_hard)


def travel(instance, season):
    """The tours of all teams, each from home and back there."""
    total = 0
    for team, row in enumerate(season.cells):
        places = [team, *(team if is_home else opponent for opponent, is_home in row), team]
        total += sum(instance.distances[a][b] for a, b in zip(places, places[1:]))
    return total
