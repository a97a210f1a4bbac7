"""prints an input of `ttp play`: 20 teams in a circle, and a script of many lines

usage: scripts/oracle long-play [LINES]     10,000, if no number is given

The lines go through the five moves and `undo`, over pairs of teams and rounds that change from line to line."""
from .. import leagues
from ..model import MOVES

TEAMS, ROUNDS = 20, 38


def line(number):
    """The line of this number, from 0."""
    if number % 6 == 5:
        return "undo"
    word = [*MOVES][number % 6]
    first, start = number % TEAMS, 7 * number
    second, end = number + 1 + number // TEAMS % (TEAMS - 1), start + 1 + number // ROUNDS % (ROUNDS - 1)
    drawn = {"t": [first, second % TEAMS], "r": [start % ROUNDS, end % ROUNDS]}
    numbers = [drawn[of].pop(0) + 1 for of in MOVES[word]]
    return " ".join([word, *map(str, numbers)])


def text(lines):
    return "\n".join([leagues.text("circle", TEAMS) + "script", *map(line, range(lines)), ""])


def main(lines=10000):
    print(text(int(lines)), end="")
