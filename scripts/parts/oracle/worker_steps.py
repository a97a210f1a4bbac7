"""prints the moves that a worker draws, or what it asks of a board, for crates/search_tests

usage: scripts/oracle worker-steps moves SEED WORKER TEAMS COUNT
       scripts/oracle worker-steps asks SEED WORKER TEAMS STEPS SLACK ROOM [CALL CHANGE I J]

`asks` is over a board of a league in a circle, which nobody else changes, but that just before the CALL-th call of the door (from 1, the
first look among them) another caller makes the move Homes, Rounds or Teams with the numbers I and J, or, where CHANGE is Pin or Unpin,
pins or unpins the game of I at home against J. After each 4,096 steps, or as many as the variable PAUSE says, and after the last one, a
line `told` has the worker, how many steps it took since the line before, the version that it has, and the least total that it knows of.
The league begins at the Berger table after the moves of the variable BEGIN, as `Rounds 0 1, Homes 2 3`, it keeps the games of the rounds
of KEEP, as `0 4`, and each game that has left its round costs NEAR."""
import os
from functools import cache

from .. import draws, leagues, model

FIELDS = {"Homes": "ij", "Rounds": "kl", "Teams": "ij", "PartRounds": "ikl", "PartTeams": "ijk"}
WORDS = dict(zip(FIELDS, model.MOVES))
NAMES = {word: kind for kind, word in WORDS.items()}
HARD_WEIGHT = 100
STEPS_TO_TELL = int(os.environ.get("PAUSE", "4096"))
BEGIN = [line.split() for line in os.environ.get("BEGIN", "").split(",") if line]
KEEP = [int(r) for r in os.environ.get("KEEP", "").split()]
NEAR = int(os.environ.get("NEAR", "0"))


def draw(generator, teams):
    word, *numbers = draws.draw(generator, teams)
    return NAMES[word], *numbers


def shown(move):
    kind, *numbers = move
    return kind + " { " + ", ".join(f"{field}: {number}" for field, number in zip(FIELDS[kind], numbers)) + " }"


def moved(games, teams, move):
    """The games after the move, or None where it can't be made."""
    kind, *numbers = move
    after = model.moved(games, teams, WORDS[kind], numbers)
    return None if isinstance(after, str) else after


@cache
def begin(teams):
    """The start of the league."""
    games = model.start(teams)
    for kind, *numbers in BEGIN:
        games = moved(games, teams, (kind, *map(int, numbers)))
    return games


@cache
def circle(teams):
    """The members of a league in a circle on which its costs rest."""
    return {**leagues.made("circle", teams), "begin": begin(teams), "near": NEAR}


def kept(teams):
    """The pairs whose games the league keeps."""
    return [pair for pair, r in begin(teams).items() if r in KEEP]


def moves_kept(games, after, teams):
    """Whether the game of a pair that the league keeps has another round after the move."""
    return any(games[pair] != after[pair] for pair in kept(teams))


def score(games, teams):
    travel, hard, soft = model.cost(games, circle(teams))
    return travel + soft + HARD_WEIGHT * hard


def lesser(least, games, teams):
    travel, hard, soft = model.cost(games, circle(teams))
    total = travel + soft
    return least if hard else total if least is None else min(least, total)


class Board:
    def __init__(self, teams, room, foreign):
        self.teams, self.room, self.foreign = teams, room, foreign
        self.games, self.version, self.pins, self.calls = begin(teams), 0, kept(teams), 0

    def called(self):
        self.calls += 1
        if self.foreign and self.calls == self.foreign[0]:
            kind, *numbers = self.foreign[1]
            if kind == "Pin":
                self.pins.append(tuple(numbers))
            elif kind == "Unpin":
                self.pins.remove(tuple(numbers))
            else:
                self.games = moved(self.games, self.teams, self.foreign[1])
            self.version += 1

    def look(self):
        self.called()
        print("look", self.version)
        return self.games, self.version

    def front(self):
        self.called()
        print("front", self.version)
        return self.version

    def judge(self, version, move, claim, slack):
        if self.version == self.room:
            return "Full"
        after = moved(self.games, self.teams, move)
        if after is None:
            return "Meet"
        if any(self.games[p] != after[p] for p in self.pins):
            return "Pinned"
        new = score(after, self.teams)
        if version == self.version and new != claim:
            return "WrongClaim"
        if new > score(self.games, self.teams) + slack:
            return "Worse"
        self.games, self.version = after, self.version + 1
        return "Done"

    def propose(self, version, move, claim, slack):
        self.called()
        answer = self.judge(version, move, claim, slack)
        print("propose", version, shown(move), "claim", f"Some({claim})", "slack", slack, "answer", answer, self.version)
        return answer, self.version


def worker(generator, number, board, teams, steps, slack):
    made = accepted = taken = told = 0
    games, version = board.look()
    least = lesser(None, games, teams)
    for s in range(steps):
        if taken - told == STEPS_TO_TELL:
            print("told", number, taken - told, version, least)
            told = taken
        taken += 1
        move, allowed = draw(generator, teams), slack * (steps - s) // steps
        after = moved(games, teams, move)
        if after is None or moves_kept(games, after, teams) or score(after, teams) > score(games, teams) + allowed:
            continue
        if board.front() != version:
            games, version = board.look()
            continue
        print("enter", number, made)
        answer, at = board.propose(version, move, score(after, teams), allowed)
        print("left", number, made)
        made += 1
        if answer == "Done":
            accepted += 1
            least = lesser(least, board.games, teams)
            if at == version + 1:
                games, version = after, at
            else:
                games, version = board.look()
        elif answer == "Full":
            break
        elif at != version:
            games, version = board.look()
    if taken > told:
        print("told", number, taken - told, version, least)
    print("report", made, accepted, made - accepted)


def moves(seed, number, teams, count):
    """The moves that a worker draws."""
    generator = draws.Generator(seed, number)
    return [draw(generator, teams) for _ in range(count)]


def main(what, *words):
    seed, number, teams, count = map(int, words[:4])
    if what == "moves":
        print(*map(shown, moves(seed, number, teams, count)), sep="\n")
        return
    slack, room = map(int, words[4:6])
    foreign = (int(words[6]), (words[7], *map(int, words[8:]))) if words[6:] else None
    worker(draws.Generator(seed, number), number, Board(teams, room, foreign), teams, count, slack)
