"""prints the counts of tries and steps that crates/bench/stdout has to have

usage: scripts/oracle bench-counts [COUNT]     as many tries and steps as crates/bench/args says, if no number is given"""
import contextlib
import io
import itertools
import json
from collections import Counter

from .. import TOP, leagues, model, texts
from . import worker_steps

SIZES = (4, 8, 10, 20, 40)
SLACKS = (0, 300)
SEED, WORKER = 1, 0
# the most changes that a board has room for
MAX_ROOM = 1048576


def drawn(teams, count):
    """The moves that a worker draws, each as its word and its numbers."""
    return [(worker_steps.WORDS[kind], numbers) for kind, *numbers in worker_steps.moves(SEED, WORKER, teams, count)]


def pairs(most):
    """All pairs of two numbers below this: the first goes round, and after each round its distance to the second grows."""
    return [(first, (first + distance) % most) for distance in range(1, most) for first in range(most)]


def of_kind(kind, teams):
    """The moves of a kind, as its word and its numbers, without end: all pairs, and then the same with the next third number."""
    limits = {"t": teams, "r": 2 * (teams - 1)}
    if kind == "part-rounds":
        once = [[third, *pair] for third in range(limits["t"]) for pair in pairs(limits["r"])]
    elif kind == "part-teams":
        once = [[*pair, third] for third in range(limits["r"]) for pair in pairs(limits["t"])]
    else:
        once = pairs(limits[model.MOVES[kind][0]])
    return ((kind, numbers) for numbers in itertools.cycle(once))


def outcome(answer):
    """What a try comes to whose move a board answered with this."""
    if answer.startswith("done"):
        return "kept"
    return "withdrawn" if answer.endswith("worse") else "refused"


def tries(teams, moves, count, slack):
    """How many of the moves are kept, withdrawn and refused. The slack falls in a line."""
    board, found = texts.Board(json.loads(leagues.circle(teams)), count), Counter()
    for index, (kind, numbers) in zip(range(count), moves):
        board.slack = slack * (count - index) // count
        found[outcome(board.answer(kind, numbers, ""))] += 1
    return " ".join(f"{what} {found[what]}" for what in ("kept", "withdrawn", "refused"))


def steps(teams, count, slack):
    """What a worker proposes, and how many of that are accepted, on a board that nobody else changes."""
    with contextlib.redirect_stdout(io.StringIO()) as said:
        worker_steps.main("asks", SEED, WORKER, teams, count, slack, min(count, MAX_ROOM))
    *_, report = said.getvalue().splitlines()
    word, made, accepted, _ = report.split()
    assert word == "report", report
    return f"proposed {made} accepted {accepted}"


def lines(teams, count):
    for slack in SLACKS:
        for name in ("drawn", *model.MOVES):
            moves = drawn(teams, count) if name == "drawn" else of_kind(name, teams)
            yield f"{teams} teams {name} tries, slack {slack}: {tries(teams, moves, count, slack)}"
    for slack in SLACKS:
        said = steps(teams, count, slack)
        yield from (f"{teams} teams {board}, slack {slack}: {said}" for board in ("own board", "shared board"))


def main(count=None):
    count = int(count or (TOP / "crates/bench/args").read_text(encoding="utf-8"))
    for teams in SIZES:
        for line in lines(teams, count):
            print(line, flush=True)
