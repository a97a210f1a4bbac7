"""Sheets, boards and play texts, written from docs/sheet.md and docs/script.md."""

from . import model
from .model import GREATEST, MOVES


def sheet(games, league):
    teams = league["teams"]
    rounds = 2 * (len(teams) - 1)
    yield f"league {len(teams)} teams {rounds} rounds"
    for t, (row, name) in enumerate(zip(model.cells(games, len(teams)), teams)):
        yield f"team {t + 1} {''.join('H' if home else 'A' for _, home in row)} {name}"
    for r in range(rounds):
        pairs = sorted(pair for pair, at in games.items() if at == r)
        yield f"round {r + 1}: " + " ".join(f"{h + 1}-{a + 1}" for h, a in pairs)


class Board:
    """A board of one thread, and the slack of the moves to come."""

    def __init__(self, league, room):
        self.league, self.room, self.teams, self.slack = league, room, len(league["teams"]), GREATEST
        self.states = [(model.start_of(league), frozenset(league.get("keep", ())))]
        self.history, self.best = [], None
        self.cost = model.cost(self.states[-1][0], league)
        self.keep_best()

    def keep_best(self):
        travel, hard, soft = self.cost
        if hard == 0 and (self.best is None or travel + soft < self.best[0]):
            self.best = travel + soft, len(self.history)

    def score(self, of):
        return of[0] + of[2] + self.league.get("hard_weight", 100) * of[1]

    def refusal_or_state(self, word, numbers):
        games, pins = self.states[-1]
        if len(self.history) == self.room:
            return "full"
        if word == "undo":
            return self.states[-2] if len(self.states) > 1 else "nothing to undo"
        if word in MOVES:
            after = model.moved(games, self.teams, word, numbers)
            if isinstance(after, str):
                return after
            if any(games[pair] != after[pair] for pair in pins):
                return "pinned"
            worse = self.score(model.cost(after, self.league)) > self.score(self.cost) + self.slack
            return "worse" if worse else (after, pins)
        r, *pair = numbers
        if games.get(tuple(pair)) is None or r >= 2 * (self.teams - 1):
            return "bad game"
        if games[tuple(pair)] != r:
            return "not there"
        if word == "pin":
            return "already pinned" if tuple(pair) in pins else (games, pins | {tuple(pair)})
        return (games, pins - {tuple(pair)}) if tuple(pair) in pins else "not pinned"

    def answer(self, word, numbers, line):
        state = self.refusal_or_state(word, numbers)
        if isinstance(state, str):
            return f"no {len(self.history)} {state}"
        self.states = self.states[:-1] if word == "undo" else [*self.states, state]
        self.history.append(line)
        self.cost = model.cost(state[0], self.league)
        self.keep_best()
        return f"done {len(self.history)} " + shown(self.cost)

    def answer_to_try(self, word, numbers):
        """What a move would cost, whatever the slack, or why it can't be made. Nothing changes."""
        slack, self.slack = self.slack, GREATEST
        state = self.refusal_or_state(word, numbers)
        self.slack = slack
        return f"no {len(self.history)} {state}" if isinstance(state, str) else "would " + shown(model.cost(state[0], self.league))


def shown(of):
    return "travel {} hard {} soft {}".format(*of)


def is_number(word):
    return word.isascii() and word.isdigit() and len(word) <= 20 and int(word) <= GREATEST


def play_line(board, number, line):
    """The answer to a script line, or None where there is none."""
    words = line.split()
    if not words or words[0].startswith("#"):
        return None
    tries = words[0] == "try" and words[1:2] and words[1] in MOVES
    word, *numbers = words[1:] if tries else words
    wanted = {"undo": 0, "slack": 1, "pin": 3, "unpin": 3, **{move: len(of) for move, of in MOVES.items()}}
    if wanted.get(word) != len(numbers) or not all(map(is_number, numbers)):
        return f"bad line {number}"
    if word == "slack":
        board.slack = int(numbers[0])
        return f"slack {board.slack}"
    indexes = [x - 1 if 0 < x < 256 else 255 for x in map(int, numbers)]
    if tries:
        return board.answer_to_try(word, indexes)
    return board.answer(word, indexes, " ".join([word, *map(str, map(int, numbers))]))


def play(text, script, room=1024):
    """The lines of the play text of a league's text, which has to be one, and script lines."""
    league = model.read(text)
    board = Board(league, room)
    yield "start " + shown(board.cost)
    for number, line in enumerate(script, 1):
        answer = play_line(board, number, line)
        if answer is not None:
            yield answer
    yield from [f"history {len(board.history)}", *board.history, "end", *sheet(board.states[-1][0], league)]
    yield "best none" if board.best is None else "best {} at {}".format(*board.best)
