"""prints what drawn boards with a start, kept games and a price come to, for crates/board_tests

usage: scripts/oracle starts [COUNT [SEED]]     12, 1

The tests make the same draws. A row a board: the teams, the price, the kept games; how many of 300 asked changes were granted, and how
many refused for each of REASONS; travel, hard and soft in the end; the best total and its version, or 0 and 0; and the sums of travel,
hard and soft after each change."""
import json

from .. import model, texts

SIZES = (4, 6, 8, 10, 12, 14, 16, 20, 24, 30, 34, 40)
STEPS = 300
REASONS = ("bad move", "meet", "pinned", "worse", "bad game", "not there", "already pinned", "not pinned", "nothing to undo")
# one of each class, of teams and slots that each league has
RULES = (
    '{"class":"CA1","kind":"hard","teams":[1],"mode":"H","slots":[1,2,6],"max":1}',
    '{"class":"CA2","kind":"soft","weight":3,"teams1":[1,2],"mode":"A","teams2":[3,4],"slots":[1,3,4],"max":0}',
    '{"class":"CA3","kind":"hard","teams1":[3],"mode":"H","intp":3,"max":1}',
    '{"class":"CA4","kind":"soft","weight":7,"teams1":[1,3],"mode":"H","teams2":[2,4],"slots":[2,3,5],"mode2":"GLOBAL","max":1}',
    '{"class":"GA1","kind":"soft","weight":10,"games":[[1,2],[4,3]],"slots":[2,5],"min":1,"max":1}',
    '{"class":"BR1","kind":"hard","teams":[2],"mode":"HA","slots":[2,3,4],"intp":1}',
    '{"class":"BR2","kind":"soft","weight":2,"teams":[1,2,3,4],"intp":2}',
    '{"class":"SE1","kind":"soft","weight":5,"teams":[1,4],"min":3}',
    '{"class":"FA2","kind":"soft","weight":4,"teams":[1,3,4],"slots":[2,5],"intp":0}',
)


def next_word(word):
    """The linear congruence that draws."""
    return (word * 6364136223846793005 + 1442695040888963407) % 2**64


def part(word, end):
    return (word >> 33) % end


class Draw:
    def __init__(self, word):
        self.word = word

    def next(self):
        self.word = next_word(self.word)
        return self.word

    def below(self, end):
        return part(self.next(), end)

    def among(self, choices):
        return choices[self.below(len(choices))]


def drawn_move(draw, teams):
    """The word of a move, and its numbers."""
    rounds = 2 * (teams - 1)
    i, j, k, l = draw.below(teams), draw.below(teams), draw.below(rounds), draw.below(rounds)
    moves = [("homes", [i, j]), ("rounds", [k, l]), ("teams", [i, j]), ("part-rounds", [i, k, l]), ("part-teams", [i, j, k])]
    return draw.among(moves)


def drawn_start(draw, teams):
    """The Berger table after those of a few or of 50 moves that can be made."""
    games = model.start(teams)
    for _ in range(draw.among((3, 50))):
        after = model.moved(games, teams, *drawn_move(draw, teams))
        games = games if isinstance(after, str) else after
    return games


def drawn_league(draw, teams):
    league = {"format": 2, "teams": [f"T{t}" for t in range(teams)], "at_most": draw.among((2, 3, 4, 78))}
    league |= {"hard_weight": draw.among((1, 100, 1000)), "phased": draw.below(4) == 0}
    kind, key = draw.among(("plain", "fide", "given", "given")), draw.next()
    distance = lambda a, b: part(next_word((key + 64 * min(a, b) + max(a, b)) % 2**64), 200) if a != b else 0
    league["distances"] = [[distance(a, b) for b in range(teams)] for a in range(teams)]
    league["rules"] = [json.loads(rule) for rule in RULES if draw.below(3) == 0]
    league |= {"begin": drawn_start(draw, teams)} if kind == "given" else {"start": kind}
    return league | {"near": draw.among((1, 7, 100, 1000000)), "keep": drawn_kept(draw, teams, model.start_of(league))}


def drawn_kept(draw, teams, start):
    """The pairs of up to two whole rounds and up to three games more."""
    kept = set()
    for _ in range(draw.below(3)):
        r = draw.below(2 * (teams - 1))
        kept |= {pair for pair in start if start[pair] == r}
    for _ in range(3):
        h, a = draw.below(teams), draw.below(teams)
        kept |= {(h, a)} - {(a, h)}
    return kept


def answer(draw, board):
    """What the board answers to a drawn change."""
    kind, teams = draw.below(16), board.teams
    if kind == 0:
        return board.answer("undo", [], "")
    if kind > 3:
        word, numbers = drawn_move(draw, teams)
        board.slack = draw.among((0, 200, model.GREATEST))
        return board.answer(word, numbers, "")
    h, a = draw.below(teams), draw.below(teams)
    r = draw.below(2 * (teams - 1)) if kind == 3 else board.states[-1][0].get((h, a), 0)
    return board.answer("pin" if kind == 1 else "unpin", [r, h, a], "")


def row(seed, number):
    draw, teams = Draw(seed * 1000 + number), SIZES[number % len(SIZES)]
    league = drawn_league(draw, teams)
    board, counts, sums = texts.Board(league, 4096), dict.fromkeys(("done", *REASONS), 0), (0, 0, 0)
    for _ in range(STEPS):
        word, _, rest = answer(draw, board).split(" ", 2)
        counts[word if word == "done" else rest] += 1
        sums = tuple(map(sum, zip(sums, board.cost)))
    return [teams, league["near"], len(league["keep"]), *counts.values(), *board.cost, *(board.best or (0, 0)), *sums]


def main(count=12, seed=1):
    for number in range(int(count)):
        print(f"{row(int(seed), number)},", flush=True)
