"""plays drawn moves on leagues with one to three rules of a class, also by `ttp play`

usage: scripts/oracle rules [CASES [SEED [PROGRAM]]]     1000 cases of each class, the seed 1

Every rule is counted anew after each move, and the whole texts have to be the same. Many rules stand at an edge: sets that are empty or
hold all teams or slots, the last slot alone, windows as long as the season, the greatest numbers and weights. The last line is 'N plays of
each class agree', or says which doesn't; the status is 1 then. First come the leagues in leagues/, each with its start."""
import json
import random

from .. import TOP, case, leagues, model, programs, texts
from ..model import GREATEST, MOVES

# most cases are small, since large ones take long
SIZES = [4] * 30 + [6] * 30 + [8] * 20 + [10] * 10 + [12] * 5 + [20] * 4 + [40]
LINES = 12


def line(draw, teams):
    """A move, or now and then another slack or an undo."""
    word = draw.choice([*MOVES, *MOVES, "slack", "undo"])
    limits = {"t": teams, "r": 2 * (teams - 1)}
    numbers = [draw.choice([0, 100, GREATEST])] if word == "slack" else [draw.randint(1, limits[of]) for of in MOVES.get(word, "")]
    return " ".join([word, *map(str, numbers)])


def drawn_league(draw, name):
    teams = draw.choice(SIZES)
    rules = [leagues.drawn_rule(draw, teams, name, edges=True) for _ in range(draw.randint(1, 3))]
    return leagues.drawn(draw, teams, draw.choice([2, 3]), rules)


def agree(program, draw, league):
    text, script = json.dumps(league), [line(draw, len(league["teams"])) for _ in range(LINES)]
    given = "\n".join([text, "script", *script, ""])
    if programs.run(program, "play", given=given) != [*texts.play(text, script)]:
        raise ValueError("another text")


def main(cases=1000, seed=1, *words):
    program = programs.program(words)
    for file in sorted(TOP.glob("leagues/*.json")):
        text = file.read_text(encoding="utf-8")
        with case(file.name):
            league = model.read(text)
            if programs.run(program, "start", file) != [*texts.sheet(model.start_of(league), league)]:
                raise ValueError("another start")
            agree(program, random.Random(f"{seed} {file.name}"), json.loads(text))
    for name in leagues.CLASSES:
        for number in range(int(cases)):
            draw = random.Random(f"{seed} {name} {number}")
            with case(f"case {number} of {name} with the seed {seed}"):
                agree(program, draw, drawn_league(draw, name))
    print(f"{int(cases)} plays of each class agree")
