"""reports on drawn schedules, also by `ttp report`

usage: scripts/oracle report [COUNT [SEED [PROGRAM]]]     1000, 1

They are of the leagues in leagues/ and of drawn ones with rules, most with random damage, some of another league."""
import json
import random
import subprocess

from .. import TOP, json_reports, leagues, model, pages, programs, reports, texts

DAMAGE = ["round", "round 1 1-2", "round 2: 1-2-3", "round 3: x", "rounds 1: 1-2", "round 1:", " round\t2:", "team 1"]
DAMAGE.insert(7, "round 18446744073709551616: 1-2")
NAMES = ["at_msot", "Teams", "zeta", "mx", "a\nb", "\u007f", "\u00e9", "start ", ""]


def with_unknown(text, draw):
    """The league's text, perhaps with members that no format knows in it or in its rules."""
    if draw.randrange(3):
        return text
    league = json.loads(text)
    for owner in [league, *league.get("rules", [])]:
        for _ in range(draw.randrange(3)):
            owner[draw.choice(NAMES)] = draw.choice([0, "x", [], {}])
    return json.dumps(league, ensure_ascii=draw.randrange(2) == 0) + "\n"


def with_rules(draw):
    """The text of a drawn league with some rules of any class, many of them at an edge."""
    teams = draw.choice([4, 4, 6, 6, 8, 12, 20])
    rules = [leagues.drawn_rule(draw, teams, draw.choice(leagues.CLASSES), edges=True) for _ in range(draw.randint(1, 6))]
    return json.dumps(leagues.drawn(draw, teams, draw.choice([2, 3]), rules)) + "\n"


def schedule(league, draw):
    """The sheet of the league's start after some moves, some of its lines damaged."""
    teams = len(league["teams"])
    games = model.start_of(league)
    for _ in range(draw.randrange(6)):
        kind = draw.choice(list(model.MOVES))
        numbers = [draw.randrange(teams if of == "t" else 2 * (teams - 1)) for of in model.MOVES[kind]]
        after = model.moved(games, teams, kind, numbers)
        games = games if isinstance(after, str) else after
    lines = list(texts.sheet(games, league))
    for _ in range(draw.choice([0, 0, 1, 1, 2, 5])):
        at = draw.randrange(len(lines))
        words = lines[at].split(" ")
        word = draw.randrange(len(words))
        change = draw.randrange(5)
        if change == 0:
            lines.insert(at, draw.choice([*DAMAGE, *lines]))
        elif change == 1:
            del lines[at]
        elif change == 2:
            words[word] = f"{draw.randrange(teams + 3)}-{draw.choice([draw.randrange(teams + 3), 256, 2**64 - 1, 2**64])}"
            lines[at] = " ".join(words)
        elif change == 3:
            del words[word]
            lines[at] = "\t ".join(words)
        else:
            lines[at] = lines[at].replace("round", draw.choice(["round", "Round", "round 7: "]))
    return lines


def main(count=1000, seed=1, *words):
    program, draw = programs.program(words), random.Random(int(seed))
    ready = [path.read_text() for path in sorted((TOP / "leagues").glob("*.json"))]
    feasible = 0
    for number in range(int(count)):
        text = with_unknown(draw.choice(ready) if draw.randrange(2) else with_rules(draw), draw)
        lines = schedule(model.read(draw.choice(ready) if draw.randrange(10) == 0 else text), draw)
        given = text + "sheet\n" + "\n".join(lines) + draw.choice(["", "\n"])
        given = given.replace("\n", "\r\n") if draw.randrange(4) == 0 else given
        status, said = reports.report(text, lines)
        feasible += status == 0
        for form, wanted in (("text", said), ("names", reports.in_words(model.read(text), lines) or said)):
            ran = subprocess.run([program, "report", "--format", form], input=given.encode(), stdout=subprocess.PIPE)
            if (ran.returncode, ran.stdout.decode().splitlines()) != (status, wanted):
                raise ValueError(f"schedule {number} of seed {seed}: ttp report --format {form} answers otherwise to\n{given}")
        ran = subprocess.run([program, "report", "--format", "json"], input=given.encode(), stdout=subprocess.PIPE)
        wanted = json_reports.as_json(model.read(text), lines)
        if ran.returncode != status or (json.loads(ran.stdout) if wanted else ran.stdout.decode().splitlines()) != (wanted or said):
            raise ValueError(f"schedule {number} of seed {seed}: ttp report --format json answers otherwise to\n{given}")
        ran = subprocess.run([program, "report", "--format", "html"], input=given.encode(), stdout=subprocess.PIPE)
        wanted = pages.wanted(model.read(text), lines)
        if ran.returncode != status or (pages.read(ran.stdout.decode()) if wanted else ran.stdout.decode().splitlines()) != (wanted or said):
            raise ValueError(f"schedule {number} of seed {seed}: ttp report --format html answers otherwise to\n{given}")
    print(f"{count} reports, {feasible} of them on feasible schedules: the same")
