"""Leagues for all comparisons and measurements: drawn ones with rules, and those of a kind of distances."""
import json
import random

from . import model

# as many as `max`, `min` and `intp` may be
MOST = 10000
CLASSES = ("CA1", "CA2", "CA3", "CA4", "GA1", "BR1", "BR2", "SE1", "FA2")
WITH_SLOTS = ("CA1", "CA2", "CA4", "GA1", "BR1", "BR2", "FA2")


def some(draw, most, edges=False):
    """A set of the numbers from 1 to most. Where the edges matter it is often empty, whole, or holds the last number alone."""
    everyone = range(1, most + 1)
    at_edge = {0: [], 1: [*everyone], 2: [most]}
    kind = draw.randint(0, 9) if edges else 9
    return at_edge[kind] if kind in at_edge else sorted(draw.sample(everyone, draw.randint(1, most)))


def number(draw, usual, edges=False):
    """A number up to the usual, and at times the greatest that there may be."""
    return MOST if edges and draw.randint(0, 19) == 0 else draw.randint(0, usual)


def drawn_rule(draw, teams, name, edges=False):
    """A rule of this class, with members drawn within their ranges."""
    rounds = 2 * (teams - 1)
    a_set = lambda most=teams: some(draw, most, edges)
    mode = lambda: draw.choice(["H", "A", "HA"])
    upto = lambda usual: number(draw, usual, edges)
    least = draw.randint(0, 2)
    length = draw.choice([1, 2, rounds - 1, rounds]) if edges and draw.randint(0, 2) == 0 else draw.randint(1, rounds)
    games = [draw.sample(range(1, teams + 1), 2) for _ in range(draw.randint(0 if edges else 1, 4))]
    opponents = {"teams2": a_set()} if name == "CA2" or draw.randint(0, 1) else {}
    members = {
        "CA1": lambda: {"teams": a_set(), "mode": draw.choice("HA"), "max": upto(3)},
        "CA2": lambda: {"teams1": a_set(), "mode": mode(), **opponents, "max": upto(3)},
        "CA3": lambda: {"teams1": a_set(), "mode": mode(), **opponents, "intp": length, "max": upto(3)},
        "CA4": lambda: {"teams1": a_set(), "mode": mode(), **opponents, "mode2": draw.choice(["GLOBAL", "EVERY"]), "max": upto(9)},
        "GA1": lambda: {"games": games, "min": least, "max": min(MOST, least + upto(2))},
        "BR1": lambda: {"teams": a_set(), "mode": mode(), "intp": upto(3)},
        "BR2": lambda: {"teams": a_set(), "intp": upto(9)},
        "SE1": lambda: {"teams": a_set(), "min": upto(5)},
        "FA2": lambda: {"teams": a_set(), "intp": upto(3)},
    }
    heaviest = 1_000_000 if edges else 50
    weight = draw.choice([{"kind": "hard"}, {"kind": "soft", "weight": draw.choice([1, heaviest, draw.randint(1, 50)])}])
    slots = {"slots": a_set(rounds)} if name in WITH_SLOTS and draw.randint(0, 3) else {}
    return {"class": name, **weight, **slots, **members[name]()}


def by_name(draw, names, rule):
    """The rule with some of the teams that it lists by name."""
    named = lambda team: [*map(named, team)] if isinstance(team, list) else draw.choice([team, names[team - 1]])
    return rule | {name: named(rule[name]) for name in ("teams", "teams1", "teams2", "games") if name in rule}


def labelled(draw, league):
    """The league in the third format, perhaps with labels and free repeats, and with some teams of its rules by name."""
    names = league["teams"]
    labels = {
        "name": draw.choice(["a", "Liga \u00e4 <b>", "n" * 80]),
        "short": [f"S{k}" for k in range(len(names))],
        "rounds": [f"{k}. <day>" for k in range(2 * (len(names) - 1))],
        "repeats": draw.choice(["free", "free", "forbidden"]),
    }
    return league | {
        "rules": [by_name(draw, names, rule) for rule in league["rules"]],
        **{name: label for name, label in labels.items() if draw.randrange(2)},
    }


def drawn(draw, teams, form, rules):
    """A league of so many teams in this format, with these rules."""
    distances = [[0] * teams for _ in range(teams)]
    for i in range(teams):
        for j in range(i):
            distances[i][j] = distances[j][i] = draw.randint(0, draw.choice([5, 1000]))
    league = {
        "format": form,
        "teams": [f"T{i + 1}" for i in range(teams)],
        "distances": distances,
        "at_most": draw.randint(1, 4),
        "hard_weight": draw.choice([1, 100, 1000]),
        "rules": rules,
        "start": draw.choice(["plain", "fide"]),
        "phased": draw.choice([True, False]),
    }
    return labelled(draw, league) if form == 3 else league


def any_league(draw, sizes, most, forms=(1, 2, 3)):
    """A league of one of these sizes, in one of these formats, with up to so many rules."""
    teams, form = draw.choice(sizes), draw.choice(forms)
    classes = [name for name in CLASSES if form > 1 or name != "FA2"]
    return drawn(draw, teams, form, [drawn_rule(draw, teams, draw.choice(classes)) for _ in range(draw.randint(0, most))])


def on_line(teams):
    return range(teams)


def towns(teams, step):
    """Towns drawn in two squares in turn, by this step apart."""
    draw = random.Random(teams)
    return [(draw.randint(0, 1000) + step * (team % 2), draw.randint(0, 1000)) for team in range(teams)]


def between(a, b):
    return round(((a[0] - b[0]) ** 2 + (a[1] - b[1]) ** 2) ** 0.5)


# the places of so many teams, and the distance of two places
KINDS = {
    "circle": (on_line, lambda teams: lambda a, b: min(abs(a - b), teams - abs(a - b))),
    "constant": (on_line, lambda teams: lambda a, b: int(a != b)),
    "nowhere": (on_line, lambda teams: lambda a, b: 0),
    "plane": (lambda teams: towns(teams, 0), lambda teams: between),
    "coasts": (lambda teams: towns(teams, 4000), lambda teams: between),
}


def games_set(teams):
    draw = random.Random(teams)
    renamed = draw.sample(range(1, teams + 1), teams)
    games = draw.sample(sorted(model.start(teams).items()), teams // 2)
    return [
        {"class": "GA1", "kind": "hard", "games": [[renamed[home], renamed[away]]], "slots": [turn + 1], "min": 1, "max": 1}
        for (home, away), turn in games
    ]


def wishes(teams):
    draw = random.Random(teams)
    weights = (1, 5, 10)
    return [
        {**drawn_rule(draw, teams, name), "kind": "soft", "weight": draw.choice(weights)} for name in CLASSES for _ in range(12)
    ]


# of a hundred drawn rules so many are of each class; one each of the last three is of all teams
SHARES = {"CA1": 24, "CA2": 22, "CA3": 10, "CA4": 14, "GA1": 16, "BR1": 14}
OF_ALL = ("BR2", "SE1", "FA2")


def competition_rule(draw, teams, name):
    """A rule of this class for one or two teams, of some rounds or some opponents, with no limit yet."""
    rounds = 2 * (teams - 1)
    some = lambda most, least=1: sorted(draw.sample(range(1, most + 1), draw.randint(least, max(least, most // 3))))
    few = lambda: sorted(draw.sample(range(1, teams + 1), draw.choice((1, 1, 2))))
    games = [draw.sample(range(1, teams + 1), 2) for _ in range(draw.randint(1, teams // 2))]
    return {
        "CA1": lambda: {"teams": few(), "mode": draw.choice("HA"), "slots": some(rounds)},
        "CA2": lambda: {"teams1": few(), "mode": draw.choice(["H", "A", "HA"]), "teams2": some(teams), "slots": some(rounds)},
        "CA3": lambda: {"teams1": few(), "mode": draw.choice(["H", "A", "HA"]), "teams2": some(teams, 2), "intp": draw.randint(3, 5)},
        "CA4": lambda: {
            "teams1": some(teams, 2),
            "mode": draw.choice(["H", "A", "HA"]),
            "teams2": some(teams, 2),
            "slots": some(rounds),
            "mode2": draw.choice(["GLOBAL", "EVERY"]),
        },
        "GA1": lambda: {"games": games, "slots": some(rounds), "min": 0},
        "BR1": lambda: {"teams": few(), "mode": draw.choice(["H", "A", "HA"]), "slots": some(rounds)},
        "BR2": lambda: {"teams": list(range(1, teams + 1))},
        "SE1": lambda: {"teams": list(range(1, teams + 1)), "min": 0},
        "FA2": lambda: {"teams": list(range(1, teams + 1))},
    }[name]()


def kept(rule, season):
    """The rule with the tightest limit that the season keeps."""
    limit = "intp" if rule["class"] in ("BR1", "BR2", "FA2") else "max"
    if rule["class"] == "SE1":
        return rule
    games, table = season
    most = next(most for most in range(10001) if model.deviation({**rule, limit: most}, games, table) == 0)
    return {**rule, limit: most}


def competition(teams):
    draw = random.Random(teams)
    order = draw.sample(range(2 * (teams - 1)), 2 * (teams - 1))
    named = draw.sample(range(teams), teams)
    games = {(named[home], named[away]): order[turn] for (home, away), turn in model.start(teams).items()}
    season = games, model.cells(games, teams)
    names = [*OF_ALL, *draw.choices(list(SHARES), SHARES.values(), k=7 * teams - len(OF_ALL))]
    made = []
    for number, name in enumerate(names):
        rule = kept({"class": name, **competition_rule(draw, teams, name)}, season)
        weight = {"kind": "soft", "weight": draw.choice((1, 5, 10))} if number % 2 else {"kind": "hard"}
        made.append({**rule, **weight})
    return made


def made(kind, teams, weight=100, extras=()):
    """A league of this kind, with what these words add."""
    places, distance = KINDS[kind][0](teams), KINDS[kind][1](teams)
    league = {
        "format": 1,
        "teams": [f"T{team + 1}" for team in range(teams)],
        "distances": [[distance(a, b) for b in places] for a in places],
        "hard_weight": weight,
    }
    for word, rules in (("rules", games_set), ("wishes", wishes), ("competition", competition)):
        if word in extras:
            league |= {"format": 1 if word == "rules" else 2, "rules": rules(teams)}
    return league | ({"format": 2, "phased": True} if "phased" in extras else {})


def text(*words, **members):
    """The text of such a league."""
    return json.dumps(made(*words, **members)) + "\n"


def circle(teams, rules=()):
    """The text of a circle in the second format, with soft rules of these members."""
    return json.dumps({**made("circle", teams), "format": 2, "rules": [{**rule, "kind": "soft", "weight": 1} for rule in rules]})
