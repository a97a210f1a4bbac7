"""Schedules, moves and costs of leagues of all formats, written from docs/model.md, docs/rules.md and docs/league-format.md. Nothing in
this folder shares code with the crates.

A league may say here what no text says: `begin` is the round of each pair of teams at the start, home first, `keep` the pairs whose games
are kept, and `near` what each game costs that has another round than at the start. Teams and rounds count from 0 in these."""
import json
from itertools import accumulate, combinations, groupby

GREATEST = 2**64 - 1
# the first word of a script line, and what its numbers are: teams, or rounds
MOVES = {
    "homes": "tt",
    "rounds": "rr",
    "teams": "tt",
    "part-rounds": "trr",
    "part-teams": "ttr",
}


def read(text):
    """The league of a text, in whose rules each team stands by its number: the third format has names there too."""
    league = json.loads(text)
    if league.get("format") != 3:
        return league
    numbers = {name: number for number, name in enumerate(league["teams"], 1)}
    numbered = lambda teams: [numbered(team) if isinstance(team, list) else numbers.get(team, team) for team in teams]
    members = lambda rule: {name: numbered(rule[name]) for name in ("teams", "teams1", "teams2", "games") if name in rule}
    return league | {"rules": [rule | members(rule) for rule in league.get("rules", [])]}


def start(teams):
    """The round of each pair of teams, home first: the Berger table, and then the same with homes reversed."""
    games, cycle = {}, teams - 1
    for r in range(1, teams):
        for i in range(1, teams):
            j = (r + 1 - i) % cycle or cycle
            if i == j:
                home, away = (i, teams) if r % 2 == 1 else (teams, i)
            elif i > j:
                continue
            else:
                home, away = (i, j) if (i + j) % 2 == 1 else (j, i)
            games[home - 1, away - 1] = r - 1
            games[away - 1, home - 1] = r - 1 + cycle
    return games


def start_of(league):
    """The start that is given or, if none is, in the order that the league asks for: in FIDE's the last two rounds of the first cycle
    are reversed."""
    if "begin" in league:
        return league["begin"]
    teams = len(league["teams"])
    games = start(teams)
    if league.get("format", 1) >= 2 and league.get("start") == "fide":
        swap = other(teams - 3, teams - 2)
        return {pair: swap(r) for pair, r in games.items()}
    return games


def other(a, b):
    return lambda x: b if x == a else a if x == b else x


def closed(first, neighbours):
    """The least set that has the first, and with a member its neighbours."""
    members, new = {first}, [first]
    while new:
        for x in neighbours(new.pop()):
            if x not in members:
                members.add(x)
                new.append(x)
    return members


def moved(games, teams, kind, numbers):
    """The games after the move, or why it can't be made."""
    limits = {"t": teams, "r": 2 * (teams - 1)}
    first, second = numbers[1:] if kind == "part-rounds" else numbers[:2]
    if any(number >= limits[of] for number, of in zip(numbers, MOVES[kind])) or first == second:
        return "bad move"
    swap = other(first, second)
    if kind == "homes":
        return {(h, a): games[a, h] if {h, a} == {first, second} else r for (h, a), r in games.items()}
    if kind == "rounds":
        return {p: swap(r) for p, r in games.items()}
    if kind == "part-rounds":
        pairs = [p for p, r in games.items() if r in (first, second)]
        among = closed(numbers[0], lambda t: {x for p in pairs if t in p for x in p})
        return {p: swap(r) if p[0] in among else r for p, r in games.items()}
    among, i, j = set(games.values()), first, second
    if kind == "part-teams":
        if numbers[2] in (games[i, j], games[j, i]):
            return "meet"
        same = [(games[i, x], games[j, x]) for x in range(teams) if x not in (i, j)]
        same += [(games[x, i], games[x, j]) for x in range(teams) if x not in (i, j)]
        among = closed(numbers[2], lambda r: {x for pair in same if r in pair for x in pair})
    after = {}
    for (h, a), r in games.items():
        after[(swap(h), swap(a)) if r in among and {h, a} != {i, j} else (h, a)] = r
    return after


def over(count, most):
    return max(0, count - most)


def cells(games, teams):
    """The opponent of each team in each round, and whether the team is at home."""
    table = [[None] * (2 * (teams - 1)) for _ in range(teams)]
    for (h, a), r in games.items():
        table[h][r], table[a][r] = (a, True), (h, False)
    return table


def deviation(rule, games, table):
    rounds = len(table[0])
    numbers = lambda name, most: {x - 1 for x in rule.get(name, range(1, most + 1))}
    teams, firsts, seconds = (numbers(name, len(table)) for name in ("teams", "teams1", "teams2"))
    slots, mode, most = numbers("slots", rounds), rule.get("mode", "HA"), rule.get("max", rule.get("intp"))
    counts = lambda t, s: ("H" if table[t][s][1] else "A") in mode
    against = lambda t, s: counts(t, s) and table[t][s][0] in seconds
    breaks = lambda t: sum(s > 0 and table[t][s][1] == table[t][s - 1][1] and counts(t, s) for s in slots)
    name = rule["class"]
    if name == "CA1":
        return sum(over(sum(counts(t, s) for s in slots), most) for t in teams)
    if name == "CA2":
        return sum(over(sum(against(t, s) for s in slots), most) for t in firsts)
    if name == "CA3":
        windows = [range(s, s + rule["intp"]) for s in range(rounds - rule["intp"] + 1)]
        return sum(over(sum(against(t, s) for s in window), most) for t in firsts for window in windows)
    if name == "CA4":
        each = [sum(against(t, s) for t in firsts) for s in slots]
        return over(sum(each), most) if rule["mode2"] == "GLOBAL" else sum(over(count, most) for count in each)
    if name == "GA1":
        count = sum(games[h - 1, a - 1] in slots for h, a in {tuple(game) for game in rule["games"]})
        return over(count, most) + over(rule["min"], count)
    if name == "BR1":
        return sum(over(breaks(t), most) for t in teams)
    if name == "BR2":
        return over(sum(breaks(t) for t in teams), most)
    if name == "FA2":
        at_home = [list(accumulate(home for _, home in row)) for row in table]
        widest = lambda a, b: max((over(abs(at_home[a][s] - at_home[b][s]), most) for s in slots), default=0)
        return sum(widest(a, b) for a, b in combinations(teams, 2))
    between = lambda a, b: abs(games[a, b] - games[b, a]) - 1
    return sum(over(rule["min"], between(a, b)) for a, b in combinations(teams, 2))


def away_from_start(games, league):
    """How many games have another round than at the start."""
    return sum(games[pair] != r for pair, r in start_of(league).items())


def is_phased(league):
    """Whether the two games of each pair belong into different halves."""
    return league.get("format", 1) >= 2 and league.get("phased", False)


def label(league, member, absent):
    """A label of the league, or what stands for it if there is none."""
    return league.get(member, absent) if league.get("format", 1) >= 3 else absent


def counts_repeats(league):
    """Whether two games of a pair in consecutive rounds are a breach."""
    return league.get("format", 1) < 3 or league.get("repeats") != "free"


def broken(games, league):
    """What hard limits the games break, by its name, and how often."""
    teams, at_most = len(league["teams"]), league.get("at_most", 3)
    table = cells(games, teams)
    stretches = (len(list(stretch)) for row in table for _, stretch in groupby(row, key=lambda cell: cell[1]))
    counts = {"runs": sum(over(length, at_most) for length in stretches)}
    if counts_repeats(league):
        counts["repeats"] = sum(row[r][0] == row[r + 1][0] for row in table for r in range(len(row) - 1)) // 2
    if is_phased(league):
        counts["halves"] = sum(len({r < teams - 1 for r in (games[h, a], games[a, h])}) == 1 for h, a in games if h < a)
    for i, rule in enumerate(league.get("rules", []), 1):
        if rule["kind"] == "hard":
            counts[f"rule {i} {rule['class']}"] = deviation(rule, games, table)
    return {name: count for name, count in counts.items() if count}


def least_hard(games, league):
    """The line that tells what hard limits the games break."""
    parts = [f"{name} {count}" for name, count in broken(games, league).items()]
    return f"least hard {cost(games, league)[1]}" + (": " + ", ".join(parts) if parts else "")


def cost(games, league):
    """Travel, hard and soft."""
    distances, at_most, near = league["distances"], league.get("at_most", 3), league.get("near", 0)
    table, travel, hard, soft = cells(games, len(distances)), 0, 0, near and near * away_from_start(games, league)
    for t, row in enumerate(table):
        places = [t, *(t if home else opponent for opponent, home in row), t]
        travel += sum(distances[a][b] for a, b in zip(places, places[1:]))
        windows = [{home for _, home in row[r : r + at_most + 1]} for r in range(len(row) - at_most)]
        hard += sum(len(window) == 1 for window in windows)
    if counts_repeats(league):
        hard += sum(abs(games[h, a] - games[a, h]) == 1 for h, a in games if h < a)
    if is_phased(league):
        half = len(distances) - 1
        hard += sum((games[h, a] < half) == (games[a, h] < half) for h, a in games if h < a)
    for rule in league.get("rules", []):
        if rule["kind"] == "hard":
            hard += deviation(rule, games, table)
        else:
            soft += rule["weight"] * deviation(rule, games, table)
    return travel, hard, soft
