"""Reports as values of JSON, written from docs/report.md."""
import re

from . import model, reports

PLACE = re.compile(r"(over|under) rule \d+(?: team (\d+))?(?: teams (\d+)-(\d+))?(?: rounds (\d+)-(\d+))?(?: round (\d+))? by (\d+)")


def breach_value(line):
    """What a breach's line tells, but for its games, as in JSON."""
    side, team, low, high, first, last, number, by = PLACE.match(line).groups()
    place = {"team": team and int(team), "teams": low and [int(low), int(high)], "rounds": first and [int(first), int(last)]}
    place["round"] = number and int(number)
    return {"side": side, "by": int(by), "place": {name: value for name, value in place.items() if value}}


def named_games(rule, breach, games, table):
    """The games that a breach names: those that count for it, all listed ones of a GA1 that lacks some, and both of an SE1's pair."""
    rounds, size = len(table[0]), len(table)
    chosen = lambda name, most: {x - 1 for x in rule.get(name, range(1, most + 1))}
    teams, firsts, seconds, slots = (chosen(n, m) for n, m in (("teams", size), ("teams1", size), ("teams2", size), ("slots", rounds)))
    name, place, on_side = rule["class"], breach["place"], lambda t, r: "HA"[not table[t][r][1]] in rule.get("mode", "HA")
    if "team" in place:
        teams, firsts = {place["team"] - 1}, {place["team"] - 1}
    if name == "CA3":
        slots = set(range(place["rounds"][0] - 1, place["rounds"][1]))
    elif "round" in place:
        slots = {place["round"] - 1}
    if name == "FA2":
        return []
    if name == "SE1":
        low, high = (t - 1 for t in place["teams"])
        among = {(low, high), (high, low)}
    elif name == "GA1":
        among = {(h - 1, a - 1) for h, a in rule["games"] if breach["side"] == "under" or games[h - 1, a - 1] in slots}
    else:
        stays = lambda t, r: t in teams and r > 0 and table[t][r - 1][1] == table[t][r][1]
        against = lambda t, r: t in firsts and table[t][r][0] in seconds
        count = {"CA1": lambda t, r: t in teams, "BR1": stays, "BR2": stays}.get(name, against)
        cell = lambda t, r: r in slots and on_side(t, r) and count(t, r)
        among = {(h, a) for (h, a), r in games.items() if cell(h, r) or cell(a, r)}
    return [{"round": r + 1, "home": h + 1, "away": a + 1} for r, h, a in sorted((games[pair], *pair) for pair in among)]


def numbers_of(line):
    return [int(number) for number in re.findall(r"\d+", line)]


def as_json(league, lines):
    """The value of a double round robin as JSON, or none if the lines after `sheet` give no such one."""
    teams, names, distances = len(league["teams"]), league["teams"], league["distances"]
    faults, games = reports.schedule_faults(teams, lines)
    if faults:
        return None
    table, start, (travel, hard, soft) = model.cells(games, teams), model.start_of(league), model.cost(games, league)
    said = reports.judged(league, lines)[1]
    lines_of = lambda word: [line for line in said if line.startswith(word + " ")]
    value = {"league": {"teams": names, "at_most": league.get("at_most", 3)}}
    value["league"] |= {"phased": model.is_phased(league), "free_repeats": not model.counts_repeats(league)}
    value["league"] |= {"name": model.label(league, "name", None)}
    value["league"] |= {"short": model.label(league, "short", []), "round_texts": model.label(league, "rounds", [])}
    value["cost"] = {"travel": travel, "hard": hard, "soft": soft, "near": league.get("near", 0)}
    value["cost"] |= {"moved": model.away_from_start(games, league)}
    value["cost"] |= {"total": None if hard else travel + soft, "feasible": hard == 0}
    value["rounds"] = [[] for _ in range(2 * (teams - 1))]
    for (h, a), r in sorted(games.items()):
        ends = {"home": h + 1, "home_name": names[h], "away": a + 1, "away_name": names[a]}
        value["rounds"][r].append({**ends, "start": start[h, a] + 1})
    value["tours"] = []
    for t, row in enumerate(table):
        places = [t if home else opponent for opponent, home in row]
        way = sum(distances[a][b] for a, b in zip([t, *places], [*places, t]))
        value["tours"].append({"team": t + 1, "travel": way, "places": [place + 1 for place in places]})
    value["runs"] = []
    for line in lines_of("run"):
        team, first, last, windows = numbers_of(line)
        value["runs"].append({"team": team, "side": line.split(" ")[2], "first": first, "last": last, "windows": windows})
    for name, word in (("repeats", "repeat"), ("halves", "half")):
        pairs = [numbers_of(line) for line in lines_of(word)]
        value[name] = [{"teams": pair[:2], "rounds": pair[2:]} for pair in pairs]
    value["rules"] = []
    for i, rule in enumerate(league.get("rules", []), 1):
        told = {"rule": i, "class": rule["class"], "kind": rule["kind"], "weight": rule["weight"] if rule["kind"] == "soft" else None}
        told |= {"deviation": model.deviation(rule, games, table)}
        told["breaches"] = [breach_value(line) for line in reports.breaches(i, rule, games, table)]
        for breach in told["breaches"]:
            breach["games"] = named_games(rule, breach, games, table)
        value["rules"].append(told)
    return value
