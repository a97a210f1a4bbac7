"""Reports on schedules, written from docs/report.md."""
from itertools import groupby

from . import model
from .texts import is_number, sheet, shown


def breaches(number, rule, games, table):
    """A line for each term of the deviation that is above 0, in the order of the sum."""
    rounds, size = len(table[0]), len(table)
    chosen = lambda name, most: sorted({x - 1 for x in rule.get(name, range(1, most + 1))})
    teams, firsts, seconds, slots = (chosen(n, m) for n, m in (("teams", size), ("teams1", size), ("teams2", size), ("slots", rounds)))
    mode, name, limit = rule.get("mode", "HA"), rule["class"], rule.get("max", rule.get("intp"))
    on_side = lambda t, r: "HA"[not table[t][r][1]] in mode
    met = lambda t, r: on_side(t, r) and (name == "CA1" or table[t][r][0] in seconds)
    stays = lambda t, r: r > 0 and table[t][r - 1][1] == table[t][r][1] and on_side(t, r)
    game = lambda t, r: "{}-{}".format(*((t + 1, table[t][r][0] + 1) if table[t][r][1] else (table[t][r][0] + 1, t + 1)))
    dated = lambda t, among: "".join(f" {game(t, r)} @ {r + 1}" for r in among)
    line = lambda side, where, by, made="": f"{side} rule {number}{where} by {by}{made}"
    if name in ("CA1", "CA2"):
        for t in teams if name == "CA1" else firsts:
            among = [r for r in slots if met(t, r)]
            if len(among) > limit:
                yield line("over", f" team {t + 1}", len(among) - limit, ":" + dated(t, among))
    elif name == "CA3":
        for t in firsts:
            for r in range(rounds - rule["intp"] + 1):
                among = [s for s in range(r, r + rule["intp"]) if met(t, s)]
                if len(among) > rule["max"]:
                    where = f" team {t + 1} rounds {r + 1}-{r + rule['intp']}"
                    yield line("over", where, len(among) - rule["max"], ":" + dated(t, among))
    elif name == "CA4" and rule["mode2"] == "EVERY":
        for r in slots:
            among = [t for t in firsts if met(t, r)]
            if len(among) > limit:
                yield line("over", f" round {r + 1}", len(among) - limit, ":" + "".join(" " + game(t, r) for t in among))
    elif name == "GA1":
        pairs = list(dict.fromkeys(tuple(pair) for pair in rule["games"]))
        there = [(h - 1, a - 1) for h, a in pairs if games[h - 1, a - 1] in slots]
        told = lambda among: ":" + "".join(f" {h + 1}-{a + 1} @ {games[h, a] + 1}" for h, a in among)
        if len(there) > rule["max"]:
            yield line("over", "", len(there) - rule["max"], told(there))
        if len(there) < rule["min"]:
            yield line("under", "", rule["min"] - len(there), told([(h - 1, a - 1) for h, a in pairs]))
    elif name == "BR1":
        for t in teams:
            among = [r for r in slots if stays(t, r)]
            if len(among) > limit:
                yield line("over", f" team {t + 1}", len(among) - limit, ": rounds" + "".join(f" {r + 1}" for r in among))
    elif name in ("SE1", "FA2"):
        for high in teams:
            for low in (t for t in teams if t < high):
                where = f" teams {low + 1}-{high + 1}"
                if name == "SE1":
                    first, second = sorted((games[low, high], games[high, low]))
                    lack = rule["min"] - (second - first - 1)
                    if lack > 0:
                        yield line("under", where, lack, f": rounds {first + 1} {second + 1}")
                    continue
                apart = [abs(sum(home for _, home in table[low][: r + 1]) - sum(home for _, home in table[high][: r + 1])) for r in slots]
                if apart and max(apart) > limit:
                    yield line("over", f"{where} round {slots[apart.index(max(apart))] + 1}", max(apart) - limit)
    elif model.deviation(rule, games, table):
        yield line("over", "", model.deviation(rule, games, table))


def words_of(line):
    return [word for word in line.replace("\t", " ").split(" ") if word]


def last_sheet(lines):
    """The lines, in which those up to the last one that begins with `league` are blank."""
    heads = [k for k, line in enumerate(lines, 1) if words_of(line)[:1] == ["league"]]
    before = heads[-1] if heads else 0
    return [""] * before + lines[before:]


def schedule_line(line):
    """The games of a line of a schedule, each as a round, a home team and a guest, or None of a bad line."""
    words = words_of(line)
    if words[:1] != ["round"]:
        return []
    if len(words) < 2 or not words[1].endswith(":") or not is_number(words[1][:-1]):
        return None
    games = [word.split("-", 1) for word in words[2:]]
    if not all(len(game) == 2 and all(map(is_number, game)) for game in games):
        return None
    return [(int(words[1][:-1]), int(h), int(a)) for h, a in games]


def schedule_faults(teams, lines):
    """What is wrong with the games of the lines, and the round of each pair, home first."""
    read, numbers, rounds = [schedule_line(line) for line in last_sheet(lines)], range(1, teams + 1), range(1, 2 * teams - 1)
    faults = [f"bad line {k}" for k, games in enumerate(read, 1) if games is None]
    listed, table, pairs = [game for games in read for game in games or []], {}, {}
    for r, h, a in listed:
        if r not in rounds or h not in numbers or a not in numbers or h == a:
            faults.append(f"game {h}-{a} of round {r} is none")
            continue
        pairs.setdefault((h, a), []).append(r)
        for t in (h, a):
            table[t, r] = table.get((t, r), 0) + 1
    for t in numbers:
        for r in rounds:
            count = table.get((t, r), 0)
            if count != 1:
                faults.append(f"team {t} has {f'{count} games' if count else 'no game'} in round {r}")
    for h in numbers:
        for a in numbers:
            count = len(pairs.get((h, a), []))
            if h != a and count != 1:
                faults.append(f"game {h}-{a} " + (f"stands {count} times" if count else "is missing"))
    return faults, {(h - 1, a - 1): found[0] - 1 for (h, a), found in pairs.items()}


def runs(team, row, at_most):
    """The stretches of a team at home or away that are longer than allowed."""
    first = 1
    for home, stretch in groupby(row, key=lambda cell: cell[1]):
        length = len(list(stretch))
        if length > at_most:
            side = "home" if home else "away"
            yield f"run {team} {side} rounds {first}-{first + length - 1} windows {length - at_most}"
        first += length


KNOWN = set("format teams distances at_most hard_weight rules start phased".split())
KNOWN_IN_THIRD = set("name short rounds repeats".split())
KNOWN_IN_RULE = set("class kind weight teams teams1 teams2 slots mode mode2 max min intp games".split())


def remarks(league):
    """A line for each member that isn't known."""
    owners = [("the league", league, KNOWN | (KNOWN_IN_THIRD if league["format"] == 3 else set()))]
    owners += [(f"rule {i}", rule, KNOWN_IN_RULE) for i, rule in enumerate(league.get("rules", []), 1)]
    for owner, members, known in owners:
        for name in sorted(members.keys() - known, key=lambda name: name.encode()):
            shown_name = "".join("?" if ord(c) < 32 or ord(c) == 127 else c for c in name)
            yield f"remark: {owner} has a member {shown_name}, which is not read"


def report(text, lines):
    """The exit status and the lines of the report of a league's text, which has to be one, and the lines after `sheet`."""
    league = model.read(text)
    status, said = judged(league, lines)
    return status, [*said, *remarks(league)]


def round_names(league):
    """What the rounds are called: by number, and by text if the league has any."""
    rounds = range(2 * (len(league["teams"]) - 1))
    texts = model.label(league, "rounds", [])
    return [f"Round {r + 1}, {texts[r]}" if texts else f"Round {r + 1}" for r in rounds]


def in_words(league, lines):
    """The lines of a double round robin in words, or none if the lines after `sheet` give no such one."""
    teams = len(league["teams"])
    faults, games = schedule_faults(teams, lines)
    if faults:
        return None
    said = []
    for r, name in enumerate(round_names(league)):
        pairings = sorted(game for game, at in games.items() if at == r)
        said += ["", name, *(f"{league['teams'][home]} - {league['teams'][away]}" for home, away in pairings)]
    return said[1:]


def judged(league, lines):
    """The same of a league, without the remarks."""
    teams = len(league["teams"])
    faults, games = schedule_faults(teams, lines)
    if faults:
        return 3, [*faults, "no double round robin"]
    table, of = model.cells(games, teams), model.cost(games, league)
    said = [*sheet(games, league), shown(of)]
    for t, row in enumerate(table):
        places = [t, *(t if home else opponent for opponent, home in row), t]
        said.append(f"tour {t + 1} travel {sum(league['distances'][a][b] for a, b in zip(places, places[1:]))}")
    for t, row in enumerate(table):
        said += runs(t + 1, row, league.get("at_most", 3))
    for r in range(2 * (teams - 1) - 1):
        same = [(row[r][0], t) for t, row in enumerate(table) if row[r][0] == row[r + 1][0]]
        if model.counts_repeats(league):
            said += [f"repeat {low + 1}-{high + 1} rounds {r + 1} {r + 2}" for low, high in same if low < high]
    if model.is_phased(league):
        for high in range(teams):
            for low in range(high):
                there, back = games[low, high], games[high, low]
                if (there < teams - 1) == (back < teams - 1):
                    said.append(f"half {low + 1}-{high + 1} rounds {there + 1} {back + 1}")
    for i, rule in enumerate(league.get("rules", []), 1):
        kind = "hard" if rule["kind"] == "hard" else f"soft {rule['weight']}"
        said.append(f"rule {i} {rule['class']} {kind} deviation {model.deviation(rule, games, table)}")
        said += breaches(i, rule, games, table)
    if league.get("near", 0) > 0:
        said.append(f"near {league['near']} moved {model.away_from_start(games, league)}")
    for (h, a), r in sorted(league.get("begin", {}).items()):
        if games[h, a] != r:
            said.append(f"was {h + 1}-{a + 1} round {r + 1} now {games[h, a] + 1}")
    travel, hard, soft = of
    said.append("infeasible" if hard else f"total {travel + soft}")
    return (3 if hard else 0), said
