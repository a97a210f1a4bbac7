"""What a page says, written from docs/report.md: each rule in words, the games that broken ones count, and the games by round."""
import html.parser

from . import json_reports, model, reports

WHERE = {"H": " at home", "A": " away", "HA": " playing"}
SIDES = {"H": "home ", "A": "away ", "HA": ""}


def listed(words):
    return " and ".join(filter(None, [", ".join(words[:-1]), words[-1]]))


def some(count, word):
    return f"{count} {word}" + ("" if count == 1 else "s")


def in_words(rule, by, broken, names, rounds):
    """The rule, its deviation, and the places of its breaches."""
    name, mode, most = rule["class"], rule.get("mode", "HA"), rule.get("max", rule.get("intp"))
    numbers = lambda key, of: sorted({x - 1 for x in rule.get(key, range(1, of + 1))})
    chosen, opponents = numbers("teams1" if "teams1" in rule else "teams", len(names)), numbers("teams2", len(names))

    def the(teams, all_of="all teams"):
        return "no team" if not teams else all_of if len(teams) == len(names) else listed([names[t] for t in teams])

    def in_rounds(slots):
        stretches = [r for r in slots if r - 1 not in slots or r + 1 not in slots]
        parts = [(", " if r - 1 not in slots else "-") + str(r + 1) for r in stretches]
        return "no round" if not slots else ("round " if len(slots) == 1 else "rounds ") + "".join(parts)[2:]

    def when(every, word):
        slots = numbers("slots", rounds)
        return every if len(slots) == rounds else word + in_rounds(slots)

    each = "each of " * (1 < len(chosen) < len(names)) + the(chosen, "every team")
    pairs = "no two teams" if len(chosen) < 2 else "any two of " * (2 < len(chosen) < len(names)) + the(chosen, "any two teams")
    several = len(chosen) > 1
    against = "" if len(opponents) == len(names) else " against " + the(opponents)
    games = f"at most {most} {SIDES[mode]}game" + "s" * (most != 1)
    breaks = f"at most {most} {SIDES[mode] if name == 'BR1' else ''}break" + "s" * (most != 1)
    told = sorted({t - 1 for place in broken for t in [place.get("team"), *place.get("teams", [])] if t})
    verdict = f": broken for {the(told)}"
    if name == "CA1":
        text = f"{games} for {each}" + when("", " in ")
    elif name == "CA2":
        text = f"{games}{against} for {each}" + when("", " in ")
    elif name == "CA3":
        window = rule["intp"]
        text = f"{games}{against} for {each} in any " + (f"{window} rounds in a row" if window > 1 else "round")
    elif name == "CA4" and rule["mode2"] == "EVERY":
        text = f"at most {most} of {the(chosen)}{WHERE[mode]}{against}" if several else f"{games}{against} for {the(chosen)}"
        out_of = " in a round out of " if len(numbers("slots", rounds)) > 1 else " in "
        text, verdict = text + when(" in a round", out_of), ": broken in " + in_rounds([place["round"] - 1 for place in broken])
    elif name == "CA4":
        text, verdict = f"{games}{against} for {the(chosen)}" + " together" * several + when("", " in "), f": broken by {by}"
    elif name == "GA1":
        least = rule["min"]
        count = f"exactly {most}" if least == most else f"from {least} to {most}" if least else f"at most {most}"
        pairings = [f"{names[h - 1]} - {names[a - 1]}" for h, a in dict.fromkeys(map(tuple, rule["games"]))]
        more = f" and {len(pairings) - 6} more" if len(pairings) > 6 else ""
        which = f"{count} of the games {', '.join(pairings[:6])}{more}"
        if len(pairings) < 2:
            which = f"the game {pairings[0]} {count} time" + "s" * (most != 1) if pairings else f"{count} of no games"
        text, verdict = which + when("", " in "), f": broken by {by}"
    elif name == "BR1":
        text = f"{breaks} for {each}" + when("", " in ")
    elif name == "BR2":
        text, verdict = f"{breaks} for {the(chosen)}" + " together" * several + when("", " in "), f": broken by {by}"
    elif name == "SE1":
        text, verdict = f"at least {some(rule['min'], 'round')} between both games for {pairs}", f": broken among {the(told)}"
    else:
        text = f"numbers of home games at most {most} apart for {pairs}" + when(" after every round", " after ")
        verdict = f": broken among {the(told)}"
    return text + (verdict if by else ": kept")


def marked(rule, place, side, games, table):
    """The games of teams that a breach at a place counts, each a team and a round."""
    named = json_reports.named_games(rule, {"place": place, "side": side}, games, table)
    both = {(t - 1, game["round"] - 1) for game in named for t in (game["home"], game["away"])}
    if rule["class"] in ("GA1", "SE1"):
        return both
    if "team" in place:
        return {(t, r) for t, r in both if t == place["team"] - 1}
    teams = {t - 1 for t in rule.get("teams1", rule.get("teams"))}
    opponents = {t - 1 for t in rule.get("teams2", range(1, len(table) + 1))}
    home = lambda t, r: "HA"[not table[t][r][1]] in rule.get("mode", "HA")
    stays = lambda t, r: rule["class"] != "BR2" or (r > 0 and table[t][r - 1][1] == table[t][r][1])
    return {(t, r) for t, r in both if t in teams and table[t][r][0] in opponents and home(t, r) and stays(t, r)}


def wanted(league, lines):
    """The rows of the rules, the games that are marked, and the rounds, or none if the lines after `sheet` give no double round robin."""
    teams = len(league["teams"])
    faults, games = reports.schedule_faults(teams, lines)
    if faults:
        return None
    table, rows, marks = model.cells(games, teams), [], set()
    for i, rule in enumerate(league.get("rules", []), 1):
        by = model.deviation(rule, games, table)
        broken = [json_reports.breach_value(line) for line in reports.breaches(i, rule, games, table)]
        words = in_words(rule, by, [breach["place"] for breach in broken], league["teams"], 2 * (teams - 1))
        kind = "hard" if rule["kind"] == "hard" else f"soft {rule['weight']}"
        rows.append((by == 0, [str(i), rule["class"], kind, str(by), words]))
        marks |= {cell for breach in broken for cell in marked(rule, breach["place"], breach["side"], games, table)}
    names, rounds = league["teams"], []
    for r, name in enumerate(reports.round_names(league)):
        at_home = sorted((h, a) for (h, a), round_of in games.items() if round_of == r)
        rounds.append([name, *(f"{names[h]} - {names[a]}" for h, a in at_home)])
    return [row for _, row in sorted(rows, key=lambda row: row[0])], marks, rounds


class Page(html.parser.HTMLParser):
    """The rows of the rules on a page, the games that it marks, and its rounds."""

    def __init__(self, text):
        super().__init__()
        self.table, self.rows, self.marks, self.place, self.is_cell = None, [], set(), [-1, -1], False
        self.rounds, self.is_line = [], False
        self.feed(text)

    def handle_starttag(self, tag, attributes):
        given = dict(attributes)
        self.is_cell = tag == "td"
        self.is_line = tag == "h3" or (tag == "div" and not given and bool(self.rounds))
        if tag == "section":
            self.rounds.append([])
        elif self.is_line:
            self.rounds[-1].append("")
        if tag == "table":
            self.table = given.get("class")
        elif tag == "tr" and self.table == "rules":
            self.rows.append([])
        elif tag == "tr" and self.table == "grid":
            self.place = [self.place[0] + 1, -1]
        elif tag == "td" and self.table == "rules":
            self.rows[-1].append("")
        elif tag == "td" and self.table == "grid":
            self.place[1] += 1
            if "b" in given["class"].split():
                self.marks.add((self.place[0] - 1, self.place[1]))

    def handle_endtag(self, tag):
        self.is_cell = self.is_line = False

    def handle_data(self, text):
        if self.is_line:
            self.rounds[-1][-1] += text
        if self.is_cell and self.table == "rules":
            self.rows[-1][-1] += text


def read(text):
    """The rows of the rules, the marked games and the rounds of a page."""
    page = Page(text)
    return [row for row in page.rows if row], page.marks, page.rounds
