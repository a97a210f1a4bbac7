"""Chains of schedules, step by step, written from docs/model.md, docs/improve.md, crates/annealing/README.md and crates/policy/README.md.

A schedule is a row of bytes for each team, one for each round: the opponent, plus the number of teams where the team is at home. So few
steps are taken that no chain uses up its room, and no game is kept."""
import re
from functools import lru_cache
from math import log

from . import draws, model
from .waves import KINDS, LOOSE, WEIGHTS, heats, hottest

BLOCK = 1000
# -ln(u) in 65536ths, for u in the middle of each 256th from 0 to 1
QUANTILES = [round(-65536 * log((i + 1 / 2) / 256)) for i in range(256)]
STRETCHES = re.compile(b"A+|H+")


def exchanged(row, first, second):
    row = bytearray(row)
    row[first], row[second] = row[second], row[first]
    return bytes(row)


def changed(rows, kind, numbers):
    """The new rows of the teams that a move touches, or None where it can't be made."""
    teams, (first, second) = len(rows), numbers[1:] if kind == "part-rounds" else numbers[:2]
    if first == second:
        return None
    if kind == "rounds":
        return {t: exchanged(row, first, second) for t, row in enumerate(rows)}
    if kind == "part-rounds":
        among = model.closed(numbers[0], lambda t: (rows[t][first] % teams, rows[t][second] % teams))
        return {t: exchanged(rows[t], first, second) for t in among}
    i, j = rows[first], rows[second]
    between = i.index(second), i.index(second + teams)
    if kind == "homes":
        return {t: exchanged(rows[t], *between) for t in (first, second)}
    if kind == "teams":
        among = {*range(len(i))} - {*between}
    elif numbers[2] in between:
        return None
    else:
        among = model.closed(numbers[2], lambda r: (i.index(j[r]), j.index(i[r])))
    return taken_over(rows, first, second, among)


def taken_over(rows, first, second, among):
    """The new rows where two teams take each other's games over in some rounds."""
    new = {t: bytearray(rows[t]) for t in (first, second)}
    for old, team in ((first, second), (second, first)):
        for r in among:
            cell = new[team][r] = rows[old][r]
            opponent = cell % len(rows)
            if opponent not in new:
                new[opponent] = bytearray(rows[opponent])
            new[opponent][r] += team - old
    return {t: bytes(row) for t, row in new.items()}


class Counts:
    """What schedules of a league cost."""

    def __init__(self, league):
        self.league, self.teams, self.rules = league, len(league["teams"]), league.get("rules")
        self.at_most = league.get("at_most", 3)
        self.half = self.teams - 1 if model.is_phased(league) else 0
        self.counts_repeats = model.counts_repeats(league)
        self.opponents = bytes(code % self.teams for code in range(256))
        self.sides = bytes(b"AH"[code >= self.teams] for code in range(256))
        self.of_row = lru_cache(1 << 16)(self.of_row)

    def of_row(self, team, row):
        """The travel of a team, and its breaches: a pair's count half at each of the two, so they are doubled."""
        opponents, sides = row.translate(self.opponents), row.translate(self.sides)
        places = [team, *(team if side == 72 else opponent for side, opponent in zip(sides, opponents)), team]
        travel = sum(self.league["distances"][a][b] for a, b in zip(places, places[1:]))
        runs = sum(model.over(len(stretch), self.at_most) for stretch in STRETCHES.findall(sides))
        repeats = self.counts_repeats * sum(a == b for a, b in zip(opponents, opponents[1:]))
        # who isn't met in a half is met twice in the other one
        unphased = 2 * (self.half - len({*opponents[: self.half]}))
        return travel, 2 * runs + repeats + unphased

    def of_rules(self, rows):
        """The breaches of hard rules, and what those of soft ones cost."""
        games, found = games_of(rows), {"hard": 0, "soft": 0}
        table = model.cells(games, self.teams)
        for rule in self.rules or ():
            found[rule["kind"]] += rule.get("weight", 1) * model.deviation(rule, games, table)
        return found["hard"], found["soft"]


def games_of(rows):
    """The round of each pair of teams, home first."""
    return {(t, code - len(rows)): r for t, row in enumerate(rows) for r, code in enumerate(row) if code >= len(rows)}


class Chain:
    """A chain at the league's start. Its history is its last entry and the history before, or None."""

    def __init__(self, counts, weights=WEIGHTS):
        table = model.cells(model.start_of(counts.league), counts.teams)
        self.counts, self.weight, self.history, self.best = counts, weights[0], None, None
        self.come_to(tuple(bytes(opponent + home * counts.teams for opponent, home in row) for row in table))

    def come_to(self, rows):
        costs = [self.counts.of_row(*each) for each in enumerate(rows)]
        self.rows, self.rules = rows, self.counts.of_rules(rows)
        self.travel, self.doubled = map(sum, zip(*costs))
        self.keep_best()

    def keep_best(self):
        if self.hard() == 0 and (self.best is None or self.total() < self.best[0]):
            self.best = self.total(), self.rows, self.history

    def cut_back(self):
        """To the best version, if there is one."""
        if self.best:
            _, rows, self.history = self.best
            self.come_to(rows)

    def entries(self):
        """The entries of its history, from the first one on."""
        found, left = [], self.history
        while left:
            entry, left = left
            found.append(entry)
        return found[::-1]

    def hard(self):
        return self.doubled // 2 + self.rules[0]

    def total(self):
        return self.travel + self.rules[1]

    def makes(self, move, weight, threshold, more=0):
        """Makes the move, if it can be made and the score rises by no more than the threshold. Whether it did. A breach of a hard rule
        weighs so much more than others."""
        kind, *numbers = move
        new = changed(self.rows, kind, numbers)
        if new is None:
            return False
        of_row, travel, doubled, rules = self.counts.of_row, self.travel, self.doubled, self.rules
        for team, row in new.items():
            (before, breaches), (after, others) = of_row(team, self.rows[team]), of_row(team, row)
            travel, doubled = travel + after - before, doubled + others - breaches
        most = self.total() + weight * self.hard() + more * self.rules[0] + threshold
        if travel + weight * (doubled // 2) > most:
            return False
        rows = tuple(new.get(team, row) for team, row in enumerate(self.rows))
        if self.counts.rules:
            rules = self.counts.of_rules(rows)
            if travel + rules[1] + weight * (doubled // 2 + rules[0]) + more * rules[0] > most:
                return False
        self.rows, self.travel, self.doubled, self.rules = rows, travel, doubled, rules
        self.history = " ".join([kind, *(str(number + 1) for number in numbers)]), self.history
        self.keep_best()
        return True

    def anneal(self, unit, leg, seed, stream, weights):
        """Takes the leg's steps. How many they were, and how many moves were made."""
        (numerator, denominator), (moves, hot, cold, steps) = unit, leg
        generator, blocks, made, (_, least, most, rule) = draws.Generator(seed, stream), -(-steps // BLOCK), 0, weights
        for block in range(blocks):
            if heats(leg):
                heat = 1000 * hottest(leg, BLOCK * block + 1)
            else:
                heat = 1000 * hot - 1000 * (hot - cold) * block // blocks
            temperature = heat * numerator * 1024 // (1_000_000 * denominator)
            weight, of_rule = (max(1, has * numerator // (1_000_000 * denominator)) for has in (self.weight, rule or 0))
            more = max(weight, of_rule) - weight
            length, within = min(BLOCK, steps - BLOCK * block), 0
            for _ in range(length):
                within += self.hard() == (0 if rule is None else self.rules[0])
                threshold = temperature * QUANTILES[generator.word() >> 24] >> 26
                made += self.makes(draws.draw(generator, self.counts.teams, KINDS[moves]), weight, threshold, more)
            after = self.weight + self.weight // 50 - self.weight * within // (25 * length)
            self.weight = min(max(after, least), most)
            if heats(leg) and self.best:
                return BLOCK * block + length, made
        return steps, made


def unit_of(counts):
    """What a league's temperatures and weights are measured in, as a fraction of distances."""
    chain, generator, changes = Chain(counts), draws.Generator(0, 0), []
    for _ in range(1000):
        before = chain.total()
        chain.makes(draws.draw(generator, counts.teams, KINDS[LOOSE]), 1, model.GREATEST)
        changes.append(abs(chain.total() - before))
    changes = sorted(change for change in changes if change)
    median = changes[len(changes) // 2] if changes else 0
    distances, pairs = sum(map(sum, counts.league["distances"])), counts.teams * (counts.teams - 1)
    if median * pairs > 6 * distances:
        return median, 6
    return (distances, pairs) if distances else (1, 1)
