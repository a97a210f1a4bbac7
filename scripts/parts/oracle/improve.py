"""takes the legs of improvements again, step by step

usage: scripts/oracle improve [RUNS [SEED [PROGRAM]]]         20 improvements with an effort of 1, of 11 leagues in turn, the first one
                                                              with the seed 1 and each with the next one
       scripts/oracle improve text LEAGUE SEED LOG < TEXT     the log and the text of one such improvement with `--history`

Each leg of `ttp improve`, by its log, has to be the one that the policy asks for next, by what those before it came to. If it has at most
LIMIT steps, and each leg before it of its chain had, its steps are taken again: then all its figures have to come, and the schedule of its
solution. So has the history in the end, if it is of such a chain. If no schedule is feasible the status is 3, and what is broken in the
last one has to come, and how often that is in the best schedules of the chains, if all are such chains. LIMIT is a variable, 60000 if it
isn't set. The last line is 'N improvements agree', or says which one doesn't, and in which leg or line; the status is 1 then."""
import copy
import itertools
import json
import os
import pathlib
import random
import sys
import tempfile
from collections import Counter, deque

from .. import annealing, case, improvements, leagues, model, programs, texts, waves

LIMIT = int(os.environ.get("LIMIT", "60000"))
EFFORT = 1_000_000
# so many legs stand in line at most
PLACES = 16
# a drawn league, by the seed, beside those of a kind of distances
DRAWN = ("drawn",)
LEAGUES = (
    ("circle", 4),
    ("circle", 6, "phased"),
    ("constant", 8),
    ("plane", 6),
    ("coasts", 8, "rules"),
    # here rules' breaches weigh apart
    ("circle", 14, "rules"),
    ("circle", 10),
    ("constant", 10, "phased"),
    ("coasts", 12),
    ("plane", 12, "rules"),
    DRAWN,
)


class Entrant:
    """A chain: its number, itself if it is known, and its standing once it was told, of which a lesser one is better."""

    def __init__(self, number, chain):
        self.number, self.chain, self.standing, self.steps, self.best = number, chain, None, 0, None

    def tell(self, steps, hard, best):
        """What its last leg came to."""
        self.steps, self.best = steps, best
        before, self.standing = self.standing, (True, hard) if best is None else (False, best)
        if before and not before[0] and before < self.standing:
            raise ValueError(f"the least total of chain {self.number} rises")

    def at_best(self):
        """Another one, with a copy of the chain that is cut back."""
        other = copy.copy(self)
        if self.chain:
            other.chain = copy.copy(self.chain)
            other.chain.cut_back()
        return other


def in_line(counts):
    """Each leg in the order of the line, with its entrant, its stream and the wave's weights. The entrant has to be told before the next
    leg is asked for."""
    streams, numbers, field, came_to = itertools.count(), itertools.count(1), [], None
    policy = waves.search(counts.teams, EFFORT, breaks_rules=annealing.Chain(counts).rules[0] > 0)
    while True:
        try:
            source, keep, bouts, weights = policy.send(came_to)
        except StopIteration:
            return
        ended, line, places, came_to = [], deque(), enumerate(bouts), [None] * len(bouts)
        while True:
            for place, legs in itertools.islice(places, PLACES - len(line)):
                if source == "Start":
                    entrant = Entrant(next(numbers), annealing.Chain(counts, weights))
                else:
                    entrant = field[0 if source == "Copies" else place].at_best()
                line.append((entrant, place, legs, next(streams)))
            if not line:
                break
            entrant, place, (leg, *legs), stream = line.popleft()
            yield entrant, leg, stream, weights
            if not entrant.standing[0] and came_to[place] is None:
                came_to[place] = waves.hottest(leg, entrant.steps) if waves.heats(leg) else True
            if waves.heats(leg):
                legs = waves.cooled(leg, entrant.steps, source)
            if legs:
                line.append((entrant.at_best(), place, legs, next(streams)))
            else:
                ended.append(entrant)
        field = sorted(ended, key=lambda entrant: entrant.standing)[:keep]


class Text:
    """The lines of an improvement, from the first one on."""

    def __init__(self, lines):
        self.lines, self.read = lines, 0

    def next(self):
        """The next line, or an empty one behind the last."""
        self.read += 1
        return self.lines[self.read - 1] if self.read <= len(self.lines) else ""

    def expect(self, lines):
        for wanted in lines:
            line = self.next()
            if line != wanted:
                raise ValueError(f"line {self.read} is\n{line}\nand not\n{wanted}")

    def expect_schedule(self, total):
        """Some schedule with this total."""
        while (line := self.next()) != f"best {total}":
            if not line:
                raise ValueError(f"no schedule ends with 'best {total}'")
        self.expect([improvements.END_OF_SOLUTION])


def distances(unit, heat):
    whole, part = divmod(heat * unit[0] // unit[1], 1000)
    return f"{whole}.{part:03}"


def asked(number, entrant, unit, leg, steps):
    """The figures of a leg that the policy asks for. One that heats takes any number of steps, and has come as far as these do."""
    moves, hot, cold, share = leg
    if waves.heats(leg):
        cold, share = waves.hottest(leg, steps), steps
    heats = {"from": distances(unit, hot), "to": distances(unit, cold)}
    return {"leg": number, "chain": entrant.number, "moves": [*waves.KINDS[moves]], **heats, "steps": share}


def again(chain, unit, leg, seed, stream, weights):
    """The figures that the leg comes to by its steps."""
    steps, made = chain.anneal(unit, leg, seed, stream, weights)
    if model.cost(annealing.games_of(chain.rows), chain.counts.league) != (chain.travel, chain.hard(), chain.rules[1]):
        raise ValueError("parts/annealing.py and parts/model.py have other costs")
    return {"steps": steps, "accepted": made, "hard": chain.hard(), "best": chain.best[0] if chain.best else None}


def expect_leg(told, wanted):
    """Holds the figures of a leg to these."""
    said = {name: str(told[name]) if name in ("from", "to") else told[name] for name in wanted}
    if said != wanted:
        raise ValueError(f"leg {wanted['leg']} is\n{said}\nand not\n{wanted}")


def sheet(chain):
    return texts.sheet(annealing.games_of(chain.rows), chain.counts.league)


def broken(chain):
    return model.least_hard(annealing.games_of(chain.rows), chain.counts.league)


def often_broken(bests, league):
    """The lines that tell in how many of the chains' best schedules each hard limit is broken."""
    counts = Counter(name for games in bests for name in model.broken(games, league))
    kinds = ["runs", "repeats", "halves"]
    place = lambda name: kinds.index(name) if name in kinds else len(kinds) + int(name.split()[1])
    return [f"{name} broken in {counts[name]} of {len(bests)}" for name in sorted(counts, key=place)]


def agree(league, legs, lines, seed):
    """How many legs were taken again, and of how many. A difference is an error."""
    text, counts, taken, told = Text(lines), annealing.Counts(league), 0, iter(legs)
    unit, lead, least, bests = annealing.unit_of(counts), None, None, {}
    for number, (entrant, leg, stream, weights) in enumerate(in_line(counts), 1):
        came_to = next(told, None)
        if came_to is None:
            raise ValueError(f"there is no leg {number}")
        wanted = asked(number, entrant, unit, leg, came_to["steps"])
        if leg[3] > LIMIT:
            entrant.chain = None
        if entrant.chain:
            wanted |= again(entrant.chain, unit, leg, seed, stream, weights)
            taken += 1
        expect_leg(came_to, wanted)
        entrant.tell(came_to["steps"], came_to["hard"], came_to["best"])
        if entrant.number not in bests or entrant.standing < bests[entrant.number][0]:
            bests[entrant.number] = entrant.standing, entrant.chain and annealing.games_of(entrant.chain.rows)
        best = entrant.best
        if best is not None and (least is None or best < least):
            least = best
            if entrant.chain:
                text.expect([*sheet(entrant.at_best().chain), f"best {best}", improvements.END_OF_SOLUTION])
            else:
                text.expect_schedule(best)
        if lead is None or entrant.standing < lead.standing:
            lead = entrant.at_best()
    if next(told, None):
        raise ValueError(f"there are more legs than {number}")
    if least is None:
        games = [games for _, games in bests.values()]
        if None not in games:
            text.expect(often_broken(games, league))
        else:
            text.read += sum(bool(improvements.OFTEN.fullmatch(line)) for line in lines)
    if lead.chain:
        entries = [*lead.chain.entries()]
        end = [f"best {lead.chain.best[0]} at {len(entries)}"] if lead.chain.best else [broken(lead.chain), "best none"]
        text.expect([f"history {len(entries)}", *entries, "end", *sheet(lead.chain), *end, ""])
    return taken, number


def improved(program, text, seed):
    """The log and the lines of an improvement."""
    with tempfile.TemporaryDirectory() as folder:
        log = pathlib.Path(folder, "log")
        words = ("--workers", 1, "--effort", 1, "--seed", seed, "--history", "--log", log)
        lines = programs.run(program, "improve", *words, given=text, lawful=(0, 3))
        return log.read_text(encoding="utf-8"), lines


def cases(runs=20, seed=1, *words):
    """The name of a league, the seed, the league, and the log and the lines of each improvement."""
    if runs == "text":
        own, log = words
        texts_read = (pathlib.Path(name).read_text(encoding="utf-8") for name in (seed, log))
        yield seed, int(own), *texts_read, sys.stdin.read().splitlines()
        return
    program = programs.program(words)
    for number in range(int(runs)):
        name, own = LEAGUES[number % len(LEAGUES)], int(seed) + number
        if name == DRAWN:
            text = json.dumps(leagues.any_league(random.Random(own), [4, 6, 8], 3))
        else:
            text = leagues.text(*name[:2], extras=name[2:])
        yield " ".join(map(str, name)), own, text, *improved(program, text, own)


def main(*words):
    count = 0
    for count, (name, seed, text, log, lines) in enumerate(cases(*words), 1):
        with case(f"{name}, seed {seed}"):
            taken, legs = agree(model.read(text), improvements.read_log(log), lines, seed)
        print(f"{name}, seed {seed}: {taken} of {legs} legs taken again", flush=True)
    print(f"{count} improvements agree")
