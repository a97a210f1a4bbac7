"""improves drawn leagues with rules, and holds what is written to what it means

usage: scripts/oracle improve-again [RUNS [PROGRAM]]     100 runs

Each solution is the whole sheet of a feasible double round robin and its total, by `ttp report` and here: so a text that is cut behind any
line `----------` ends with one. The totals fall, and are those that the legs of the log come to. The legs' steps add up to the effort, and
the history in the end leads `ttp play` to the last solution. If there is none the status is 3, the line before the last one has what is
broken in the last sheet, as it is counted here, and that is broken in one chain at least. Without `--history` the text is the same but for
the history and its version, and -o has what the text ends with. Another number of workers writes the same text and, but for the seconds,
the same log: the first ten runs try 1, 2, 4 and 16. Some leagues that stand ready come first, and what was written of them is also read
from files. The last line is 'N runs hold, M of them with a solution', or says which run doesn't; the status is 1 then."""
import json
import pathlib
import random
import tempfile

from .. import TOP, case, improvements, leagues, model, programs, reports, texts
from ..programs import run

# what the legs of a league without kept games draw
MOVES = (["homes", "teams"], ["homes", "rounds", "teams"], ["homes", "rounds", "teams", "part-rounds", "part-teams"])
MILLION = 1_000_000
# leagues that stand ready, and the seeds. In the last two each schedule breaks a rule, and the best ones just one
READY = (
    ("leagues/circular-4.json", 1),
    ("leagues/circular-6.json", 1),
    ("leagues/phased-4.json", 1),
    ("leagues/rules-4.json", 1),
    ("leagues/coast-8.json", 3),
    ("cases/improve-none/league.json", 1),
    ("cases/improve-either/league.json", 1),
)


def judge(program, text, solution):
    """Holds a solution to being a whole sheet and the total of its schedule, by the report on it too."""
    *sheet, best = solution
    league = model.read(text)
    games = schedule(league, sheet)
    travel, hard, soft = model.cost(games, league)
    if sheet != [*texts.sheet(games, league)] or hard or best != f"best {travel + soft}":
        raise ValueError(f"a solution that isn't whole, feasible or of its total: {best}")
    said = run(program, "report", given="\n".join([text, "sheet", *sheet, ""]), lawful=(0, 3))
    if said[-1] != f"total {travel + soft}":
        raise ValueError(f"a solution with total {travel + soft} is reported as {said[-1]}")
    if reports.report(text, sheet) != (0, said):
        raise ValueError("another program has another report on a solution")


def heats(leg):
    return leg["to"] > leg["from"]


def check_legs(legs):
    """Holds the legs of a log to what they mean."""
    tries, least = False, None
    for leg in legs:
        number = leg["leg"]
        if leg["moves"] not in MOVES or (heats(leg) and leg["moves"] != MOVES[-1]) or leg["accepted"] > leg["steps"]:
            raise ValueError(f"leg {number}: {leg}")
        if heats(leg) and not tries and least is not None:
            raise ValueError(f"leg {number} heats, though there was a solution before the tries")
        tries, least = tries or heats(leg), leg["least"]
    if sum(leg["steps"] for leg in legs) != MILLION:
        raise ValueError("the steps of the legs don't add up to the effort")


def often(lines, legs):
    """How often each hard limit is broken in the chains by the lines, which tell nothing else."""
    chains, counts = max(leg["chain"] for leg in legs), {}
    for line in lines:
        told = improvements.OFTEN.fullmatch(line)
        if not told or int(told["all"]) != chains or not 1 <= int(told["count"]) <= chains:
            raise ValueError(f"of {chains} chains: {line}")
        counts[told["name"]] = int(told["count"])
    return counts


def improved(program, text, workers, seed, *words):
    """The lines of an improvement, and the legs of its log. The file of the best has what the text ends with."""
    with tempfile.TemporaryDirectory() as folder:
        log, best = pathlib.Path(folder, "log"), pathlib.Path(folder, "best")
        words = ("--workers", workers, "--seed", seed, "--effort", 1, "--log", log, "-o", best, *words)
        lines = run(program, "improve", *words, given=text, lawful=(0, 3))
        if best.read_text(encoding="utf-8").splitlines() != improvements.ended(lines):
            raise ValueError("the file of the best hasn't what the text ends with")
        return lines, improvements.read_log(log.read_text(encoding="utf-8"))


def untimed(legs):
    return [{name: leg[name] for name in leg if name != "seconds"} for leg in legs]


def schedule(league, sheet):
    return reports.schedule_faults(len(league["teams"]), sheet)[1]


def check_unkept(program, text, entry, last, counts):
    """Holds the end of an improvement without a solution to what is broken in its sheet."""
    league = model.read(text)
    games = schedule(league, last)
    if entry != model.least_hard(games, league) or last != [*texts.sheet(games, league)]:
        raise ValueError(f"what is broken is told otherwise: {entry}")
    if not {*model.broken(games, league)} <= {*counts}:
        raise ValueError(f"how often limits are broken: {counts}")
    said = run(program, "report", given="\n".join([text, "sheet", *last, ""]), lawful=(3,))
    if (3, said) != reports.report(text, last):
        raise ValueError("another report on the last sheet")


def check_end(program, text, rest, legs, last_solution):
    """Holds the lines behind the solutions to what they mean. How often each limit is broken in the chains."""
    start = next(number for number, line in enumerate(rest) if improvements.HISTORY.fullmatch(line))
    end = rest.index("end", start)
    counts, entries = often(rest[:start], legs), rest[start + 1 : end]
    *last, best = rest[end + 1 :]
    if rest[start] != f"history {len(entries)}":
        raise ValueError(f"{len(entries)} entries behind '{rest[start]}'")
    if last_solution:
        if [*last, best] != [*last_solution[:-1], f"{last_solution[-1]} at {len(entries)}"] or counts:
            raise ValueError(f"another solution in the end: {best}")
    else:
        *last, entry = last
        if best != "best none":
            raise ValueError(f"a best one without a solution: {best}")
        check_unkept(program, text, entry, last, counts)
    played = run(program, "play", "--room", 1048576, given="\n".join([text, "script", *entries, ""]))
    if played[played.index("end") + 1 :] != [*last, best]:
        raise ValueError("the history played leads to another sheet or best line")
    return counts


def holds(program, text, seed, others):
    """The lines without the history of an improvement that means what it says, its totals, how often each limit is broken in its chains,
    and how many these are."""
    lines, legs = improved(program, text, 1, seed, "--history")
    for workers in others:
        others_lines, others_legs = improved(program, text, workers, seed, "--history")
        if others_lines != lines or untimed(others_legs) != untimed(legs):
            raise ValueError(f"{workers} workers write another text or log than one")
    plain, plain_legs = improved(program, text, others[-1], seed)
    if plain != improvements.without_history(lines) or untimed(plain_legs) != untimed(legs):
        raise ValueError("without the history comes another text or log")
    check_legs(legs)
    solutions, rest = improvements.parted(lines)
    totals = improvements.totals(legs)
    if [solution[-1] for solution in solutions] != [f"best {total}" for total in totals]:
        raise ValueError(f"solutions that aren't those of the log, {totals}")
    for solution in solutions:
        judge(program, text, solution)
    counts = check_end(program, text, rest, legs, solutions[-1] if solutions else None)
    return plain, totals, counts, max(leg["chain"] for leg in legs)


def check_files(program, path, seed, lines, total):
    """Holds an improvement of a league in a file to the same lines, and boards that begin at these to their last sheet."""
    if run(program, "improve", path, "--effort", 1, "--seed", seed) != lines:
        raise ValueError("the league in a file is improved otherwise")
    sheet = improvements.ended(lines)[:-1]
    with tempfile.TemporaryDirectory() as folder:
        text = pathlib.Path(folder, "text")
        text.write_text("\n".join(lines), encoding="utf-8")
        for words, given in (((text,), ""), (("-",), text.read_text(encoding="utf-8"))):
            if run(program, "start", path, "--from", *words, given=given) != sheet:
                raise ValueError("a start from the text has another sheet")
        if run(program, "report", path, text)[-1] != f"total {total}":
            raise ValueError("a report of the text has another total")


def main(runs=100, *words):
    program, found = programs.program(words), 0
    for name, seed in READY:
        with case(name):
            lines, totals, counts, chains = holds(program, (TOP / name).read_text(encoding="utf-8"), seed, (1, 2, 4, 16))
            if totals:
                check_files(program, TOP / name, seed, lines, totals[-1])
            # each schedule of these leagues breaks one rule
            elif sum(counts[part] for part in counts if part.startswith("rule ")) != chains:
                raise ValueError(f"chains that don't break one rule each: {counts}")
    for number in range(1, int(runs) + 1):
        draw = random.Random(number)
        with case(f"run {number}"):
            text = json.dumps(leagues.any_league(draw, [4, 6, 8, 10], 3))
            found += bool(holds(program, text, number, (2, 4, 16) if number <= 10 else [draw.choice([2, 4, 16])])[1])
    print(f"{int(runs)} runs hold, {found} of them with a solution")
