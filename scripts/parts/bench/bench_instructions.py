"""counts the instructions of a try by kind of move, and of a worker's step over a board of its own

usage: scripts/bench bench-instructions [PROGRAM]     crates/bench/out/bench, which `rt run` makes in crates/bench, if none is named

They are those of valgrind's callgrind in the calls that try so many moves or take so many steps: of 2,000 less than of 12,000, over
10,000. What doesn't grow with the tries or steps falls out."""
from .. import programs
from ..callgrind import calls

# in the order of the benchmark's lines
SIZES = (4, 8, 10, 20, 40)
SLACKS = (0, 300)
TRIED = ("drawn", "homes", "rounds", "teams", "part-rounds", "part-teams")
TRIES, STEPS = "benchmarks::tries::try_moves", "benchmarks::steps::own_steps"
FEW, MANY = 2000, 12000


def each(program, path, keys):
    """The instructions of a try, or of a step, in the calls of this function, by what they are of."""
    few, many = (calls(program, [str(count)], path) for count in (FEW, MANY))
    if not len(few) == len(many) == len(keys):
        raise SystemExit(f"{path} is called {len(few)} and {len(many)} times, and not {len(keys)}: it may stand in its caller")
    return {key: (after - before) / (MANY - FEW) for key, before, after in zip(keys, few, many)}


def table(slack, rows):
    """The rows of a slack: what it is, and the instructions at each size."""
    print(f"With a slack of {slack}:\n")
    programs.head("Teams", *SIZES)
    for name, found in rows:
        programs.row(name, *(f"{one:,.0f}" for one in found))
    print()


def main(*words):
    program = programs.benchmark(words)
    tries = each(program, TRIES, [(n, slack, tried) for n in SIZES for slack in SLACKS for tried in TRIED])
    steps = each(program, STEPS, [(n, slack) for n in SIZES for slack in SLACKS])
    for slack in SLACKS:
        rows = [(f"a try, {tried}", [tries[n, slack, tried] for n in SIZES]) for tried in TRIED]
        table(slack, [*rows, ("a step, own board", [steps[n, slack] for n in SIZES])])
