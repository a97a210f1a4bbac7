"""measures the speed and prints the tables of docs/speed.md, each figure the least of some runs

usage: scripts/bench measure [RUNS]     5 runs, if no number is given

On a machine that others share a run can be slow for what they do, and none is fast for it. It runs the proved benchmark (`rt run` in
crates/bench) and the proved program. Take it on a machine that has nothing else to do."""
import re
import subprocess
import time

from .. import TOP, leagues, programs
from ..model import MOVES
from ..oracle import long_play
from ..programs import head, row, searched

COUNT = 200_000
STEPS = 300_000
# a run of several workers, long enough for their start to be nothing
SHARED_STEPS = 1_000_000
ROOM = 1048576
KINDS = [*MOVES]
SLACKS = [0, 300]
THREADS = [1, 2, 4, 8, 16]


def table(names, rows):
    head(*names)
    for cells in rows:
        row(*cells)
    print()


def microseconds(nanoseconds):
    return f"{nanoseconds / 1000:.2f}"


def millions(a_second):
    return f"{a_second / 1e6:.2f}"


def benchmark(runs):
    """The nanoseconds that each line of the benchmark says, by the words before its colon."""
    said = {}
    for _ in range(runs):
        run = subprocess.run([programs.benchmark(), str(COUNT)], stdout=subprocess.DEVNULL, stderr=subprocess.PIPE, text=True, check=True)
        for words, number in re.findall(r"^(.*): (\d+) ns each$", run.stderr, re.M):
            said.setdefault(words, []).append(int(number))
    return {words: min(numbers) for words, numbers in said.items()}


def seconds(runs, command, given):
    """The least by the clock that so many runs of the command take."""
    taken = []
    for _ in range(runs):
        start = time.monotonic()
        subprocess.run(command, input=given, stdout=subprocess.DEVNULL, text=True, check=True)
        taken.append(time.monotonic() - start)
    return min(taken)


def report_tries(said, slack):
    print(f"A try by kind of move, and a worker's step, with a slack of {slack}, in microseconds:\n")
    parts = [f"{kind} tries" for kind in ("drawn", *KINDS)] + ["own board", "shared board"]
    rows = [[str(n)] + [microseconds(said[f"{n} teams {part}, slack {slack}"]) for part in parts] for n in (4, 8, 10, 20, 40)]
    heads = ["A drawn try", *(f"`{kind}`" for kind in KINDS), "A step, own board", "A step, shared board"]
    table(["Teams", *heads], rows)


def report_benchmark(runs):
    said = benchmark(runs)
    print("A move made and taken back, in microseconds:\n")
    rows = [[str(n)] + [microseconds(said[f"{n} teams {kind}"]) for kind in KINDS] for n in (4, 10, 20, 40)]
    table(["Teams"] + [f"`{kind}`" for kind in KINDS], rows)
    for slack in SLACKS:
        report_tries(said, slack)
    print("Million turns a second:\n")
    rows = [
        [f"{turn}, {n} teams"] + [millions(1e9 / max(said[f"{n} teams {turn}, {t} threads"], 1)) for t in THREADS]
        for turn in ("look", "propose and undo")
        for n in (10, 40)
    ]
    table(["Threads"] + [str(t) for t in THREADS], rows)


def report_search(runs, program):
    print("A step of `ttp search --workers 1 --steps 300000 --slack 300`, in microseconds:\n")
    sizes, text = (4, 8, 10, 20, 40), lambda teams: leagues.text("circle", teams)
    each = [programs.user_seconds(runs, [program, *searched(STEPS, 300, ROOM)], text(n)) / STEPS * 1e6 for n in sizes]
    table(["Teams", *sizes], [["A step", *(f"{one:.2f}" for one in each)]])
    print("Million steps a second of `ttp search --steps 1000000 --slack 0`, 20 teams:\n")
    took = lambda workers: seconds(runs, [program, *searched(SHARED_STEPS, 0, ROOM, workers)], text(20))
    speeds = [workers * SHARED_STEPS / took(workers) for workers in (1, 2, 4)]
    table(["Workers", "1", "2", "4", "4 to 1"], [["Steps", *map(millions, speeds), f"{speeds[2] / speeds[0]:.1f}"]])


def report_play(runs, program):
    taken = programs.user_seconds(runs, [program, "play", "--room", "100000"], long_play.text(100_000))
    print(f"User time of `ttp play` of 100,000 lines: {taken:.2f} s\n")


def main(runs=5):
    runs, program = int(runs), programs.program()
    subprocess.run(["rt", "run", "--", "1"], cwd=TOP / "crates/bench", capture_output=True, check=True)
    report_benchmark(runs)
    report_play(runs, program)
    report_search(runs, program)
