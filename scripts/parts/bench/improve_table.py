"""prints what `ttp improve --workers 1` finds with the seeds 1, 2 and 3 on leagues in a circle and of constant distance

usage: scripts/bench improve-table [EFFORT [PROGRAM]]     10, or 100 for two large circles

A row has each total, the least of them, the total that is wanted, and the least known one. As many searches run side by side as there are
processors. It takes some ten minutes of processor time with either effort. The status is 1 if a least total is above the wanted one."""
import concurrent.futures
import os

from .. import leagues
from ..programs import head, improved, program, row

SEEDS = (1, 2, 3)
# the total that is wanted of an effort, for leagues of a kind by their number of teams
WANTED = {
    "10": {
        "circle": {4: 20, 6: 64, 8: 136, 10: 250, 12: 444, 16: 970, 18: 1375, 20: 1890, 30: 5760, 40: 13150},
        "constant": {4: 17, 6: 43, 8: 80, 10: 124, 12: 183, 16: 332, 20: 524, 40: 2185},
    },
    "100": {"circle": {16: 940, 20: 1820}},
}
# the least total known, where one is
KNOWN = {
    "circle": {4: 20, 6: 64, 8: 132, 10: 242, 12: 400, 16: 846, 20: 1574},
    "constant": {4: 17, 6: 43, 8: 80, 10: 124, 12: 181, 16: 327, 20: 520},
}


def main(effort="10", *words):
    if effort not in WANTED:
        raise ValueError(f"an effort of {effort} is none of {', '.join(WANTED)}")
    command, above = program(words), 0
    head("League", "Least known", "Wanted", "Seeds 1, 2, 3", "Least")
    with concurrent.futures.ThreadPoolExecutor(os.cpu_count()) as pool:
        rows = [
            (kind, teams, wanted, [pool.submit(improved, command, leagues.text(kind, teams), effort, seed) for seed in SEEDS])
            for kind, sizes in WANTED[effort].items()
            for teams, wanted in sizes.items()
        ]
        for kind, teams, wanted, found in rows:
            totals = [it.result()[0] for it in found]
            least = min(totals)
            above += least > wanted
            row(f"{kind} of {teams}", KNOWN[kind].get(teams, "-"), wanted, ", ".join(map(str, totals)), least)
    if above:
        raise ValueError(f"{above} least totals are above the wanted ones")
