"""prints how long `ttp improve` takes by one, two and four workers on leagues of 20 teams

usage: scripts/bench improve-workers [EFFORT [PROGRAM]]     30

In seconds by the clock, and how many times as fast two and four are as one. It wants a machine of four cores with nothing else to do. Cores
of a virtual machine may share their units, so that each is slower while all are busy. So last come the seconds of one worker while three
others like it run beside, and how many times as fast four workers are as that. All texts have to be the same; the status is 1 if one is
another."""
import time
from concurrent.futures import ThreadPoolExecutor

from .. import leagues, programs

LEAGUES = [("circle", 20), ("plane", 20)]
WORKERS = (1, 2, 4)


def timed(command, given, effort, workers):
    """What is written, and the seconds that it takes."""
    began = time.monotonic()
    text = programs.text(command, "improve", "--workers", workers, "--effort", effort, "--history", given=given)
    return text, time.monotonic() - began


def beside(command, given, effort):
    """What four runs of one worker write that go on at the same time, and the seconds that one of them takes on average."""
    with ThreadPoolExecutor(4) as pool:
        texts, took = zip(*pool.map(lambda _: timed(command, given, effort, 1), range(4)))
    return texts, sum(took) / len(took)


def main(effort=30, *words):
    command, others = programs.program(words), 0
    programs.head("League", "One worker", "Two", "Four", "One of four")
    for kind, teams in LEAGUES:
        given = leagues.text(kind, teams)
        texts, took = zip(*(timed(command, given, effort, workers) for workers in WORKERS))
        same, busy = beside(command, given, effort)
        others += len({*texts, *same}) - 1
        faster = (f"{each:.1f} ({took[0] / each:.1f})" for each in took[1:])
        programs.row(f"{kind} of {teams}", f"{took[0]:.1f}", *faster, f"{busy:.1f} ({busy / took[-1]:.1f})")
    if others:
        raise ValueError(f"{others} texts are other ones")
