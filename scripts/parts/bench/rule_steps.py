"""counts the instructions of a step of a search with eight different rules of one class, and of leagues with many rules

usage: scripts/bench rule-steps [--time] [PROGRAM]

A step without rules stands beside. With --time the user time of the first table is measured instead. The leagues of the first table are
circles of 10, 20 and 40 teams in the second format, with a slack of 0. Each rule is soft and of all teams. The eight differ in their
slots, their limits, the lengths of their windows or their halves of the teams. Those of the second are drawn in the style of the 2021
timetabling competition (scripts/oracle league plane N 1000 competition), with a slack of 100. The instructions are those of valgrind's
callgrind, which other processes don't disturb: those of 2,400 steps of one worker, less those of 400, over 2,000. The time is that of
204,000 steps, less that of 4,000, over 200,000, in nanoseconds: each the least of seven runs, since another process can only slow a run
down."""
from .. import leagues, programs
from ..callgrind import step

SIZES = (10, 20, 40)
DRAWN = (10, 16, 20)
FEW, MANY = 400, 2400
FEW_TIMED, MANY_TIMED = 4000, 204000
RUNS = 7


def bodies(teams):
    """Eight different rules of each class, by its name."""
    rounds = 2 * (teams - 1)
    everyone = list(range(1, teams + 1))
    halves = [sorted(everyone[(k + j) % teams] for j in range(teams // 2)) for k in range(8)]
    others = [[team for team in everyone if team not in half] for half in halves]
    # all slots but the first ones
    late = [list(range(1 + k, rounds + 1)) for k in range(8)]
    kinds = {
        "CA1": lambda k: {"teams": everyone, "mode": "HA"[k % 2], "slots": late[k], "max": teams - 1 - k // 2},
        "CA2": lambda k: {"teams1": everyone, "mode": "H", "teams2": halves[k], "slots": late[k], "max": teams // 2 - k // 2},
        "CA3": lambda k: {"teams1": everyone, "mode": "HA"[k % 2], "intp": 3 + k // 2, "max": 2 + k // 4},
        "CA3, half as opponents": lambda k: {"teams1": everyone, "mode": "HA", "teams2": halves[k], "intp": 4, "max": 2},
        "CA4 GLOBAL": lambda k: {
            "teams1": halves[k],
            "mode": "H",
            "mode2": "GLOBAL",
            "slots": late[k],
            "max": teams // 2 * (teams - 1 - k // 2),
        },
        "CA4 EVERY": lambda k: {"teams1": halves[k], "mode": "H", "mode2": "EVERY", "slots": late[k], "max": teams // 4},
        "GA1": lambda k: {"games": [[a, b] for a, b in zip(halves[k], others[k])], "slots": late[k], "min": 0, "max": teams // 4},
        "BR1": lambda k: {"teams": everyone, "mode": "HA", "slots": late[k], "intp": 2 + k},
        "BR2": lambda k: {"teams": everyone, "slots": late[k], "intp": 4 + k},
        "SE1": lambda k: {"teams": everyone, "min": 2 + k},
        "FA2": lambda k: {"teams": everyone, "slots": late[k], "intp": 1 + k % 2},
    }
    return {name: [{"class": name[:3], **kind(k)} for k in range(8)] for name, kind in kinds.items()}


def nanoseconds(program, text):
    """The user time of a step: of many steps less than of few, over the steps between."""
    few, many = (programs.user_seconds(RUNS, [program, *programs.searched(steps, 0)], text) for steps in (FEW_TIMED, MANY_TIMED))
    return (many - few) / (MANY_TIMED - FEW_TIMED) * 1e9


def instructions(program, text):
    return step(program, text, FEW, MANY)


def main(*words):
    timed = words[:1] == ("--time",)
    program = programs.program(words[timed:])
    cost = nanoseconds if timed else instructions
    bare = {teams: cost(program, leagues.circle(teams)) for teams in SIZES}
    programs.head("Eight rules", *(f"{teams} teams" for teams in SIZES))
    programs.row("none", *(f"{bare[teams]:,.0f}" for teams in SIZES))
    for name in bodies(4):
        took = {teams: cost(program, leagues.circle(teams, bodies(teams)[name])) for teams in SIZES}
        programs.row(name, *(f"{took[teams]:,.0f} ({took[teams] / bare[teams]:.1f})" for teams in SIZES))
    if timed:
        return
    print()
    programs.head("Teams", "Rules", "Instructions")
    for teams in DRAWN:
        text = leagues.text("plane", teams, weight=1000, extras=("competition",))
        programs.row(teams, 7 * teams, f"{step(program, text, FEW, MANY, 100):,.0f}")
