"""counts the instructions of a step of a search of one worker over a league in a circle

usage: scripts/bench step-instructions [PROGRAM]

They are those of valgrind's callgrind: of 2,000 steps less than of 12,000, over 10,000."""
from .. import leagues, programs
from ..callgrind import step

SIZES = (4, 8, 10, 20, 40)
SLACKS = (0, 300)
FEW, MANY = 2000, 12000


def main(*words):
    program = programs.program(words)
    programs.head("Slack", *(f"{teams} teams" for teams in SIZES))
    for slack in SLACKS:
        programs.row(slack, *(f"{step(program, leagues.circle(teams), FEW, MANY, slack):,.0f}" for teams in SIZES))
