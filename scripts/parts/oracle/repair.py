"""mends the season of docs/repair.md, and holds the report on it

usage: scripts/oracle repair [PROGRAM]

The rounds that are kept stay, and `ttp report` says what is said here: which games moved, and what they cost."""
import json
import pathlib
import tempfile

from .. import TOP, programs, reports
from ..programs import run

LEAGUE, SCHEDULE, NEAR, KEPT = TOP / "leagues/repair-12.json", TOP / "leagues/repair-12.txt", 500, 8


def rounds(lines):
    return [line for line in reports.last_sheet(lines) if line.startswith("round ")]


def main(*words):
    program, before = programs.program(words), SCHEDULE.read_text(encoding="utf-8").splitlines()
    start = ("--from", SCHEDULE, "--near", NEAR)
    lines = run(program, "improve", LEAGUE, *start, "--keep", f"1-{KEPT}", "--effort", 1)
    if rounds(lines)[:KEPT] != rounds(before)[:KEPT]:
        raise ValueError("a round that is kept has other games")
    league = json.loads(LEAGUE.read_text(encoding="utf-8"))
    league |= {"begin": reports.schedule_faults(len(league["teams"]), before)[1], "near": NEAR}
    status, said = reports.judged(league, lines)
    with tempfile.TemporaryDirectory() as folder:
        text = pathlib.Path(folder, "text")
        text.write_text("\n".join(lines), encoding="utf-8")
        if run(program, "report", LEAGUE, text, *start) != said or status:
            raise ValueError("another report")
    moved = [line for line in lines if line.startswith("moved ")]
    if moved != [f"moved {sum(line.startswith('was ') for line in said)}"]:
        raise ValueError(f"{moved} and not the games that the report names")
    print(f"the season is mended, with {len(moved)} line on what moved")
