"""counts the instructions of a step over a whole `ttp improve --workers 1 --effort 1` without rules

usage: scripts/bench improve-instructions [SOURCE [PROGRAM]]

Reading the league and writing the text count too. SOURCE is a program to compare with, one file of plain Rust with the same moves, costs
and policy, which isn't in this repository: `rustc -O` builds it, and it is counted on the same leagues. They are those of valgrind's
callgrind, of one run each."""
import json
import subprocess
import tempfile

from .. import leagues, programs
from ..callgrind import collected

LEAGUES = [("circle", 18), ("plane", 16), ("plane", 30)]
STEPS = 1_000_000


def step(command, text=""):
    """The instructions of a step of this command."""
    return collected(command, text) / STEPS


def plain(text):
    """The league as the other program reads it."""
    given = json.loads(text)
    rows = [" ".join(map(str, row)) for row in given["distances"]]
    return "\n".join([f"{len(rows)} {given.get('at_most', 3)} {given['hard_weight']}", *rows, ""])


def other_step(program, text):
    with tempfile.NamedTemporaryFile("w", suffix=".league") as file:
        file.write(plain(text))
        file.flush()
        return step([program, f"league={file.name}", "pol=final", f"T={STEPS}", "seed=1", "qbits=8", "unit=med", "pops=4"])


def main(*words):
    source, program = words[:1], programs.program(words[1:])
    with tempfile.TemporaryDirectory() as room:
        other = f"{room}/other"
        if source:
            subprocess.run(["rustc", "-O", "-A", "warnings", *source, "-o", other], check=True)
        programs.head("League", "Here", *(("The other", "Times") if source else ()))
        for kind, teams in LEAGUES:
            text = leagues.text(kind, teams)
            took = [step([program, "improve", "--workers", "1", "--effort", "1"], text)]
            took += [other_step(other, text) for _ in source]
            programs.row(f"{kind} of {teams}", *(f"{each:,.0f}" for each in took), *(f"{took[0] / each:.1f}" for each in took[1:]))
