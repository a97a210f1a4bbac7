"""has all commands write the same bytes as an older program, with one worker

usage: scripts/oracle as-before FOLDER [RUNS [PROGRAM [COMMAND]]]     50 runs

FOLDER holds this repository as it was, as `git worktree add FOLDER COMMIT` makes it. The older program runs unproved, by `rt try`, which
compiles it once. Half of the runs are searches, each tenth is an improvement of four or six teams, and the others start, play and report in
turn. A COMMAND is left out: improve, if it goes by other numbers than it did, or its older text had lines of legs. The leagues are drawn, of
4 to 20 teams in the first two formats, with up to four rules of each kind, and so are the seed, the slack and the script. The last line is
that of `rt try`, which counts the runs; the status is 1 if a text differs."""
import json
import pathlib
import random
import subprocess
import tempfile

from .. import leagues, programs
from ..model import MOVES

COMMANDS = ("search", "start", "search", "play", "search", "report", "search", "report --format csv", "search", "improve")
CHANGES = {**MOVES, "pin": "rtt", "undo": ""}


def words(draw, command, number):
    """The words after the program's name."""
    if command == "search":
        slack = draw.choice([0, 10, 300, 1000])
        return ["search", "--workers", "1", "--seed", str(number), "--steps", "2000", "--slack", str(slack), "--room", "10000"]
    if command == "improve":
        return ["improve", "--workers", "1", "--effort", "1", "--seed", str(number)]
    return command.split()


def script(draw, teams):
    """Lines of drawn changes, most of which can be made, and an undo now and then."""
    limits = {"t": teams, "r": 2 * (teams - 1)}
    for _ in range(100):
        name = draw.choice([*CHANGES])
        yield " ".join([name, *(str(draw.randint(1, limits[of])) for of in CHANGES[name])])


def given(draw, program, command, league_text, teams):
    """What the command reads from standard input."""
    if command == "play":
        return "\n".join([league_text, "script", *script(draw, teams), ""])
    if command.startswith("report"):
        return f"{league_text}\nsheet\n{programs.text(program, 'start', given=league_text)}"
    return league_text


def main(older, runs=50, *others):
    program = programs.program(others[:1])
    commands = [command for command in COMMANDS if command not in others[1:]]
    with tempfile.TemporaryDirectory() as folder:
        for number in range(1, int(runs) + 1):
            draw, command = random.Random(number), commands[number % len(commands)]
            of = leagues.any_league(draw, [4, 6] if command == "improve" else [4, 6, 8, 10, 12, 16, 20], 4, (1, 2))
            asked, read = words(draw, command, number), given(draw, program, command, json.dumps(of), len(of["teams"]))
            ran = subprocess.run([program, *asked], input=read, capture_output=True, text=True, check=False)
            case = f"{folder}/case{number:03}"
            endings = [("", read), (".args", "\n".join(asked) + "\n"), (".stdout", ran.stdout)]
            for ending, text in endings:
                pathlib.Path(case + ending).write_text(text, encoding="utf-8")
        tried = ["rt", "try", "ttp", "--seconds", "600", "--cases", folder]
        return subprocess.run(tried, cwd=pathlib.Path(older, "crates/ttp"), check=False).returncode
