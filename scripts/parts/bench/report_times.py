"""measures how long `ttp report` takes for the largest inputs: 1,000,000 games, and 256 rules on 40 teams

usage: scripts/bench report-times [PROGRAM]"""
import json

from .. import programs


def league(teams, rules):
    names = [f"T{team}" for team in range(1, teams + 1)]
    distances = [[abs(a - b) for b in range(teams)] for a in range(teams)]
    return json.dumps({"format": 2, "teams": names, "distances": distances, "rules": rules}) + "\n"


def rule(number):
    teams = list(range(1, 41))
    return [
        {"class": "CA3", "kind": "soft", "weight": 1, "teams1": teams, "mode": "HA", "intp": 39, "max": 1},
        {"class": "FA2", "kind": "soft", "weight": 1, "teams": teams, "intp": 0},
        {"class": "CA4", "kind": "hard", "teams1": teams, "mode": "HA", "mode2": "EVERY", "max": 0},
    ][number % 3]


def show(program, name, text):
    seconds = programs.user_seconds(1, [program, "report"], text, lawful=(0, 3))
    print(f"{name}: {len(text.encode())} bytes, {seconds:.2f} seconds of processor time")


def main(*words):
    program = programs.program(words)
    games = "sheet\nround 1:" + " 1-2" * 1_000_000 + "\n"
    show(program, "1,000,000 games of 4 teams", league(4, []) + games)
    show(program, "1,000,000 games of 40 teams", league(40, []) + games)
    text = league(40, [rule(number) for number in range(256)])
    show(program, "256 rules on 40 teams", text + "sheet\n" + programs.text(program, "start", given=text))
