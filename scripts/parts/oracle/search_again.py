"""searches drawn leagues with rules with 1 to 16 workers, and plays each history again

usage: scripts/oracle search-again [RUNS [PROGRAM]]     1000 runs

`ttp play` has to come to the same history, the same best line, and, of the entries up to the best version, the same sheet, and `ttp report`
to its total. Then the first entries are played with pins, undos and moves behind them that are drawn: the whole text has to be the one
here. Two of the leagues in leagues/ come first. The last line is 'N runs agree', or says which run doesn't; the status is 1 then."""
import json
import random
import subprocess

from .. import TOP, case, leagues, programs, texts
from ..model import GREATEST, MOVES, read

# so many entries of a history are played, and so many drawn lines behind them
LINES = 40
FULL = "remark: the history is full, which ends a search early: its room is {}, and --room N gives up to 1048576\n"
# a league that stands ready, the workers, and the other options of a search
READY = [("circular-4", workers, {"slack": 30, "room": 40000}) for workers in (1, 2, 4, 16)]
READY.append(("circular-6", 1, {"slack": 4, "room": 1024, "steps": 2000}))


def search(program, text, options):
    """The lines of the text of a search, which says on standard error if its history fills the room."""
    words = [str(word) for name, value in options.items() for word in (f"--{name}", value)]
    ended = subprocess.run([program, "search", *words], input=text, capture_output=True, text=True, timeout=600)
    lines, room = ended.stdout.splitlines(), options["room"]
    if ended.returncode or ended.stderr != (FULL.format(room) if f"history {room}" in lines else ""):
        raise ValueError(f"{' '.join(words)}: status {ended.returncode}: {ended.stderr}")
    return lines


def parts(lines):
    """The entries of the history, the sheet and the best line of a search text or a play text."""
    start = next(i for i, line in enumerate(lines) if line.startswith("history "))
    end = lines.index("end", start)
    entries, sheet, best = lines[start + 1 : end], lines[end + 1 : -1], lines[-1]
    if lines[start] != f"history {len(entries)}" or not best.startswith("best "):
        raise ValueError(f"no history or best line: {lines[start]}, {best}")
    return entries, sheet, best


def drawn_line(draw, board):
    """A script line that may be granted: most pins are of games that are there, and most unpins of pinned ones."""
    games, pins = board.states[-1]
    pair = draw.choice(list(games))
    word = draw.choice(["pin", "pin", "unpin", "undo", "slack", "try", *MOVES])
    tries = ["try"] if word == "try" else []
    word = draw.choice(list(MOVES)) if tries else word
    if word == "unpin" and pins:
        pair = draw.choice(sorted(pins))
    if word in ("pin", "unpin"):
        return f"{word} {games[pair] + draw.choice([1, 1, 1, 2])} {pair[0] + 1} {pair[1] + 1}"
    if word == "slack":
        return f"slack {draw.choice([0, 100, GREATEST])}"
    limits = {"t": board.teams, "r": 2 * (board.teams - 1)}
    return " ".join([*tries, word, *(str(draw.randint(1, limits[of])) for of in MOVES.get(word, ""))])


def drawn_script(draw, text, room, entries):
    board, lines = texts.Board(read(text), room), []
    for n in range(2 * LINES):
        lines.append(entries[n] if n < min(LINES, len(entries)) else drawn_line(draw, board))
        texts.play_line(board, n, lines[-1])
    return lines


def agree(program, draw, text, options):
    found, room = search(program, text, options), options["room"]
    entries, sheet, best = parts(found)
    accepted = [line.split()[5] for line in found if line.startswith("worker ")]
    if len(accepted) != options["workers"] or sum(map(int, accepted)) != len(entries):
        raise ValueError(f"{accepted} accepted, of {len(entries)} entries")
    played = lambda script: programs.run(program, "play", "--room", room, given="\n".join([text, "script", *script, ""]))
    if parts(played(entries))[::2] != (entries, best):
        raise ValueError("the history played has another history or best line")
    upto = len(entries) if best == "best none" else int(best.split()[3])
    if parts(played(entries[:upto]))[1] != sheet:
        raise ValueError("the history played up to the best version has another sheet")
    last = programs.run(program, "report", given="\n".join([text, "sheet", *found, ""]), lawful=(0, 3))[-1]
    if best != "best none" and last != f"total {best.split()[1]}":
        raise ValueError(f"a report of it ends with {last}")
    script = drawn_script(draw, text, room, entries)
    if played(script) != [*texts.play(text, script, room)]:
        raise ValueError("a script with pins and undos has another text")


def drawn(draw, number):
    """A league, and the options of a search."""
    text = json.dumps(leagues.any_league(draw, [4, 4, 6, 8, 10, 12], 4))
    room, slack = draw.choice([64, 1024, 100000]), draw.choice([0, 10, 1000, GREATEST])
    return text, {"room": room, "workers": 1 + number % 16, "seed": number, "slack": slack, "steps": draw.randint(0, 2000)}


def main(runs=1000, *words):
    program = programs.program(words)
    for name, workers, options in READY:
        with case(f"{name} with {workers} workers"):
            text = (TOP / f"leagues/{name}.json").read_text(encoding="utf-8")
            agree(program, random.Random(workers), text, {"workers": workers, **options})
    for number in range(int(runs)):
        draw = random.Random(number)
        with case(f"run {number}"):
            agree(program, draw, *drawn(draw, number))
    print(f"{int(runs)} runs agree")
