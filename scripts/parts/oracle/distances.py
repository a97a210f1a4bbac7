"""holds `ttp league` to drawn tables of distances, and to damaged ones

usage: scripts/oracle distances [COUNT [SEED [PROGRAM]]]     500, 1

A third of the tables have bytes changed: they have to end in a league or a fault."""
import decimal
import json
import random
import subprocess

from .. import programs

TITLES = ("Valley Cup", '"Cup" \\ {1}', "\u00dcber \u65e5\u672c", 80 * "c")
NAMES = ("FC T", "T", '"" T', "\u00c4T", "\u65e5\u672cT", ";T,")


class Table:
    """A drawn table: its names, its distances as they are written, and its bytes."""

    def __init__(self, draw):
        self.teams = range(draw.choice([4, 4, 6, 8, 10]))
        self.names = [draw.choice(NAMES) + str(team) for team in self.teams]
        self.separator = draw.choice(",;\t")
        self.point = "." if self.separator == "," else draw.choice(".,")
        self.distances = {}
        turned = draw.random() < 0.3
        for b in self.teams:
            for a in range(b):
                there = decimal.Decimal(draw.randrange(100000)) / draw.choice([1, 1, 10, 100])
                self.distances[a, b] = there
                self.distances[b, a] = there + (draw.choice([0, 0, 1]) if turned else 0)
        named = draw.random() < 0.6
        rows = [["km"] * named + [self.quoted(draw, name) for name in self.names]]
        rows += [[self.quoted(draw, self.names[a])] * named + [self.cell(draw, a, b) for b in self.teams] for a in self.teams]
        end = draw.choice(["\n", "\r\n"])
        lines = [self.separator.join(row) + draw.choice(["", "", "", end]) for row in rows]
        self.bytes = draw.choice([b"", b"\xef\xbb\xbf"]) + (end.join(lines) + draw.choice(["", end])).encode()

    def quoted(self, draw, name):
        return f'"{name.replace(chr(34), 2 * chr(34))}"' if {'"', ",", ";"} & {*name} or draw.random() < 0.3 else name

    def cell(self, draw, a, b):
        return draw.choice(["", "0"]) if a == b else str(self.distances[a, b]).replace(".", self.point)

    def rounded(self, a, b):
        return 0 if a == b else int(self.distances[a, b].to_integral_value(decimal.ROUND_HALF_UP))

    def league(self, choice, title):
        """The members that the league has, or None if the table needs a choice."""
        both = {(a, b): (self.rounded(a, b), self.rounded(b, a)) for a in self.teams for b in self.teams}
        if choice is None and any(there != back for there, back in both.values()):
            return None
        sides = {pair: (there + back + 1) // 2 if choice == "mean" else max(there, back) for pair, (there, back) in both.items()}
        named = {} if title is None else {"name": title}
        return {"format": 3} | named | {"teams": self.names, "distances": [[sides[a, b] for b in self.teams] for a in self.teams]}


def made(program, table, *options):
    """The text of the league, or None if the program has a fault, of which it tells in lines of its own alone."""
    ended = subprocess.run([program, "league", "-", *options], input=table, capture_output=True, timeout=60, check=False)
    if ended.returncode not in (0, 1) or ended.returncode and (ended.stdout or not ended.stderr.startswith(b"ttp: ")):
        raise ValueError(f"status {ended.returncode} of {table!r}: {ended.stderr!r}")
    return None if ended.returncode else ended.stdout.decode()


def main(count=500, seed=1, *words):
    program, draw, faults = programs.program(words), random.Random(int(seed)), 0
    for _ in range(int(count)):
        table, choice = Table(draw), draw.choice([None, "mean", "max"])
        title = draw.choice([None, *TITLES])
        options = ["--symmetric", choice] * bool(choice) + ["--name", title] * bool(title)
        damaged = bytearray(table.bytes)
        for _ in range(draw.choice([0, 0, 1]) * draw.randint(1, 3)):
            damaged[draw.randrange(len(damaged))] = draw.randrange(256)
        text = made(program, bytes(damaged), *options)
        if damaged == table.bytes and (text and json.loads(text)) != table.league(choice, title):
            raise ValueError(f"another league of {table.bytes!r} {options}: {text}")
        if text:
            programs.text(program, "start", given=text)
        faults += text is None
    print(f"{count} tables of distances, {faults} of them with faults: the same")
