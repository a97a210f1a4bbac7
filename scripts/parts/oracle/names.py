"""holds reports to names that have each byte that a league may have

usage: scripts/oracle names [PROGRAM]

A league of six teams has names of 40 bytes, and together each byte of UTF-8 but the control marks. A report as text, CSV, a page and JSON
tells each name, and the CSV with names in place of numbers is the same schedule again."""
import csv
import html.parser
import io
import json
import re

from .. import leagues, programs

LEADS = [*range(0xF0, 0xF5), *range(0xE0, 0xF0), *range(0xC2, 0xE0), *range(32, 127)]
FORMS = ("text", "csv", "html", "json")
HEADS = ("round,home,a,away,b", "round,a,home,b,away")


def mark(lead):
    """A mark whose first byte is this one."""
    if lead < 128:
        return bytes([lead])
    if lead < 0xE0:
        return bytes([lead, 0x80 + (lead - 0xC2)])
    if lead < 0xF0:
        second = 0x9F if lead == 0xED else 0xA0 + (lead - 0xE0)
        return bytes([lead, second, 0xB0 + (lead - 0xE0)])
    return bytes([lead, 0x80 if lead == 0xF4 else 0x90, 0x9E, 0xAD])


def names():
    found = [b""] * 6
    for part in map(mark, LEADS):
        at = next(k for k, name in enumerate(found) if len(name + part) <= 40)
        found[at] += part
    found = [name.ljust(40, b"x") for name in found]
    assert {*b"".join(found)} == {*range(32, 127), *range(0x80, 0xC0), *range(0xC2, 0xF5)}
    return [name.decode() for name in found]


class Heads(html.parser.HTMLParser):
    """The texts of a page's head cells."""

    def __init__(self):
        super().__init__()
        self.texts = []

    def handle_starttag(self, tag, _):
        self.is_inside = tag == "th"
        if self.is_inside:
            self.texts.append("")

    def handle_data(self, text):
        if self.texts and self.is_inside:
            self.texts[-1] += text

    def handle_endtag(self, _):
        self.is_inside = False


def unguarded(cell):
    """The cell without the apostrophe that keeps a spreadsheet from taking it for a formula."""
    return cell[1:] if cell.startswith(("'=", "'+", "'-", "'@")) else cell


def teams_of(form, report):
    """The names that the report tells, each with its team's number."""
    if form == "text":
        return {tuple(line.split(" ", 3)[1::2]) for line in report.split("\n") if line.startswith("team ")}
    if form == "csv":
        return {(row[1], unguarded(row[2])) for row in csv.reader(io.StringIO(report, newline=""))} - {("home", "home name")}
    if form == "json":
        return {(str(k), name) for k, name in enumerate(json.loads(report)["league"]["teams"], 1)}
    heads = Heads()
    heads.feed(report)
    return {tuple(text.split(" ", 1)) for text in heads.texts if " " in text}


def main(*words):
    program = programs.program(words)
    league = json.dumps({**leagues.made("constant", 6), "teams": names()}, ensure_ascii=False) + "\n"
    sheet = "\n".join(programs.run(program, "start", given=league))
    told = {form: programs.text(program, "report", "--format", form, given=f"{league}sheet\n{sheet}\n") for form in FORMS}
    for form, report in told.items():
        if teams_of(form, report) != {(str(k), name) for k, name in enumerate(names(), 1)}:
            raise ValueError(f"a report as {form} has other names")
    for head in HEADS:
        table = re.sub("^.*", head, told["csv"], count=1)
        if programs.text(program, "report", given=f"{league}sheet\n{table}") != told["text"]:
            raise ValueError(f"a table with the head row {head} is another schedule")
    print(f"{len(told)} reports tell each name, and {len(HEADS)} tables are read again")
