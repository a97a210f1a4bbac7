"""holds scripts/robinx to what docs/robinx.md says

usage: scripts/check robinx

That is the instances of leagues/robinx to the leagues and solutions that were written for them by hand, each refusal to its line, and drawn
constraints to what scripts/parts/model.py counts of their rules. It needs no proved program. The last line is 'N passed, M failed', which counts cases."""
import contextlib
import importlib.machinery
import importlib.util
import io
import json
import random
import subprocess
import sys
import tempfile

from .. import TOP, leagues, model, robinx_counts
from ..robinx_instance import instance_of

SCRIPT, READY = TOP / "scripts" / "robinx", TOP / "leagues" / "robinx"
SUM = "remark: the objective TR has soft constraints beside it: their penalties are added to the travel\n"

passed = failed = 0


def loaded():
    """The script as a module: a process for each case would take most of the time."""
    loader = importlib.machinery.SourceFileLoader("robinx", str(SCRIPT))
    module = importlib.util.module_from_spec(importlib.util.spec_from_loader("robinx", loader))
    loader.exec_module(module)
    return module


robinx = loaded()


def run(*words, given=""):
    """The status of the command, its output and its error."""
    output, error, kept = io.StringIO(), io.StringIO(), sys.stdin
    sys.stdin = io.TextIOWrapper(io.BytesIO(given.encode()))
    try:
        with contextlib.redirect_stdout(output), contextlib.redirect_stderr(error):
            status = robinx.main([*map(str, words)])
    except SystemExit as ended:
        status = ended.code
    finally:
        sys.stdin = kept
    return status, output.getvalue(), error.getvalue()


def judge(name, ended, wanted):
    global passed, failed
    if ended == wanted:
        passed += 1
        return
    failed += 1
    print(f"check robinx: {name}: there is\n{ended}\nin place of\n{wanted}")


def refused(*lines):
    return 1, "", "".join(f"robinx: {line}\n" for line in lines)


def ready(name):
    return (READY / name).read_text(encoding="utf-8")


def edited(text, *edits):
    """The text with each old text changed where it stands first."""
    for old, new in edits:
        assert old in text, old
        text = text.replace(old, new, 1)
    return text


NATIONAL, CLASSES = ready("national-4.xml"), ready("classes-4.xml")


def check_ready():
    """The instances that stand ready, with the leagues and solutions that were written by hand.

    The tours of national-4.txt, which a search through all 5760 double round robins of four teams found:
    Atlanta      Montreal 929, New York 337, Philadelphia 80, home 665                      2011
    New York     Atlanta 745, Philadelphia 665, Montreal 380, home 337                      2127
    Philadelphia New York 80, Montreal 337, home 380, and later Atlanta 665, home 665       2127
    Montreal     New York 337, Philadelphia 80, Atlanta 665, home 929                       2011
    They add up to 8276, the least total of these four teams. No run is longer than three, and no two teams meet twice in a row.

    The constraints of classes-4.xml on classes-4.txt, in the order of the file, with teams and rounds from 1:
    CA1  hard  3   team 4 is away in rounds 1, 3 and 5, which is 2 above 1                  hard 6
    CA2  soft 10   team 1 is away against 3 in round 3 and against 4 in round 4: 2 above 0  soft 20
    CA2  soft  3   from round 2 to 5 team 2 meets 1 twice, 3 once: 1 above 1 against 1      soft 3
    CA3  soft 10   team 3 is at home in rounds 3, 4 and 5: 1 above 2 in one window          soft 10
    CA4  hard  1   1-4 and 2-3 in round 1 and 1-3 in round 6: 2 above 1                     hard 2
    CA4  soft  5   the same games, 1 above 1 in round 1, and none above in round 6          soft 5
    GA1  soft  4   1-2 is in round 2, 3-4 is in round 5 and not in 2 or 6: 1 below 2        soft 4
    BR1  hard  7   team 1 is away in rounds 3, 4 and 5: 2 breaks above 0                    hard 14
    BR2  soft 10   teams 1 and 3 have 3 breaks each, the others none: 2 above 4             soft 20
    FA2  soft 10   after round 2 team 1 has had 2 home games and 3 none: 1 above 1          soft 10
    SE1  soft 10   1-4 in round 1, 4-1 in round 4, 2 rounds between: 1 below 3              soft 10
    They add up to hard 22 and soft 82."""
    for name in ("national-4", "classes-4"):
        instance, sheet = READY / f"{name}.xml", READY / f"{name}.txt"
        judge(f"the league of {name}", run("league", instance), (0, ready(f"{name}.json"), ""))
        judge(f"the solution of {name}", run("solution", instance, sheet), (0, ready(f"{name}-solution.xml"), ""))


def check_processes():
    """The script as a process of its own, with standard input, and its words."""
    cases = [
        ("an instance on standard input", ["league", "-"], NATIONAL, ready("national-4.json")),
        ("a sheet on standard input", ["solution", READY / "national-4.xml", "-"], ready("national-4.txt"), ready("national-4-solution.xml")),
    ]
    for name, words, given, wanted in cases:
        ended = subprocess.run([SCRIPT, *words], input=given, capture_output=True, text=True, check=False)
        judge(name, (ended.returncode, ended.stdout, ended.stderr), (0, wanted, ""))
    ended = subprocess.run([SCRIPT, "league", "-"], input="", capture_output=True, text=True, check=False)
    judge("a text that is empty", (ended.returncode, ended.stdout, ended.stderr.count("\n")), (1, "", 1))
    for words in ([], ["league"], ["solution", "-"], ["solution", "-", "-"], ["leagues", "-"]):
        judge(f"the words {words}", run(*words)[:2], (2, ""))
    judge("help", run("--help")[::2], (0, ""))
    judge("a file that is missing", run("league", READY / "none.xml"), refused(f"{READY}/none.xml: cannot be read"))


# what is refused of a constraint: the old text in CLASSES, the new one, and what the line says
CONSTRAINTS = [
    ('min="0" mode="A"', 'min="1" mode="A"', "Constraint 1, CA1: min 1 isn't read"),
    ('mode="A"', 'mode="HA"', "Constraint 1, CA1: mode HA isn't read"),
    ('max="1"', 'max="10001"', "Constraint 1, CA1: max 10001 isn't 0 to 10000"),
    ('max="1"', 'max="-1"', "Constraint 1, CA1: max -1 isn't 0 to 10000"),
    ('max="1"', 'max="1.0"', "Constraint 1, CA1: max 1.0 isn't 0 to 10000"),
    ('max="1" ', "", "Constraint 1, CA1: max is absent"),
    ('penalty="3"', 'penalty="0"', "Constraint 1, CA1: penalty 0 isn't 1 to 1000000"),
    ('penalty="3"', 'penalty="1000001"', "Constraint 1, CA1: penalty 1000001 isn't 1 to 1000000"),
    ('penalty="10" slots="2;3"', 'slots="2;3"', "Constraint 2, CA2: penalty is absent"),
    ('type="HARD"', 'type="FIRM"', "Constraint 1, CA1: type FIRM isn't read"),
    ('teams="3"', 'teams="4"', "Constraint 1, CA1: there is no team 4"),
    ('slots="0;2;4"', 'slots="0;2;6"', "Constraint 1, CA1: there is no slot 6"),
    ('slots="0;2;4"', 'slots=";"', "Constraint 1, CA1: slots is absent"),
    ('slots="0;2;4"', 'slots="0" kind="1"', "Constraint 1, CA1: kind isn't read"),
    ('teamGroups2="0"', 'teamGroups2="2"', "Constraint 2, CA2: teamGroup 2 has no team"),
    ('mode2="GLOBAL"', 'mode2="ALL"', "Constraint 2, CA2: mode2 ALL isn't read"),
    ('min="0" mode1="HA"', 'min="2" mode1="HA"', "Constraint 3, CA2: min 2 isn't read"),
    ('intp="3"', 'intp="7"', "Constraint 4, CA3: intp 7 isn't 1 to 6"),
    ('intp="3" max="2" min="0"', 'intp="3" max="2" min="1"', "Constraint 4, CA3: min 1 isn't read"),
    ('mode2="SLOTS" penalty="10" teams1', 'mode2="DAYS" penalty="10" teams1', "Constraint 4, CA3: mode2 DAYS isn't read"),
    (
        'mode1="H" mode2="GLOBAL" penalty="1" slotGroups="0" slots="" teamGroups1="1" teams2="2;3"',
        'mode1="HA" mode2="GLOBAL" penalty="1" slots="0" teams1="0;1;2" teams2="1;2;3"',
        "Constraint 5, CA4: mode1 HA isn't read where two teams are both in teams1 and in teams2",
    ),
    ('slotGroups="0" slots=""', 'slotGroups="1"', "Constraint 5, CA4: slotGroup 1 has no slot"),
    ('meetings="0,1;2,3;"', 'meetings="0,1;2,2;"', "Constraint 7, GA1: meetings has 2,2, which is no game"),
    ('meetings="0,1;2,3;"', 'meetings="0;1"', "Constraint 7, GA1: meetings has 0, which is no game"),
    ('meetings="0,1;2,3;"', 'meetings="0,4"', "Constraint 7, GA1: there is no team 4"),
    ('meetings="0,1;2,3;"', 'meetings=""', "Constraint 7, GA1: meetings is absent"),
    ('min="2"', 'min="3"', "Constraint 7, GA1: min 3 is above max 2"),
    ('mode2="AWAY"', 'mode1="GEQ" mode2="AWAY"', "Constraint 8, BR1: mode1 GEQ isn't read"),
    ('mode2="AWAY"', 'mode2="NONE"', "Constraint 8, BR1: mode2 NONE isn't read"),
    ('homeMode="HA"', 'homeMode="H"', "Constraint 9, BR2: homeMode H isn't read"),
    ('mode2="LEQ"', 'mode2="GEQ"', "Constraint 9, BR2: mode2 GEQ isn't read"),
    ('mode="H"', 'mode="HA"', "Constraint 10, FA2: mode HA isn't read"),
    ('<SE1 min="3"', '<SE1 min="3" max="3"', "Constraint 11, SE1: max 3 isn't read"),
    ('mode1="SLOTS"', 'mode1="GAMES"', "Constraint 11, SE1: mode1 GAMES isn't read"),
    ("<FA2 ", '<FA1 type="HARD"/><FA2 ', "Constraint 10, FA1: the class isn't read"),
    ("<BasicConstraints/>", "<BA1/>", "Constraint 1, BA1: the class isn't read"),
]
# what is refused of the rest of NATIONAL
STRUCTURE = [
    ("<numberRoundRobin>2", "<numberRoundRobin>1", "numberRoundRobin 1 isn't read"),
    ("<numberRoundRobin>2", "<numberRoundRobin>3", "numberRoundRobin 3 isn't read"),
    ("<numberRoundRobin>2</numberRoundRobin>", "", "numberRoundRobin is absent"),
    ("<compactness>C", "<compactness>R", "compactness R isn't read"),
    ("<gameMode>NULL", "<gameMode>M", "gameMode M isn't read"),
    ("<AdditionalGames/>", "<AdditionalGames><game/></AdditionalGames>", "AdditionalGames aren't read"),
    ("<AdditionalGames/>", "<Format/>", "more than one Format isn't read"),
    ("</Leagues>", '<league id="1"/></Leagues>', "more than one league isn't read"),
    ("<Objective>TR", "<Objective>BM", "Objective BM isn't read"),
    ("<Objective>TR</Objective>", "", "Objective is absent"),
    ('<team id="3" league="0" name="Montreal"/>', "", "3 teams aren't read: a league has an even number from 4 to 40"),
    ('team id="3"', 'team id="4"', "the ids of the teams aren't the numbers from 0 to 3"),
    ('slot id="3"', 'slot id="2"', "the ids of the slots aren't the numbers from 0 to 5"),
    ('<slot id="5" name="Slot 5"/>', "", "5 slots aren't read: the double round robin of 4 teams has 6"),
    ('name="Atlanta"', f'name="{"A" * 41}"', "the name of team 0 isn't 1 to 40 bytes without control marks"),
    ('name="Atlanta"', f'name="{"é" * 21}"', "the name of team 0 isn't 1 to 40 bytes without control marks"),
    ('name="Atlanta"', 'name="Atlan&#9;ta"', "the name of team 0 isn't 1 to 40 bytes without control marks"),
    ('name="Atlanta"', 'name="Atlan&#127;ta"', "the name of team 0 isn't 1 to 40 bytes without control marks"),
    ('name="Montreal"', "", "the name of team 3 isn't 1 to 40 bytes without control marks"),
    ('team1="0" team2="1" dist="745"', 'team1="0" team2="1" dist="744"', "the distances between teams 0 and 1 aren't the same"),
    ('<distance team1="0" team2="1"', '<distance team1="0" team2="0"', "the distance from team 0 to itself isn't 0"),
    ('<distance team1="0" team2="1"', '<distance team1="0" team2="9"', "there is no team 9"),
    ('dist="745"', 'dist="1000001"', "dist 1000001 isn't 0 to 1000000"),
    ('dist="745"', 'dist="7.45"', "dist 7.45 isn't 0 to 1000000"),
    ('dist="745"', "", "dist is absent"),
]
# edits that make NATIONAL no XML. The last one names a file that there is, which isn't read
FAR = f'<!DOCTYPE Instance [<!ENTITY far SYSTEM "{(READY / "national-4.txt").as_uri()}">]>'
NO_XML = [("</Instance>", ""), ("<?xml", "x<?xml"), ('"UTF-8"', '"none"'), ("Atlanta", "&far;"), ("<Instance>", f"{FAR}<Instance>&far;")]


def check_refusals():
    for text, cases in ((CLASSES, CONSTRAINTS), (NATIONAL, STRUCTURE)):
        for old, new, line in cases:
            judge(f"{new} for {old}", run("league", "-", given=edited(text, (old, new))), refused(line))
    for old, new in NO_XML:
        status, output, error = run("league", "-", given=edited(NATIONAL, (old, new)))
        judge(f"{new} for {old}", (status, output, error.startswith("robinx: - is no XML: "), error.count("\n")), (1, "", True, 1))
    both = edited(CLASSES, ('min="0" mode="A"', 'min="1" mode="A"'), ('mode2="LEQ"', 'mode2="GEQ"'))
    lines = ["Constraint 1, CA1: min 1 isn't read", "Constraint 9, BR2: mode2 GEQ isn't read"]
    judge("two constraints that aren't read", run("league", "-", given=both), refused(*lines))
    judge("the same of a solution", run("solution", "-", READY / "classes-4.txt", given=both), refused(*lines))
    judge("another root", run("league", "-", given="<Solution/>"), refused("the root is Solution, not Instance"))
    halved = "\n".join(line for line in NATIONAL.splitlines() if 'team1="2" team2="1"' not in line)
    judge("a distance in one direction", run("league", "-", given=halved), (0, ready("national-4.json"), ""))
    halved = edited(halved, ('<distance team1="1" team2="2" dist="80"/>', ""))
    judge("a distance in none", run("league", "-", given=halved), refused("the distance between teams 1 and 2 is absent"))
    judge("the most teams", len(league_of(instance_text(40, []))[0]["teams"]), 40)
    line = "42 teams aren't read: a league has an even number from 4 to 40"
    judge("more teams", run("league", "-", given=instance_text(42, [])), refused(line))


def league_of(text):
    """The league of an instance and what is said on it, or what is said of its refusal."""
    status, output, error = run("league", "-", given=text)
    return (json.loads(output), error) if status == 0 else error


def element(name, attributes):
    return f"<{name} " + " ".join(f'{attribute}="{value}"' for attribute, value in attributes.items()) + "/>"


def run_limit(**given):
    """The constraint of NATIONAL on the runs at home, with other values of these attributes."""
    usual = {"teams1": "0;1;2;3", "mode1": "H", "teams2": "0;1;2;3", "mode2": "SLOTS", "intp": 4, "min": 0, "max": 3}
    return element("CA3", {**usual, "penalty": 1, "type": "HARD", **given})


def separation(**given):
    return element("SE1", {"teams": "0;1;2;3", "mode1": "SLOTS", "min": 1, "penalty": 1, "type": "HARD", **given})


def runs_rule(**given):
    return {"class": "CA3", "kind": "hard", "teams1": [1, 2, 3, 4], "mode": "H", "intp": 4, "max": 3, **given}


def separation_rule(**given):
    return {"class": "SE1", "kind": "hard", "teams": [1, 2, 3, 4], **given}


HOME, AWAY, SE1, AWAY_RULE = run_limit(), run_limit(mode1="A"), separation(), runs_rule(mode="A")
OF_EACH_TEAM = [
    (HOME, "".join(run_limit(teams1=team) for team in range(4))),
    (AWAY, "".join(run_limit(teams1=team, mode1="A", teams2="0;1;2;3".replace(str(team), "")) for team in range(4))),
]
# edits of NATIONAL: what `at_most` becomes, the rules, and the remarks. Those behind them have free repeats
LIMITS = {
    "a constraint of each team": (OF_EACH_TEAM, 3, [], ""),
    "runs of two": ([(HOME, run_limit(intp=3, max=2)), (AWAY, run_limit(mode1="A", intp=3, max=2))], 2, [], ""),
    "two limits": ([(HOME, HOME + run_limit(intp=3, max=2) + run_limit(mode1="A", intp=3, max=2))], 2, [runs_rule(), AWAY_RULE], ""),
    "runs at home alone": ([(AWAY, "")], 6, [runs_rule()], ""),
    "a soft limit": ([(HOME, run_limit(type="SOFT"))], 6, [{**runs_rule(kind="soft"), "weight": 1}, AWAY_RULE], SUM),
    "a limit of three teams": ([(HOME, run_limit(teams1="0;1;2"))], 6, [runs_rule(teams1=[1, 2, 3]), AWAY_RULE], ""),
    "a limit against three teams": ([(HOME, run_limit(teams2="0;1;2"))], 6, [runs_rule(teams2=[1, 2, 3]), AWAY_RULE], ""),
    "a longer window": ([(HOME, run_limit(intp=5))], 6, [runs_rule(intp=5), AWAY_RULE], ""),
    "a limit in games": ([(HOME, run_limit(mode2="GAMES"))], 3, [], ""),
    "an SE1 of two rounds": ([(SE1, separation(min=2, max=4))], 3, [separation_rule(min=2)], ""),
    "two SE1 of all pairs": ([(SE1, separation(teams="0;1;2") + separation(teams="0;1;3") + separation(teams="2;3"))], 3, [], ""),
}
FREE = {
    "no SE1": ([(SE1, "")], 3, [], ""),
    "a soft SE1": ([(SE1, separation(type="SOFT"))], 3, [{**separation_rule(kind="soft", min=1), "weight": 1}], SUM),
    "an SE1 of three teams": ([(SE1, separation(teams="0;1;2"))], 3, [separation_rule(teams=[1, 2, 3], min=1)], ""),
    "an SE1 of no rounds": ([(SE1, separation(min=0))], 3, [separation_rule(min=0)], ""),
}


def check_limits():
    for name, (edits, at_most, rules, remarks) in {**LIMITS, **FREE}.items():
        league, said = league_of(edited(NATIONAL, *edits))
        judge(name, (league["at_most"], league.get("rules", []), said), (at_most, rules, remarks))
        judge(f"repeats with {name}", league.get("repeats"), "free" if name in FREE else None)
    league, _ = league_of(edited(CLASSES, ("<Distances/>", '<Distances><distance team1="0" team2="1" dist="7"/></Distances>')))
    judge("distances that the objective leaves out", league, json.loads(ready("classes-4.json")))
    for name in ("n" * 81, "", "a&#9;b", "é" * 41):
        judge(f"no name {name}", league_of(edited(NATIONAL, (">national-4<", f">{name}<")))[0].get("name"), None)
    judge("the longest name", league_of(edited(NATIONAL, (">national-4<", f">{'é' * 40}<")))[0]["name"], "é" * 40)
    for old, new in ((' penalty="3"', ""), ("<CA1 ", '<CA1 kind="" ')):
        judge(f"{new} for {old}", league_of(edited(CLASSES, (old, new)))[0], json.loads(ready("classes-4.json")))


def check_sheets():
    """Which schedule of a text is read, and what is wrong with it."""
    sheet, solution = ready("national-4.txt"), (0, ready("national-4-solution.xml"), "")
    repeated = sheet.replace("round 1: 2-3 4-1", "round 1: 1-2 3-4")
    texts = {
        "the rounds alone": "".join(sheet.splitlines(True)[5:]),
        "the last sheet of two": repeated + "best 1\n" + sheet + "best 8276 at 9\n",
        "the line ends of another system": sheet.replace("\n", "\r\n"),
    }
    for name, text in texts.items():
        judge(name, run("solution", READY / "national-4.xml", "-", given=text), solution)
    without = [f"team {team} has no game in round 1" for team in range(1, 5)]
    faults = {
        "": ['- has no line "round R: H-A"'],
        "league\nrounds 1\n": ['- has no line "round R: H-A"'],
        sheet.replace("4-1", "4:1"): ["- is no double round robin", "bad line 6", *without, "game 2-3 is missing", "game 4-1 is missing"],
        sheet.replace("4-1", "1-4"): ["- is no double round robin", "game 1-4 stands 2 times", "game 4-1 is missing"],
    }
    for text, lines in faults.items():
        judge(lines[-1], run("solution", READY / "national-4.xml", "-", given=text), refused(*lines))
    turned = edited(sheet, ("round 3", "round 0"), ("round 4", "round 3"), ("round 0", "round 4"))
    unphased = run("solution", "-", READY / "national-4.txt", given=edited(NATIONAL, ("NULL", "P")))
    judge("a schedule that is phased", unphased, solution)
    with tempfile.NamedTemporaryFile("w", suffix=".txt") as file:
        file.write(turned)
        file.flush()
        unphased = run("solution", "-", file.name, given=edited(NATIONAL, ("NULL", "P")))
        judge("such a schedule where none is asked for", run("solution", READY / "national-4.xml", file.name)[0], 0)
        judge("a schedule that isn't phased", unphased, refused(f"{file.name} isn't phased: both games of 1 and 2 stand in one half"))
    soft = edited(NATIONAL, (SE1, '<CA1 teams="0" mode="H" slots="3;4;5" min="0" max="1" penalty="50" type="SOFT"/>'))
    # Atlanta is at home in rounds 4, 5 and 6: 2 above 1, 50 each
    ended = run("solution", "-", READY / "national-4.txt", given=soft)
    judge("soft constraints beside the travel", (ended[0], 'objective="8376"' in ended[1], ended[2]), (0, True, SUM))


def instance_text(teams, elements):
    """An instance of so many teams with these constraints."""
    part = lambda word, count: "".join(f'<{word} id="{number}" name="{word}{number}"/>' for number in range(count))
    return (
        "<Instance><Structure><Format><numberRoundRobin>2</numberRoundRobin><compactness>C</compactness></Format></Structure>"
        "<ObjectiveFunction><Objective>SC</Objective></ObjectiveFunction>"
        f"<Resources><Teams>{part('team', teams)}</Teams><Slots>{part('slot', 2 * teams - 2)}</Slots></Resources>"
        f"<Constraints>{''.join(elements)}</Constraints></Instance>"
    )


def element_of(rule, teams):
    """A rule of a league as a constraint of RobinX."""
    name, ids = rule["class"], lambda numbers: ";".join(str(number - 1) for number in numbers)
    given = {"type": rule["kind"].upper(), "penalty": rule.get("weight", 1)}
    given |= {member: rule[member] for member in ("max", "min", "intp") if member in rule}
    given |= {member: ids(rule[member]) for member in ("teams", "teams1") if member in rule}
    if name in leagues.WITH_SLOTS:
        given["slots"] = ids(rule.get("slots", range(1, 2 * teams - 1)))
    if name in ("CA2", "CA3", "CA4"):
        given |= {"teams2": ids(rule.get("teams2", range(1, teams + 1))), "mode1": rule["mode"], "min": 0}
    given |= {
        "CA1": lambda: {"mode": rule["mode"]},
        "CA2": lambda: {"mode2": "GLOBAL"},
        "CA3": lambda: {"mode2": "SLOTS"},
        "CA4": lambda: {"mode2": rule["mode2"]},
        "GA1": lambda: {"meetings": "".join(f"{home - 1},{away - 1};" for home, away in rule["games"])},
        "BR1": lambda: {"mode2": {"H": "HOME", "A": "AWAY", "HA": "HA"}[rule["mode"]]},
        "BR2": lambda: {"homeMode": "HA", "mode2": "LEQ"},
        "FA2": lambda: {"mode": "H"},
        "SE1": lambda: {"mode1": "SLOTS"},
    }[name]()
    return element(name, given)


def schedule(draw, teams):
    """The Berger start after some drawn moves."""
    games = model.start(teams)
    for _ in range(20):
        kind = draw.choice([*model.MOVES])
        after = model.moved(games, teams, kind, [draw.randrange(teams if of == "t" else 2 * teams - 2) for of in model.MOVES[kind]])
        games = games if isinstance(after, str) else after
    return games


def drawn_rules(draw, name, cases):
    """Drawn rules of this class for six teams, none of which is refused as a constraint or holds in each league."""
    rules = []
    while len(rules) < cases:
        rule = leagues.drawn_rule(draw, 6, name)
        if name == "CA4" and rule["mode"] == "HA":
            rule["teams2"] = [team for team in range(1, 7) if team not in rule["teams1"]]
        if rule.get("teams2") != [] and (name, rule["kind"], rule.get("min")) != ("SE1", "hard", 1):
            rules.append(rule)
    return rules


def normal(rule):
    """The rule as it stands in a league that was made: games once and in their order, and no set that has all."""
    whole = {"slots": 10, "teams2": 6}
    found = {member: value for member, value in rule.items() if member not in whole or len(value) < whole[member]}
    return {**found, "games": sorted([*game] for game in {*map(tuple, rule["games"])})} if "games" in rule else found


def check_drawn(cases=25):
    """Drawn rules, written as constraints: the league has them again, and each counts the same in both words."""
    for name in leagues.CLASSES:
        draw = random.Random(name)
        rules = drawn_rules(draw, name, cases)
        text = instance_text(6, [element_of(rule, 6) for rule in rules])
        judge(f"drawn rules {name}", league_of(text)[0]["rules"], [*map(normal, rules)])
        constraints = instance_of(text, "-").constraints
        constraints += instance_of(text.replace("GLOBAL", "EVERY"), "-").constraints
        for _ in range(4):
            games = schedule(draw, 6)
            season, table = robinx_counts.Season(games, 6), model.cells(games, 6)
            counts = [robinx_counts.deviation(constraint, season) for constraint in constraints]
            wanted = [sum(model.deviation(rule, games, table) for rule in robinx.rules_of(constraint)) for constraint in constraints]
            judge(f"counts of drawn rules {name}", counts, wanted)
            judge(f"their counts as they were drawn {name}", counts[:cases], [model.deviation(rule, games, table) for rule in rules])


def many_rules():
    """256 rules of six teams. Those of the first four kinds can be put together, the others can't."""
    wish = {"kind": "soft", "weight": 3}
    kinds = [
        [
            {"class": name, **wish, "teams": [team], "mode": mode, "slots": [slot], bound: 0}
            for name, bound in (("CA1", "max"), ("BR1", "intp"))
            for mode in "HA"
            for team in range(1, 7)
            for slot in range(1, 11)
        ],
        [{"class": "CA2", **wish, "teams1": [team], "mode": "H", "teams2": [1, 2], "slots": [1, 2, 3], "max": 1} for team in range(3, 7)],
        [shared(slots=[slot]) for slot in (1, 2, 5)],
        [{"class": "BR2", **wish, "teams": [1, 2], "slots": [slot], "intp": 0} for slot in (2, 3)],
        [{"class": "CA1", **wish, "teams": [1], "mode": "H", "slots": slots, "max": 1} for slots in ([1, 2], [3, 4])],
        [shared(mode2="GLOBAL", teams1=teams, slots=[1, 2, 3]) for teams in ([1], [2])],
    ]
    rules = [rule for kind in kinds for rule in kind]
    return rules + [{"class": "CA3", **wish, "teams1": [1], "mode": "A", "intp": 3, "max": 1}] * (256 - len(rules))


def shared(**given):
    return {"class": "CA4", "kind": "hard", "teams1": [1, 2], "mode": "H", "teams2": [3, 4], "mode2": "EVERY", "max": 1, **given}


def check_many():
    """More than 256 constraints: some are put together, where that leaves each cost as it is."""
    rules = many_rules()
    text = lambda rules: instance_text(6, [element_of(rule, 6) for rule in rules])
    judge("as many rules as a league may have", len(league_of(text(rules))[0]["rules"]), 256)
    rules.append(rules[-1])
    league, said = league_of(text(rules))
    # four of CA1 and BR1 for all teams and rounds, one each of CA2, CA4 and BR2, and 4 + 4 that stay
    judge("rules that are put together", len(league["rules"]), 15)
    judge("what is said of them", said, "remark: 257 rules became 15 that count the same, in another order than the constraints\n")
    draw = random.Random(1)
    for _ in range(5):
        games = schedule(draw, 6)
        judge("what they cost", model.cost(games, league), model.cost(games, {**league, "rules": rules}))
    fixed = {"class": "GA1", "kind": "soft", "weight": 1, "games": [[1, 2]], "slots": [1], "min": 1, "max": 1}
    judge("too many rules", league_of(text([fixed] * 257)), "robinx: 257 rules are needed: a league has at most 256\n")


def main():
    check_ready()
    check_processes()
    check_refusals()
    check_limits()
    check_sheets()
    check_drawn()
    check_many()
    print(f"{passed} passed, {failed} failed")
    return bool(failed)
