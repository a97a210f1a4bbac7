"""Reads instances in RobinX's XML (Van Bulck, Goossens, Schönberger, Guajardo 2020), as far as a league can say what they ask. All else
is refused by its name. Teams and slots count from 0 here, as they do there. docs/robinx.md tells what is read."""
import xml.etree.ElementTree as ElementTree
from dataclasses import dataclass

from . import texts

# the ranges of a league (docs/league-format.md, docs/rules.md)
MOST = 10_000
HEAVIEST = 1_000_000
FARTHEST = 1_000_000
LONGEST_NAME = 40

SIDES = {"H": "H", "HOME": "H", "A": "A", "AWAY": "A"}
MODES = {**SIDES, "HA": "HA"}
REACHES = {"GLOBAL": "GLOBAL", "EVERY": "EVERY"}


class Refused(Exception):
    """What is given can't be said in a league, or isn't what it has to be. Each line of the text says one thing that is wrong."""


@dataclass(frozen=True)
class Resource:
    """The teams or the slots of an instance: the number and the name of each id, and the numbers in each group."""

    ids: dict
    names: list
    groups: dict


@dataclass(frozen=True)
class Constraint:
    """A constraint with its place in the file, from 1. Its members have RobinX's names; those that can say but one thing are None."""

    place: int
    name: str
    is_hard: bool
    penalty: int
    members: dict


@dataclass(frozen=True)
class Instance:
    """An instance of one league. Its distances are 0 if travel is no part of its objective."""

    name: str
    teams: list
    distances: list
    has_travel: bool
    is_phased: bool
    constraints: list

    @property
    def rounds(self):
        return 2 * (len(self.teams) - 1)


def found(root, path):
    """The text of this element, empty if it is absent."""
    return (root.findtext(path) or "").strip()


def listed(text, mark=";"):
    return [word.strip() for word in text.split(mark) if word.strip()]


def whole(given, name, least, most):
    """Takes the whole number of this attribute out of those that are given."""
    text = given.pop(name, "")
    if not text:
        raise Refused(f"{name} is absent")
    if not texts.is_number(text) or not least <= int(text) <= most:
        raise Refused(f"{name} {text} isn't {least} to {most}")
    return int(text)


def number_of(word, text, resource):
    if text not in resource.ids:
        raise Refused(f"there is no {word} {text}")
    return resource.ids[text]


# Readers of attributes. Each takes its own out of those that are given, and answers what they mean. What is left then isn't read.


def set_of(word):
    """The reader of a set of teams or slots: those that the attribute lists, and those of the groups that its fellow lists."""

    def read(given, name, season):
        resource = season[word]
        numbers = {number_of(word, text, resource) for text in listed(given.pop(name, ""))}
        for text in listed(given.pop(name.replace(word, word + "Group"), "")):
            if text not in resource.groups:
                raise Refused(f"{word}Group {text} has no {word}")
            numbers |= resource.groups[text]
        if not numbers:
            raise Refused(f"{name} is absent")
        return sorted(numbers)

    return read


def one_of(words):
    def read(given, name, _):
        text = given.pop(name, "")
        if text not in words:
            raise Refused(f"{name} {text} isn't read" if text else f"{name} is absent")
        return words[text]

    return read


def only(*texts):
    """The reader of an attribute that may be absent, or say what holds without it."""

    def read(given, name, _):
        text = given.pop(name, texts[0])
        if text not in texts:
            raise Refused(f"{name} {text} isn't read")

    return read


def count(given, name, _):
    return whole(given, name, 0, MOST)


def window(given, name, season):
    return whole(given, name, 1, len(season["slot"].ids))


def widest(given, name, season):
    """The most slots between two games: nothing is asked if no two slots have more between them."""
    text = given.pop(name, "")
    if text and (not texts.is_number(text) or int(text) < len(season["slot"].ids) - 2):
        raise Refused(f"{name} {text} isn't read")


def games(given, name, season):
    pairs = set()
    for text in listed(given.pop(name, "")):
        pair = [number_of("team", team, season["team"]) for team in listed(text, ",")]
        if len(pair) != 2 or pair[0] == pair[1]:
            raise Refused(f"{name} has {text}, which is no game")
        pairs.add(tuple(pair))
    if not pairs:
        raise Refused(f"{name} is absent")
    return sorted(pairs)


TEAMS, SLOTS, MODE, REACH, NONE = set_of("team"), set_of("slot"), one_of(MODES), one_of(REACHES), only("0")
# the attributes of each class, but for `type` and `penalty`
CLASSES = {
    "CA1": {"teams": TEAMS, "mode": one_of(SIDES), "slots": SLOTS, "min": NONE, "max": count},
    "CA2": {"teams1": TEAMS, "mode1": MODE, "teams2": TEAMS, "mode2": REACH, "slots": SLOTS, "min": NONE, "max": count},
    # each team has a game in each slot, so games in a row are slots in a row
    "CA3": {"teams1": TEAMS, "mode1": MODE, "teams2": TEAMS, "mode2": only("SLOTS", "GAMES"), "intp": window, "min": NONE, "max": count},
    "CA4": {"teams1": TEAMS, "mode1": MODE, "teams2": TEAMS, "mode2": REACH, "slots": SLOTS, "min": NONE, "max": count},
    "GA1": {"meetings": games, "slots": SLOTS, "min": count, "max": count},
    "BR1": {"teams": TEAMS, "mode1": only("LEQ"), "mode2": MODE, "slots": SLOTS, "intp": count},
    "BR2": {"teams": TEAMS, "homeMode": only("HA"), "mode2": only("LEQ"), "slots": SLOTS, "intp": count},
    "FA2": {"teams": TEAMS, "mode": only("H"), "slots": SLOTS, "intp": count},
    "SE1": {"teams": TEAMS, "mode1": only("SLOTS"), "min": count, "max": widest},
}


def constraint_of(place, element, season):
    """The constraint of this element, which says nothing that isn't read. An attribute without a text says nothing."""
    given = {name: text.strip() for name, text in element.attrib.items() if text.strip()}
    if element.tag not in CLASSES:
        raise Refused("the class isn't read")
    is_hard = one_of({"HARD": True, "SOFT": False})(given, "type", season)
    if is_hard:
        given.setdefault("penalty", "1")
    penalty = whole(given, "penalty", 1, HEAVIEST)
    members = {name: read(given, name, season) for name, read in CLASSES[element.tag].items()}
    if given:
        raise Refused(f"{min(given)} isn't read")
    if element.tag == "GA1" and members["min"] > members["max"]:
        raise Refused(f"min {members['min']} is above max {members['max']}")
    if element.tag == "CA4" and members["mode1"] == "HA" and len({*members["teams1"]} & {*members["teams2"]}) > 1:
        raise Refused("mode1 HA isn't read where two teams are both in teams1 and in teams2")
    return Constraint(place, element.tag, is_hard, penalty, members)


def constraints_of(root, season):
    """All constraints, or all that isn't read of them."""
    elements = [element for part in root.findall("Constraints") for element in part.iter() if not element.tag.endswith("Constraints")]
    constraints, faults = [], []
    for place, element in enumerate(elements, 1):
        try:
            constraints.append(constraint_of(place, element, season))
        except Refused as why:
            faults.append(f"Constraint {place}, {element.tag}: {why}")
    if faults:
        raise Refused("\n".join(faults))
    return constraints


def resource_of(root, word):
    """The teams or the slots, whose ids are the numbers from 0."""
    elements = root.findall(f"Resources/{word.capitalize()}s/{word}")
    by_id = {element.get("id", "").strip(): element for element in elements}
    ids = {str(number): number for number in range(len(elements))}
    if by_id.keys() != ids.keys():
        raise Refused(f"the ids of the {word}s aren't the numbers from 0 to {len(elements) - 1}")
    groups = {}
    for text, number in ids.items():
        for group in listed(by_id[text].get(f"{word}Groups", "")):
            groups.setdefault(group, set()).add(number)
    return Resource(ids, [by_id[text].get("name", "") for text in ids], groups)


def season_of(root):
    """The teams and the slots of a double round robin."""
    season = {word: resource_of(root, word) for word in ("team", "slot")}
    names, slots = season["team"].names, len(season["slot"].ids)
    if len(names) not in range(4, 41, 2):
        raise Refused(f"{len(names)} teams aren't read: a league has an even number from 4 to 40")
    if slots != 2 * (len(names) - 1):
        raise Refused(f"{slots} slots aren't read: the double round robin of {len(names)} teams has {2 * (len(names) - 1)}")
    for number, name in enumerate(names):
        if not 1 <= len(name.encode()) <= LONGEST_NAME or any(ord(mark) < 32 or ord(mark) == 127 for mark in name):
            raise Refused(f"the name of team {number} isn't 1 to {LONGEST_NAME} bytes without control marks")
    return season


def distances_of(root, teams):
    """The distances, each given in one direction or the same in both."""
    known = {}
    for element in root.iterfind("Data/Distances/distance"):
        pair = frozenset(number_of("team", element.get(end, "?"), teams) for end in ("team1", "team2"))
        length = whole(dict(element.attrib), "dist", 0, FARTHEST)
        if len(pair) == 1 and length:
            raise Refused("the distance from team {} to itself isn't 0".format(*pair))
        if known.setdefault(pair, length) != length:
            raise Refused("the distances between teams {} and {} aren't the same".format(*sorted(pair)))
    numbers = range(len(teams.names))
    for a in numbers:
        for b in range(a):
            if frozenset((a, b)) not in known:
                raise Refused(f"the distance between teams {b} and {a} is absent")
    return [[0 if a == b else known[frozenset((a, b))] for b in numbers] for a in numbers]


def check_structure(root):
    """That a league's schedules are those of the instance: one double round robin, in which each team plays in each slot."""
    if root.tag != "Instance":
        raise Refused(f"the root is {root.tag}, not Instance")
    for path, read in (("numberRoundRobin", ("2",)), ("compactness", ("C",)), ("gameMode", ("P", "NULL", ""))):
        text = found(root, f"Structure/Format/{path}")
        if text not in read:
            raise Refused(f"{path} {text} isn't read" if text else f"{path} is absent")
    for path in ("Structure/Format", "Resources/Leagues/league"):
        if len(root.findall(path)) > 1:
            raise Refused(f"more than one {path.split('/')[-1]} isn't read")
    if root.find("Structure/AdditionalGames/*") is not None:
        raise Refused("AdditionalGames aren't read")


def instance_of(text, name):
    """The instance in the bytes of the file of this name. No entity from elsewhere is read: a name of one makes the text no XML."""
    try:
        root = ElementTree.fromstring(text)
    except (ElementTree.ParseError, LookupError, ValueError) as why:
        raise Refused(f"{name} is no XML: {why}") from None
    check_structure(root)
    objective = found(root, "ObjectiveFunction/Objective")
    if objective not in ("TR", "SC"):
        raise Refused(f"Objective {objective} isn't read" if objective else "Objective is absent")
    season = season_of(root)
    teams, has_travel = season["team"], objective == "TR"
    return Instance(
        name=found(root, "MetaData/InstanceName"),
        teams=teams.names,
        distances=distances_of(root, teams) if has_travel else [[0] * len(teams.names) for _ in teams.names],
        has_travel=has_travel,
        is_phased=found(root, "Structure/Format/gameMode") == "P",
        constraints=constraints_of(root, season),
    )
