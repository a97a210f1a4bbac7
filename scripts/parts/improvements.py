"""The text and the log of `ttp improve`, written from docs/improve.md.

usage: python3 scripts/parts/improvements.py LOG [TEXT]     prints the steps of all legs of a log, and holds the text's totals to it"""
import json
import re
import sys
from decimal import Decimal

DECIMAL = r"\d+\.\d{3}"
LEG = re.compile(
    r'\{"leg":\d+,"chain":\d+,"moves":\["[a-z-]+"(?:,"[a-z-]+")*\],'
    rf'"from":{DECIMAL},"to":{DECIMAL},"seconds":{DECIMAL},'
    r'"steps":\d+,"accepted":\d+,"hard":\d+,"best":(?:\d+|null),"least":(?:\d+|null)\}'
)
HISTORY = re.compile(r"history \d+")
OFTEN = re.compile(r"(?P<name>runs|repeats|halves|rule \d+ \w+) broken in (?P<count>\d+) of (?P<all>\d+)")
END_OF_SOLUTION = "-" * 10


def read_log(text):
    """The figures of each leg of a log. The legs count from 1, their seconds don't fall, and the least total is that of all so far."""
    legs, least, passed = [], None, 0
    for number, line in enumerate(text.splitlines(), 1):
        if not LEG.fullmatch(line):
            raise ValueError(f"line {number} of the log is no leg's: {line}")
        leg = json.loads(line, parse_float=Decimal)
        least = min((total for total in (least, leg["best"]) if total is not None), default=None)
        if (leg["leg"], leg["least"]) != (number, least) or leg["seconds"] < passed:
            raise ValueError(f"line {number} of the log doesn't follow on those before it: {line}")
        passed = leg["seconds"]
        legs.append(leg)
    return legs


def totals(legs):
    """Those of the solutions that are written, each less than all before it."""
    return [*dict.fromkeys(leg["least"] for leg in legs if leg["least"] is not None)]


def parted(lines):
    """The solutions, each as its sheet and its line `best`, and the lines behind the last one."""
    ends = [number for number, line in enumerate(lines) if line == END_OF_SOLUTION]
    begins = [0, *(end + 1 for end in ends)]
    return [lines[begin:end] for begin, end in zip(begins, ends)], lines[begins[-1] :]


def ended(lines):
    """What stands in the file of the best: the lines behind the solutions, and behind those that tell how often limits are broken."""
    _, rest = parted(lines)
    return [line for line in rest if not OFTEN.fullmatch(line)]


def without_history(lines):
    """The lines that are written without `--history`."""
    begin = next(number for number, line in enumerate(lines) if HISTORY.fullmatch(line))
    rest = lines[lines.index("end", begin) + 1 :]
    return [*lines[:begin], *rest[:-1], re.sub(r" at \d+$", "", rest[-1])]


def main(log, *texts):
    with open(log, encoding="utf-8") as file:
        legs = read_log(file.read())
    for name in texts:
        with open(name, encoding="utf-8") as file:
            solutions, _ = parted(file.read().splitlines())
        if [f"best {total}" for total in totals(legs)] != [solution[-1] for solution in solutions]:
            sys.exit(f"improvements: the totals of {name} are none of the log")
    print(sum(leg["steps"] for leg in legs))


if __name__ == "__main__":
    main(*sys.argv[1:])
