"""calls `improve` with each two of its file words for one file, or for files with nearly one name, and looks at what became of all files

usage: scripts/check files [PROGRAM]     crates/ttp/out/ttp, which ./build makes, if none is named

Two words may be equal, or lead to one file by dots, folders, links or standard input: then the program has to refuse them, unless both are
read or the best schedule takes the place of that of `--from`. Or the name of one is that of the other with `.new` behind it, or one that
the program makes up. In each call, whatever its status, a file that is read stays as it was, and no file comes that isn't named; after a
refusal all stay so. The last line is 'N passed, M failed'; the status is 1 where a call failed."""
import concurrent.futures
import itertools
import os
import pathlib
import subprocess
import tempfile

from .. import TOP, improvements, programs

LEAGUE = (TOP / "leagues/circular-4.json").read_bytes()
SHEET = (TOP / "crates/ttp/stdout").read_bytes()
NAMES = {"LEAGUE": "season.json", "--from": "start.txt", "-o": "best.txt", "--log": "legs.txt"}
TEXTS = {"LEAGUE": LEAGUE, "--from": SHEET, "-o": b"old\n", "--log": b"old\n"}
READ = ("LEAGUE", "--from")
# the words that the program tells of, the first one first
CLASHES = [("-o", "LEAGUE"), ("--log", "LEAGUE"), ("--log", "--from"), ("--log", "-o")]


def symbolic(folder, name):
    (folder / "linked").symlink_to(name)
    return "linked"


def twice(folder, name):
    (folder / "first").symlink_to(name)
    (folder / "second").symlink_to("first")
    return "second"


def hard(folder, name):
    if not (folder / name).exists():
        return None
    os.link(folder / name, folder / "hard")
    return "hard"


def beneath(folder, name):
    (folder / "beneath").mkdir()
    return f"beneath/../{name}"


def around(folder, name):
    (folder / "around").symlink_to(".")
    return f"around/{name}"


# another word for the same file, or None if there can't be one
SAME = {
    "equal": lambda folder, name: name,
    "dotted": lambda folder, name: f"./{name}",
    "dotted twice": lambda folder, name: f".//./{name}",
    "whole": lambda folder, name: f"{folder}/{name}",
    "beneath": beneath,
    "around": around,
    "linked": symbolic,
    "linked twice": twice,
    "hard": hard,
}
# the name of another file
NEAR = {"new": lambda name: f"{name}.new", "hidden": lambda name: f".{name}.ttp-0", "next hidden": lambda name: f".{name}.ttp-1"}


def state(folder):
    """What the folder has: the text of each file, and where each link leads."""
    paths = [path for path in folder.rglob("*") if path.is_symlink() or path.is_file()]
    return {str(path.relative_to(folder)): path.readlink() if path.is_symlink() else path.read_bytes() for path in paths}


def called(program, folder, words, given=None):
    """How an improvement ends that is called by these words, by what they name."""
    named = [word for role, name in words.items() if role != "LEAGUE" for word in (role, name)]
    command = [program, "improve", words["LEAGUE"], "--effort", "0.01", *named]
    with open(folder / given if given else os.devnull, "rb") as source:
        return subprocess.run(command, stdin=source, capture_output=True, cwd=folder, timeout=600, check=False)


def is_refused(ended, words, pair):
    """Whether it was refused for these two words, by clap if they are equal."""
    role, other = pair
    told = f"{role} {words[role]} is the same file as {other} {words[other]}\n"
    begin, status = ("error", 2) if words[role] == words[other] else ("ttp", 1)
    return ended.returncode == status and not ended.stdout and ended.stderr.decode().startswith(f"{begin}: {told}")


def follow(before, after, folder, words, ended):
    """Whether the files that are written have what they have to, and all else is as it was."""
    written, lines = {}, ended.stdout.decode().splitlines()
    for role in set(words) - set(READ):
        written[str((folder / words[role]).resolve().relative_to(folder))] = role
        text = (folder / words[role]).read_text(encoding="utf-8")
        if role == "--log":
            if not improvements.read_log(text):
                return False
        elif text.splitlines() != improvements.ended(lines) or not text.endswith("\n"):
            return False
    return {name: text for name, text in before.items() if name not in written} == {
        name: text for name, text in after.items() if name not in written}


def failed(name, ended, before, after):
    changed = sorted(path for path in before.keys() | after.keys() if before.get(path) != after.get(path))
    print(f"check files: {name}: status {ended.returncode}, changed: {changed}", ended.stderr.decode()[:500], sep="\n")
    return False


def of_one(program, folder, first, second, kind, there):
    """The two words name one file, by the first one's own name and by another; and whether that's so if it isn't there yet."""
    name = NAMES[first]
    words = {"LEAGUE": NAMES["LEAGUE"], first: name}
    (folder / NAMES["LEAGUE"]).write_bytes(LEAGUE)
    reader = next((role for role in READ if role in (first, second)), None)
    if reader or there:
        (folder / name).write_bytes(TEXTS[reader or first])
    words[second] = SAME[kind](folder, name)
    if words[second] is None:
        return True
    pair = next((pair for pair in CLASHES if set(pair) == {first, second}), None)
    before = state(folder)
    ended = called(program, folder, words)
    after = state(folder)
    if {first, second} == {"--from", "-o"}:
        good = ended.returncode == 0 and follow(before, after, folder, words, ended)
    elif pair is None or not (reader or there) and kind in ("linked", "linked twice"):
        # a schedule that is none, or a link that leads nowhere
        good = ended.returncode == 1 and before == after
    else:
        good = is_refused(ended, words, pair) and before == after
    return good or failed(f"{first} and {second}, {kind}, {'' if there else 'not '}there", ended, before, after)


def of_two(program, folder, first, second, kind, there):
    """The second word is nearly the first one's name, but that of another file."""
    words = {"LEAGUE": NAMES["LEAGUE"], first: NAMES[first]}
    words[second] = NEAR[kind](words[first])
    if first not in READ and second not in READ or not {"-o", "--log"} & set(words):
        words.setdefault("-o", NAMES["-o"])
    for role, name in words.items():
        if role in READ or there:
            (folder / name).write_bytes(TEXTS[role])
    before = state(folder)
    ended = called(program, folder, words)
    after = state(folder)
    good = ended.returncode == 0 and follow(before, after, folder, words, ended)
    return good or failed(f"{first} and {second}, {kind}, {'' if there else 'not '}there", ended, before, after)


def of_input(program, folder, role, written, kind):
    """The text comes from standard input, which is a file that another word names."""
    name = NAMES[role]
    words = {"LEAGUE": NAMES["LEAGUE"], role: "-"}
    (folder / NAMES["LEAGUE"]).write_bytes(LEAGUE)
    (folder / name).write_bytes(TEXTS[role])
    words[written] = SAME[kind](folder, name)
    before = state(folder)
    ended = called(program, folder, words, given=name)
    after = state(folder)
    if (role, written) == ("--from", "-o"):
        good = ended.returncode == 0 and follow(before, after, folder, words, ended)
    else:
        good = is_refused(ended, words, (written, role)) and before == after
    return good or failed(f"{role} as input and {written}, {kind}", ended, before, after)


def calls():
    """Each check, with its arguments but for the program and the folder."""
    for first, second in itertools.permutations(NAMES, 2):
        for there in (False, True):
            yield from ((of_one, first, second, kind, there) for kind in SAME)
            yield from ((of_two, first, second, kind, there) for kind in NEAR)
    for role, written in itertools.product(READ, ("-o", "--log")):
        yield from ((of_input, role, written, kind) for kind in SAME)


def main(*words):
    program = programs.program(words)
    with tempfile.TemporaryDirectory() as top, concurrent.futures.ThreadPoolExecutor(os.cpu_count()) as pool:

        def is_passed(number, check, *details):
            folder = pathlib.Path(os.path.realpath(top)) / str(number)
            folder.mkdir()
            return check(program, folder, *details)

        runs = [pool.submit(is_passed, number, *call) for number, call in enumerate(calls())]
        passed = sum(run.result() for run in runs)
    print(f"{passed} passed, {len(runs) - passed} failed")
    return passed < len(runs)
