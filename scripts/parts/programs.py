"""The programs that are run, which have to be made first, and what they say."""
import os
import resource
import subprocess
import sys
import time

from . import TOP


def made(path, maker):
    """The program at this path. Without one all ends here and says what makes it."""
    path = os.path.realpath(path)
    if not os.access(path, os.X_OK):
        sys.exit(f"{os.path.basename(sys.argv[0])}: no program {path} ({maker} makes it)")
    return path


def program(words=()):
    """The program that the words of a command line name, or the one that ./build makes."""
    return made(words[0] if words else TOP / "crates/ttp/out/ttp", "./build")


def benchmark(words=()):
    """The benchmark that the words of a command line name, or the one that `rt run` makes."""
    return made(words[0] if words else TOP / "crates/bench/out/bench", "`rt run -- 1` in crates/bench")


def text(command, *words, given="", lawful=(0,)):
    """What the program writes, which has to end with one of these statuses and no error."""
    words = [*map(str, words)]
    ended = subprocess.run([command, *words], input=given.encode(), capture_output=True, timeout=600, check=False)
    said = ended.stdout.decode()
    if ended.returncode not in lawful or ended.stderr:
        raise ValueError(f"{' '.join(words)}: status {ended.returncode}: {ended.stderr.decode()}")
    if words[0] == "improve" and (ended.returncode == 3) != said.endswith("\nbest none\n"):
        raise ValueError(f"status {ended.returncode} of an improvement that ends otherwise")
    return said


def run(*words, **options):
    """The lines of that."""
    return text(*words, **options).splitlines()


def total(command, *words, given):
    """The total of the best schedule, which the last line names, or None. The words are those of a command and its options."""
    ended = subprocess.run([command, *map(str, words)], input=given, capture_output=True, text=True, check=False)
    # 3 is that of an improvement without a feasible schedule
    if ended.returncode not in (0, 3):
        ended.check_returncode()
    best = ended.stdout.splitlines()[-1].split()[1]
    return None if best == "none" else int(best)


def improved(command, given, effort, seed, workers=1):
    """The total that an improvement comes to, and the seconds that it takes."""
    began = time.monotonic()
    found = total(command, "improve", "--workers", workers, "--effort", effort, "--seed", seed, given=given)
    return found, time.monotonic() - began


def started(command, given):
    """The total of the league's start, or None where it breaks hard limits."""
    return total(command, "search", "--workers", 1, "--steps", 0, given=given)


def searched(steps, slack, room=100000, workers=1):
    """The words of a search with the first seed."""
    said = {"--workers": workers, "--seed": 1, "--slack": slack, "--room": room, "--steps": steps}
    return ["search", *(str(word) for pair in said.items() for word in pair)]


def user_seconds(runs, command, given, lawful=(0,)):
    """The least processor time that so many runs take outside the operating system."""
    taken = []
    for _ in range(runs):
        before = resource.getrusage(resource.RUSAGE_CHILDREN).ru_utime
        ended = subprocess.run(command, input=given, stdout=subprocess.DEVNULL, text=True, check=False)
        if ended.returncode not in lawful:
            ended.check_returncode()
        taken.append(resource.getrusage(resource.RUSAGE_CHILDREN).ru_utime - before)
    return min(taken)


def row(*cells):
    """Prints a row of a table."""
    print("| " + " | ".join(map(str, cells)) + " |", flush=True)


def head(*cells):
    """Prints the first row of a table, and the line below it."""
    row(*cells)
    print("|---" * len(cells) + "|")
