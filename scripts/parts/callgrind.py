"""Instructions of a step of a search, and of each call of a function, counted by valgrind's callgrind, which other processes don't
disturb."""
import pathlib
import re
import subprocess
import tempfile

from .programs import searched


def counted(command, counts, options=(), text=""):
    """What valgrind says of a run of the command. The counts go to this file, or to files that begin with its name."""
    tool = ["valgrind", "--tool=callgrind", f"--callgrind-out-file={counts}", *options]
    return subprocess.run([*tool, *command], input=text, capture_output=True, text=True, check=True).stderr


def collected(command, text):
    """The instructions of a run of the command."""
    with tempfile.NamedTemporaryFile() as counts:
        return int(re.search(r"Collected : (\d+)", counted(command, counts.name, text=text))[1])


def instructions(program, text, steps, slack):
    """Those of a search of one worker over this league."""
    return collected([program, *searched(steps, slack)], text)


def step(program, text, few, many, slack=0):
    """Those of a step: of many steps more than of few, over the steps between."""
    return (instructions(program, text, many, slack) - instructions(program, text, few, slack)) / (many - few)


def symbols(program, path):
    """The names under which the program has the function of this path, one for each type that it is called with."""
    said = subprocess.run(["nm", program], capture_output=True, text=True, check=True).stdout
    names = {line.split(maxsplit=2)[-1] for line in said.splitlines()}
    return [name for name in names if name == path or name.startswith(f"{path}::<")]


def calls(program, words, path):
    """The instructions of each call of the function of this path, in the order of the calls."""
    names = symbols(program, path)
    # callgrind collects nothing if it toggles and dumps at one name that has types behind it
    toggle = path if names == [path] else f"{path}*"
    options = [f"--toggle-collect={toggle}", *(f"--dump-after={name}" for name in names)]
    with tempfile.TemporaryDirectory() as room:
        counted([program, *words], f"{room}/counts", ["--demangle=no", *options])
        dumps = sorted(pathlib.Path(room).glob("counts.*"), key=lambda file: int(file.suffix[1:]))
        return [int(re.search(r"^totals: (\d+)", dump.read_text(encoding="utf-8"), re.M)[1]) for dump in dumps]
