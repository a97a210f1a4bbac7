"""The commands of scripts/check, scripts/oracle and scripts/bench, a file each, and what they share."""
import contextlib
import importlib
import itertools
import os
import pathlib
import subprocess
import sys

TOP = pathlib.Path(__file__).resolve().parent.parent.parent


def run(program, about):
    """Does the command that the first word names, a file in the folder of this name, with the words behind it."""
    name, *words = sys.argv[1:] or [""]
    files = {file.stem.replace("_", "-"): file for file in sorted((TOP / "scripts/parts" / program).glob("*.*"))}
    try:
        if name not in files:
            print(about, *(f"  {each:21} {head(file).splitlines()[0]}" for each, file in files.items()), sep="\n")
            status = 0 if name == "--help" else 2
        else:
            status = print(head(files[name])) if "--help" in words else command(files[name])(*words)
        sys.stdout.flush()
    except BrokenPipeError:
        # the reader ended before, as `head` does
        os.dup2(os.open(os.devnull, os.O_WRONLY), 1)
        status = 1
    except ValueError as why:
        status = f"{program} {name}: {why}"
    sys.exit(status)


def command(file):
    """What a command's file does: a module's main, or a script of bash."""
    if file.suffix == ".sh":
        return lambda *words: subprocess.run([file, *words], check=False).returncode
    return importlib.import_module(f"parts.{file.parent.name}.{file.stem}").main


def head(file):
    """What the first lines of a command's file say. The first of them says what the command does."""
    text = file.read_text(encoding="utf-8")
    if file.suffix == ".py":
        return text.split('"""')[1]
    lines = itertools.takewhile(lambda line: line.startswith("#"), text.splitlines()[1:])
    return "\n".join(line[2:] for line in lines)


@contextlib.contextmanager
def case(name):
    """Says of what doesn't agree in which case it is."""
    try:
        yield
    except (ValueError, StopIteration, subprocess.TimeoutExpired) as why:
        raise ValueError(f"{name}: {why}") from why
