"""holds docs/adding.md to the files that it names

usage: scripts/check adding

Each text between backticks that has a slash, or the form of a crate of tests, is a file or folder below crates/ or at the top, where `{a,b}`
stands for both. A part of each crate, as `specs/within`, is none. The last line is 'N passed, M failed', which counts them."""
import itertools
import re

from .. import TOP

PAGE = TOP / "docs/adding.md"
OF_EACH_CRATE = ("src", "specs", "proofs", "must-fail")


def expanded(name):
    """The names that one with braces stands for."""
    parts = [part.split(",") for part in re.split(r"[{}]", name)]
    return ["".join(chosen) for chosen in itertools.product(*parts)]


def stands(name):
    """Whether there is such a file or folder. A proof is named without its suffix, since some are folders."""
    places = [TOP / name.removeprefix("./"), TOP / "crates" / name]
    return any(place.exists() or place.with_name(place.name + ".antt").is_file() for place in places)


def main():
    named = re.findall(r"`([^`\n]+)`", PAGE.read_text(encoding="utf-8"))
    paths = [text for text in named if "/" in text[:-1] and text.split("/")[0] not in OF_EACH_CRATE or text.endswith("_tests")]
    files = [name for text in paths for name in expanded(text)]
    lacking = sorted(name for name in files if not stands(name))
    for name in lacking:
        print(f"check adding: docs/adding.md names {name}, and there is none")
    print(f"{len(files) - len(lacking)} passed, {len(lacking)} failed")
    return bool(lacking)
