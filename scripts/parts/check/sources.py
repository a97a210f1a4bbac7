"""finds in seconds what `rt ci` refuses before it proves anything, or only hours later

usage: scripts/check sources

Each crate's files are laid out as `rt fmt` does it, no module has the name of a library below its crate, and each edit that has to be
refused can be made: its file is there, and each text that it replaces stands in it exactly once. Nothing is changed: the layout is tried
on a copy. The last line is 'N passed, M failed', which counts crates."""
import pathlib
import re
import shutil
import subprocess
import tempfile

from .. import TOP

PARTS = ("src", "specs", "proofs")


def uses():
    """The libraries that each crate uses itself, by its name."""
    lines = (line.split("#")[0] for line in (TOP / "crates.txt").read_text(encoding="utf-8").splitlines())
    rows = (line.partition(":") for line in lines if line.strip())
    return {left.split()[0]: right.split() for left, _, right in rows}


def below(name, used):
    """The names of all libraries that a crate stands on."""
    found, left = set(), [name]
    while left:
        for library in used.get(left.pop(), []):
            if library not in found:
                found.add(library)
                left.append(library)
    return found


def laid_out_otherwise(crate, room):
    """The crate's files that `rt fmt` would change."""
    copy = room / "crates" / crate.name
    for part in PARTS:
        if (crate / part).is_dir():
            shutil.copytree(crate / part, copy / part)
    ran = subprocess.run(["rt", "fmt"], cwd=copy, capture_output=True, text=True, check=False)
    if ran.returncode:
        return [f"`rt fmt` says: {(ran.stdout + ran.stderr).strip()[:300]}"]
    files = (file.relative_to(copy) for part in PARTS for file in (copy / part).rglob("*") if file.is_file())
    return [f"`rt fmt` lays {file} out otherwise" for file in sorted(files) if (copy / file).read_bytes() != (crate / file).read_bytes()]


def named_as_libraries(crate, names):
    texts = (file.read_text(encoding="utf-8") for file in (crate / "src").rglob("*.rt"))
    modules = (name for text in texts for name in re.findall(r"^(?:pub(?:\([a-z]+\))? )?mod (\w+)", text, re.M))
    return [f"its module {name} has the name of a library" for name in modules if name in names]


def edit_fault(crate, edit):
    """Why the edit can't be made, or None."""
    path, texts, old = "", {}, None
    for line in edit.read_text(encoding="utf-8").split("\n"):
        word, _, rest = line.partition(": ")
        if word == "file":
            path = rest.strip()
            if path not in texts and not (crate / path).is_file():
                return f"there is no file {path}"
            texts.setdefault(path, (crate / path).read_text(encoding="utf-8"))
        elif word == "old":
            old = rest
        elif line.startswith("new:") and old:
            count = texts[path].count(old)
            if count != 1:
                return f"a text to replace stands {count} times in {path}"
            texts[path], old = texts[path].replace(old, line[len("new:") :].removeprefix(" ")), None
    return None


def main():
    used, failed = uses(), 0
    crates = sorted(crate for crate in (TOP / "crates").iterdir() if (crate / "src").is_dir())
    with tempfile.TemporaryDirectory() as made:
        room = pathlib.Path(made)
        shutil.copy(TOP / "crates.txt", room)
        for crate in crates:
            edits = sorted(crate.glob("must-fail/*.edit"))
            faults = ((edit.relative_to(crate), edit_fault(crate, edit)) for edit in edits)
            problems = [f"{edit}: {why}" for edit, why in faults if why]
            problems += named_as_libraries(crate, below(crate.name, used)) + laid_out_otherwise(crate, room)
            failed += bool(problems)
            for problem in problems:
                print(f"check sources: {crate.name}: {problem}")
    print(f"{len(crates) - failed} passed, {failed} failed")
    return bool(failed)
