"""holds the house to the lines and edits that docs/gate.md allows, and prints what each crate has

usage: scripts/check budget

A proof costs the gate by its lines, and an edit by a check. Whoever raises a limit says why on that page. The last line is
'N passed, M failed', which counts the limits."""
import re

from .. import TOP

LIMIT = re.compile(r"^\| ([a-z -]+) \| ([\d,]+) \|$", re.M)


def limits():
    """The limits of docs/gate.md, by their names there."""
    page = (TOP / "docs/gate.md").read_text(encoding="utf-8")
    return {name: int(most.replace(",", "")) for name, most in LIMIT.findall(page)}


def lines_of(crate):
    files = [file for part in ("src", "specs", "proofs") for file in (crate / part).rglob("*") if file.suffix in (".rt", ".antt")]
    return sum(file.read_bytes().count(b"\n") for file in files)


def main():
    allowed = limits()
    crates = sorted(crate for crate in (TOP / "crates").iterdir() if (crate / "src").is_dir())
    rows = [(crate.name, lines_of(crate), len([*crate.glob("must-fail/*.edit")])) for crate in crates]
    print(f"{'crate':20} {'lines':>7} {'edits':>5}")
    for name, lines, edits in sorted(rows, key=lambda row: -row[1]):
        print(f"{name:20} {lines:7,} {edits:5}")
    has = {"lines": sum(row[1] for row in rows), "must-fail edits": sum(row[2] for row in rows)}
    print(f"{'all':20} {has['lines']:7,} {has['must-fail edits']:5}")
    over = [name for name, count in has.items() if allowed[name] < count]
    for name in over:
        print(f"check budget: {has[name]:,} {name}, and docs/gate.md allows {allowed[name]:,}")
    print(f"{len(has) - len(over)} passed, {len(over)} failed")
    return bool(over)
