"""holds each example in Rust of README.md and of the READMEs of the crates to its source, so that what is shown was proved

usage: scripts/check examples

The last link before the block leads to a file, and the block's lines stand there one after another, at whatever indentation."""
import re
import sys
import textwrap

from .. import TOP

BLOCK = re.compile(r"^```rust\n(.*?)^```$", re.M | re.S)
LINK = re.compile(r"\]\(([^)#]+\.rt)\)")


def stands_in(source, example):
    """Whether the example's lines stand in the source one after another."""
    lines = source.splitlines()
    count = len(example.splitlines())
    stretches = ("\n".join(lines[at : at + count]) for at in range(len(lines) - count + 1))
    return any(textwrap.dedent(stretch) == example for stretch in stretches)


def faults_of(page):
    text = page.read_text()
    for block in BLOCK.finditer(text):
        links = LINK.findall(text[: block.start()])
        line = text[: block.start()].count("\n") + 1
        if not links:
            yield f"{page.relative_to(TOP)}:{line}: no source is named"
        elif not stands_in((page.parent / links[-1]).read_text(), block[1].rstrip("\n")):
            yield f"{page.relative_to(TOP)}:{line}: these lines don't stand in {links[-1]}"


def main():
    pages = [TOP / "README.md", *sorted(TOP.glob("crates/*/README.md"))]
    faults = [fault for page in pages for fault in faults_of(page)]
    for fault in faults:
        print(f"check examples: {fault}", file=sys.stderr)
    return bool(faults)
