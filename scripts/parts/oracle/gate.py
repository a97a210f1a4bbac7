"""takes a few cases of each comparison, for a minute or so, always the same ones

usage: scripts/oracle gate [PROGRAM]

The last line is 'N passed, M failed', where each comparison counts as one; the status is 1 where one failed."""
import importlib
import time

from .. import programs

COMPARISONS = (
    ("rules", 120, 1),
    ("report", 500, 1),
    ("names",),
    ("distances", 500, 1),
    ("search-again", 60),
    ("improve-again", 6),
    ("repair",),
    ("improve", 6, 1),
)


def main(*words):
    program, failed = programs.program(words), 0
    for name, *numbers in COMPARISONS:
        began = time.monotonic()
        try:
            importlib.import_module(f"{__package__}.{name.replace('-', '_')}").main(*numbers, program)
        except ValueError as why:
            print(f"oracle {name}: {why}")
            failed += 1
        print(f"oracle {name}: {time.monotonic() - began:.0f} s", flush=True)
    print(f"{len(COMPARISONS) - failed} passed, {failed} failed")
    return bool(failed)
