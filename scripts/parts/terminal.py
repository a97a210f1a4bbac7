"""How many lines of a terminal a text takes: python3 scripts/parts/terminal.py COLUMNS <TEXT

The terminal knows a carriage return, a line feed, and of ECMA-48 and DEC's VT100 the sequences that erase to the end of the line (ESC [ K)
and that have it wrap text at its width or cut it there (ESC [ ? 7 h, ESC [ ? 7 l). At another one it ends with an error.
"""

import re
import sys

PART = re.compile(r"\r|\n|\x1b\[(K|\?7l|\?7h)|([^\x00-\x1f\x7f]+)")


def lines_of(text, columns):
    """The lines that were ever stood on."""
    line, column, wraps, most = 1, 0, True, 1
    place = 0
    while place < len(text):
        part = PART.match(text, place)
        if part is None:
            raise SystemExit(f"terminal: {text[place : place + 8]!r} is not known")
        place = part.end()
        if part[0] == "\r":
            column = 0
        elif part[0] == "\n":
            line += 1
        elif part[1]:
            wraps = {"?7l": False, "?7h": True}.get(part[1], wraps)
        else:
            reached = column + len(part[2])
            # the line after a full one is begun by the first character that it takes
            rows, column = divmod(max(reached - 1, 0), columns) if wraps else (0, min(reached, columns) - 1)
            line, column = line + rows, column + 1
        most = max(most, line)
    return most


if __name__ == "__main__":
    print(lines_of(sys.stdin.buffer.read().decode().replace("\r\n", "\n"), int(sys.argv[1])))
