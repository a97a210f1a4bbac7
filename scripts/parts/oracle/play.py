"""plays a league and a script as `ttp play` has to

usage: scripts/oracle play [ROOM] < INPUT     a room of 1024, if none is given

The league has to be one. It tells the expected values of tests."""
import sys

from .. import texts


def main(room=1024):
    text, _, script = sys.stdin.read().partition("\nscript\n")
    print(*texts.play(text, script.splitlines(), int(room)), sep="\n")
