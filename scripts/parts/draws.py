"""The words of a generator, and the moves that are drawn with them. Written from the definitions of PCG-XSH-RR 64/32 (O'Neill 2014) and of
Canon's method for a number in a range."""
from .model import MOVES

MASK = 2**64 - 1
WORD = 2**32


class Generator:
    def __init__(self, seed, stream):
        self.increment = (stream << 1 | 1) & MASK
        self.state = (seed + self.increment) & MASK
        self.step()

    def step(self):
        self.state = (self.state * 6364136223846793005 + self.increment) & MASK

    def word(self):
        state = self.state
        self.step()
        shifted = ((state >> 18 ^ state) >> 27) % WORD
        turn = state >> 59
        return (shifted >> turn | shifted << (32 - turn) % 32) % WORD

    def below(self, most):
        high, low = divmod(self.word() * most, WORD)
        if low > WORD - most:
            high += (low + self.word() * most // WORD) // WORD
        return high


def draw(generator, teams, kinds=tuple(MOVES)):
    """One of the kinds of moves, and its numbers."""
    kind = kinds[generator.below(len(kinds))]
    return kind, *(generator.below(2 * (teams - 1) if of == "r" else teams) for of in MOVES[kind])
