"""A repeatable source of chance: one seed gives the same row with every python3."""

WORD = (1 << 64) - 1


class Chance:
    """Numbers by the splitmix64 rule."""

    def __init__(self, seed):
        self.state = seed & WORD

    def word(self):
        """The next 64 bits."""
        self.state = (self.state + 0x9E3779B97F4A7C15) & WORD
        mixed = self.state
        mixed = ((mixed ^ (mixed >> 30)) * 0xBF58476D1CE4E5B9) & WORD
        mixed = ((mixed ^ (mixed >> 27)) * 0x94D049BB133111EB) & WORD
        return mixed ^ (mixed >> 31)

    def below(self, limit):
        """A number from 0 to limit - 1."""
        return self.word() % limit

    def between(self, low, high):
        """A number from low to high."""
        return low + self.below(high - low + 1)

    def one_in(self, times):
        """True once in so many times."""
        return self.below(times) == 0

    def pick(self, row):
        """One element of a row."""
        return row[self.below(len(row))]

    def some_bytes(self, count):
        """So many bytes of any value."""
        return bytes(self.below(256) for _ in range(count))

    def some_words(self, count):
        """So many 16-bit numbers, small ones more often."""
        return [self.below(self.pick((3, 20, 65536))) for _ in range(count)]
