"""What a comparison says: the first difference, what it reached, and how much it compared."""

import textwrap

LINE = 118


class Differences:
    """The differences of a run, counted; the first is printed in full."""

    def __init__(self):
        self.count = 0

    def tell(self, lines):
        """One difference, in lines; none where there are no lines."""
        if not lines:
            return
        self.count += 1
        if self.count == 1:
            print("\n".join(lines))


def verdict(word, reached, compared, differences):
    """Prints the end of a comparison; the status, 1 on a difference or a thing missed.

    A difference may have ended the run, so what is missed beside one is not told.
    """
    said = "compare %s: " % word
    print(textwrap.fill(said + "reached " + reached.told(), LINE, subsequent_indent="    "))
    faults = [] if differences.count else reached.faults()
    for line in faults:
        print(said + line)
    print("%s%s, %d differences" % (said, compared, differences.count))
    return 1 if differences.count or faults else 0
