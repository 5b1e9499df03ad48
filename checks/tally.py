"""Counts what passed and what failed. The last line of a check is `N passed, M failed`."""
import sys


class Tally:
    """How many comparisons were right and wrong. What is wrong is printed at once, on standard error."""

    def __init__(self):
        self.passed = self.failed = 0

    def holds(self, what, is_right, told="not what is expected"):
        """Counts a comparison."""
        self.passed, self.failed = self.passed + bool(is_right), self.failed + (not is_right)
        if not is_right:
            print(f"{what}: {told}", file=sys.stderr)

    def equals(self, what, said, right):
        """Counts a comparison of two values."""
        self.holds(what, said == right, f"{said}, and not {right}")

    def end(self):
        """Prints the last line, and returns the status: 1 if something is wrong, or if nothing was compared."""
        print(f"{self.passed} passed, {self.failed} failed")
        return 1 if self.failed or not self.passed else 0


def holding(outcomes):
    """Counts pairs of what is compared and whether that is right. Returns the status."""
    tally = Tally()
    for it in outcomes:
        tally.holds(*it)
    return tally.end()


def equal(outcomes):
    """Counts triples of what is asked, what is answered, and what is right. Returns the status."""
    tally = Tally()
    for it in outcomes:
        tally.equals(*it)
    return tally.end()


def parts(words, known):
    """Returns the parts of a check that these words name, or all. Ends the check with status 2 if there is no such part."""
    unknown = [it for it in words if it not in known]
    if unknown:
        print(f"{sys.argv[0].split(' ')[-1]}: no part {unknown[0]}: there are {', '.join(known)}", file=sys.stderr)
        sys.exit(2)
    return words or list(known)
