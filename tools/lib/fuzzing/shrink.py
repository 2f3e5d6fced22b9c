"""Makes an input smaller that has a fault, as long as it keeps the same sort of fault."""
import time
from dataclasses import replace

TRIES = 120
SECONDS = 15


class Shrinking:
    """Tries smaller inputs, until so many were tried or so much time is gone."""

    def __init__(self, judge, sort):
        self.judge, self.sort = judge, sort
        self.left, self.last = TRIES, time.monotonic() + SECONDS

    def keeps(self, given):
        """Whether an input has the fault."""
        if self.left == 0 or time.monotonic() > self.last:
            return False
        self.left -= 1
        wrong, _ = self.judge.fault(given)
        return wrong is not None and wrong.sort == self.sort

    def shrunk(self, given):
        """The smallest input that was found: pieces of the text are left out, from halves down to single bytes."""
        size = max(1, len(given.text) // 2)
        while size and given.text:
            given = self.without_pieces(given, size)
            size //= 2
        return given

    def without_pieces(self, given, size):
        """The input without the pieces of this size that it can do without."""
        place = 0
        while place < len(given.text) and self.left and time.monotonic() < self.last:
            smaller = replace(given, text=given.text[:place] + given.text[place + size:])
            if self.keeps(smaller):
                given = smaller
            else:
                place += size
        return given
