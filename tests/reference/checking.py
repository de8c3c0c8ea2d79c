"""Counting of checks: each compares two values, and a failing one is printed."""


class Checks:
    def __init__(self, title):
        self.title = title
        self.made = 0
        self.failed = 0

    def equal(self, name, got, wanted):
        self.made += 1
        if got != wanted:
            self.failed += 1
            print('failed: %s: got %r, wanted %r' % (name, got, wanted))

    def holds(self, name, truth):
        self.equal(name, bool(truth), True)

    def report(self):
        """Print the line and give the exit status."""
        print('%s: %d checks, %d failed' % (self.title, self.made, self.failed))
        return 1 if self.failed else 0
