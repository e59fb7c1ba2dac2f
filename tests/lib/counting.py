"""How many tests passed and failed, and the words of a command line that say so."""
import re


class Count:
    """How many tests passed and failed, added to those of a run before: `after` is the last line of
    that run."""

    def __init__(self, who, after=None):
        found = re.fullmatch(r"(\d+) passed, (\d+) failed", after or "0 passed, 0 failed")
        self.who, (self.passed, self.failed) = who, map(int, found.groups())
        self.before = self.failed

    def add(self, what, wrong):
        """Counts a test with what is wrong in it, and prints that."""
        wrong = all_of(wrong)
        self.passed, self.failed = self.passed + (not wrong), self.failed + bool(wrong)
        for it in wrong:
            print(f"{self.who}: {what}: {it}", flush=True)

    def add_all(self, tried):
        """Counts tests: pairs of a title and what is wrong."""
        for what, wrong in tried:
            self.add(what, wrong)

    @property
    def has_failed(self):
        """Whether a test of this run failed."""
        return self.failed > self.before

    def end(self):
        """Prints the last line. Returns the exit status."""
        print(f"{self.passed} passed, {self.failed} failed")
        return 1 if self.failed else 0


def all_of(wrong):
    """What is wrong in what is tried; where that breaks off, so much, and the rest is tried."""
    found = []
    try:
        found.extend(wrong)
    except Exception as error:  # pylint: disable=broad-except
        found.append(f"it broke off: {error!r}")
    return found


def taken(words, name):
    """The word after this one, if it is there; both are taken out."""
    if name not in words:
        return None
    at = words.index(name)
    found = words[at + 1]
    del words[at : at + 2]
    return found


def print_all(tried):
    """Runs tests, pairs of a title and what is wrong, and prints of each whether it passed. Returns
    the exit status."""
    failed = 0
    for what, wrong in tried:
        found = all_of(wrong)
        failed += bool(found)
        print(f"{'failed' if found else 'passed'}: {what}", flush=True)
        for it in found:
            print(f"    {it}", flush=True)
    return 1 if failed else 0
