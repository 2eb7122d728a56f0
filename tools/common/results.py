"""Counts the checks of a tool, and prints those that fail and what is skipped."""
import shutil

# How much of a value is shown.
SHOWN = 500


def shown(value):
    text = repr(value)
    return text if len(text) <= SHOWN else f"{text[:SHOWN]}..."


def skip(what, why):
    """Prints that something is skipped, and why. The gate counts these lines."""
    print(f"skipped: {what} ({why})", flush=True)


class Results:
    """How many checks passed, failed and were skipped."""

    def __init__(self):
        self.passed, self.failed, self.skipped = 0, 0, 0

    def total(self):
        return self.passed + self.failed + self.skipped

    def expect(self, what, found, wanted=True):
        """Counts a check. One that failed is printed."""
        if found == wanted:
            self.passed += 1
        else:
            self.fail(f"{what}:\n  found  {shown(found)}\n  wanted {shown(wanted)}")

    def fail(self, why):
        self.failed += 1
        print(f"FAILED: {why}", flush=True)

    def skip(self, what, why):
        """Counts a check that is skipped, and prints why."""
        self.skipped += 1
        skip(what, why)

    def can(self, what, *programs):
        """Whether these programs are installed. If not, the check that needs them is skipped."""
        lacking = [name for name in programs if not shutil.which(name)]
        if lacking:
            self.skip(what, f"no {lacking[0]}")
        return not lacking

    def status(self):
        """Prints the counts, and returns the exit status of the tool."""
        print(f"{self.passed} passed, {self.failed} failed")
        return 1 if self.failed else 0
