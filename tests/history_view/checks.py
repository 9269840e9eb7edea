"""Counts checks, and tells those that failed."""


class Checks:
    """How many checks passed, and what failed."""

    def __init__(self):
        self.passed = 0
        self.failures = []

    def true(self, holds, what):
        """Counts one check."""
        if holds:
            self.passed += 1
        else:
            self.failures.append(what)

    def equal(self, found, wanted, what):
        """Counts one check of a value against the one that it must be."""
        self.true(found == wanted, f"{what}: {short(found)} in place of {short(wanted)}")

    def raises(self, kind, call, what):
        """Counts one check that a call refuses; the refusal, if it is of this kind."""
        try:
            found = call()
        except kind as refusal:
            self.passed += 1
            return refusal
        self.failures.append(f"{what}: it is taken, as {short(found)}")
        return None

    def tell(self):
        """Prints what failed, and the line of numbers; the exit status."""
        for failure in self.failures:
            print(f"history view: {failure}")
        print(f"{self.passed} passed, {len(self.failures)} failed")
        return 1 if self.failures else 0


def short(value):
    text = repr(value)
    return text if len(text) <= 300 else f"{text[:150]} ... {text[-150:]}"
