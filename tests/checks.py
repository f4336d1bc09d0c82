"""Counts the checks of a script of Python, as tests/checks.sh those of the shell. tests/module_tests tests it."""


class Sums:
    """How many checks passed and failed."""

    def __init__(self):
        self.passed = self.failed = 0

    def check(self, holds, what):
        """Counts a check, and says what is wrong where it does not hold."""
        if holds:
            self.passed += 1
        else:
            self.failed += 1
            print(f"failed: {what}", flush=True)

    def end(self):
        """Says how many passed and failed. Gives the status: 0 where some passed, and none failed."""
        print(f"{self.passed} passed, {self.failed} failed")
        return 1 if self.failed or not self.passed else 0
