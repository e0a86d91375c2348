"""What passed and what failed."""


class Results:
    """Counts tests, and shows those that fail."""

    def __init__(self):
        self.passed = 0
        self.failed = 0

    def check(self, holds, what, otherwise):
        """Counts a test, and shows what was found if it fails."""
        if holds:
            self.passed += 1
        else:
            self.failed += 1
            print(f"failed: {what}: {otherwise}", flush=True)

    def close(self):
        """Writes the closing line, and returns the status."""
        print(f"{self.passed} passed, {self.failed} failed")
        return 1 if self.failed else 0
