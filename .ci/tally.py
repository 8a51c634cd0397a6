"""What was checked, and what of it failed."""


class Tally:
    def __init__(self):
        self.passed, self.failed = 0, 0

    def check(self, is_good, why):
        """Counts a check, and says why it failed where it did."""
        if is_good:
            self.passed += 1
        else:
            self.failed += 1
            print(f"FAILED: {why}", flush=True)
        return is_good
