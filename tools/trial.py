"""How many cases of a trial have passed and failed."""


class Tally:
    def __init__(self):
        self.passed = self.failed = 0

    def tell(self, name, why):
        """Counts a case, which failed where there is a reason."""
        if why:
            self.failed += 1
            print(f"FAILED {name}: {why}")
        else:
            self.passed += 1

    def ended(self):
        """Prints the last line, and gives the status."""
        print(f"{self.passed} passed, {self.failed} failed")
        return 1 if self.failed else 0
