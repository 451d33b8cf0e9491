"""Counts the checks that pass, and prints those that fail."""


class Checks:
    def __init__(self, part=""):
        self.part = part
        self.passed = self.failed = 0

    def equal(self, name, came, wanted):
        if came == wanted:
            self.passed += 1
        else:
            self.failed += 1
            print(f"{self.part}{name}: {came!r:.400}, and not {wanted!r:.400}", flush=True)

    def true(self, name, came):
        self.equal(name, bool(came), True)
