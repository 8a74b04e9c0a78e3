"""The outcome of the tests: a line for each, and a last line with the totals."""


class Report:
    def __init__(self):
        self.passed = 0
        self.failed = 0

    def test(self, name, complaint):
        """Counts one test; it failed where there is a complaint, which is printed before its line."""
        if complaint:
            print(complaint)
            self.failed += 1
        else:
            self.passed += 1
        print('FAILED' if complaint else 'ok', name, flush=True)

    def finish(self):
        """Prints the totals and gives the exit status."""
        print(f'{self.passed} passed, {self.failed} failed')
        return 1 if self.failed else 0
