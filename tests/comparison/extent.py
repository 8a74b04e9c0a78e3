"""How much of a test is run: the whole, or a tenth of what is generated for it."""

OPTION = '--tenth'


class Extent:
    """The whole where `parts` is 1; otherwise one of so many."""

    def __init__(self, parts=1):
        self.parts = parts

    def count(self, number):
        return -(-number // self.parts)

    def some(self, cases):
        return cases[::self.parts]

    def demand(self, report, name, complaint):
        """A test of the whole. Of a part only what it misses is printed: it need not reach all."""
        if self.parts == 1:
            report.test(name, complaint)
        else:
            print('\n'.join(filter(None, [complaint, f'not demanded of a part: {name}'])), flush=True)


def taken_from(arguments):
    """The extent that the arguments ask for, and the other arguments."""
    rest = [argument for argument in arguments if argument != OPTION]
    return Extent(10 if OPTION in arguments else 1), rest
